"""Images that are made from docs/FORMAT.md, and not by the program: large stores in little time, for bench/scale.

All of it is real: each slot in use has its 262,144 bytes on the disk, each digest is that of its bytes, and `check` finds nothing. Data is
random bytes from fixed seeds, cut as the program cuts them; the last 8 bytes of a segment number it. Files of 2,000 containers each name
what is there, but for two kinds of container, 20 of each: *bare* ones, of which no file needs anything, and *thin* ones, of which a file
needs the first quarter of the segments. A `collect 50` frees these 40 slots, and copies what is needed of the thin ones.
"""

import hashlib
import os
import random
import struct
from itertools import accumulate

from images import FILES, ROOM

FIRST_SLOT, SLOT = FILES.FIRST_SLOT, FILES.SLOT
HEADER = 49_664
SHAPES = 16
# How many bare ones there are and as many thin ones, and where: among the first 500 containers of data.
SPARE = 20
BARE = {24 * it + 7 for it in range(SPARE)}
THIN = {24 * it + 19 for it in range(SPARE)}
# The containers of data of a file.
STRETCH = 2_000
WIDTH = 64
# So many nodes have room in a container, of the largest.
NODES = ROOM // (4 + 40 * WIDTH)


class Shape:
    """Random bytes of a container, and its segments: of each its end, its length, and the SHA-256 of it as far as its number."""

    def __init__(self, seed):
        source = random.Random(seed)
        lengths = []
        # A window of 12 bits that hits, from 2,048 bytes on, and 16,384 at most.
        while sum(lengths) + (length := min(16_384, 2_048 + int(source.expovariate(1 / 4_096)))) <= ROOM:
            lengths.append(length)
        self.body = FILES.random_bytes(source, ROOM)[: sum(lengths)]
        self.pieces = [
            (end, length, hashlib.sha256(self.body[end - length : end - 8])) for end, length in zip(accumulate(lengths), lengths)
        ]


def cell(fields):
    """A cell whose gate is the first byte of its fields."""
    fields = fields.ljust(480, b"\0")
    return fields + hashlib.sha256(fields[1:]).digest()


def container(number, kind, pieces, body):
    """A slot in use: of each piece its digest, length and level are told."""
    entries, at = bytearray(), 0
    for digest, length, level in pieces:
        entries += digest + struct.pack(">IIB7x", at, length, level)
        at += length
    head = struct.pack(">7sQBxHI", b"DDFSCON", number, kind, len(pieces), at)
    head = b"\xc5" + head + hashlib.sha256(head + entries).digest()
    return (head.ljust(512, b"\0") + entries).ljust(HEADER, b"\0") + body.ljust(ROOM, b"\0")


def tree(segments):
    """The nodes over two segments or more, children first: of each its digest, its level and its bytes. And the length, level and digest
    of the root."""
    level, row, nodes = 0, segments, []
    while len(row) > 1:
        level, above = level + 1, []
        for at in range(0, len(row), WIDTH):
            part = row[at : at + WIDTH]
            node = struct.pack(">BBH", level, 1, len(part)) + b"".join(digest + struct.pack(">Q", length) for digest, length in part)
            above.append((hashlib.sha256(node).digest(), sum(length for _digest, length in part)))
            nodes.append((above[-1][0], level, node))
        row = above
    return nodes, (row[0][1], level, row[0][0])


def count_of_nodes(segments):
    count = 0
    while segments > 1:
        segments = -(-segments // WIDTH)
        count += segments
    return count


class BuiltImage:
    """An image of which so many slots are in use, 600 at least, and some are free."""

    def __init__(self, path, used):
        self.path, self.used, self.slots = path, used, used + used // 50 + 16
        self.shapes = [Shape(seed) for seed in range(SHAPES)]
        self.data = self.count_of_data()
        self.records = []
        with open(path, "wb") as disk:
            disk.truncate(FIRST_SLOT + (SLOT + SLOT // 2) * self.slots)
            nodes = []
            for begin in range(0, self.data, STRETCH):
                nodes += self.write_file(disk, begin, min(begin + STRETCH, self.data))
                self.leave(disk)
            self.write_nodes(disk, nodes)
            self.write_cells(disk)
            self.leave(disk)

    def needed(self, number):
        """How many segments of a container a file needs."""
        count = len(self.shapes[number % SHAPES].pieces)
        return 0 if number in BARE else count // 4 if number in THIN else count

    def count_of_data(self):
        """The most containers of data with which there is room for the nodes."""
        before = [0, *accumulate(self.needed(number) for number in range(self.used))]
        for data in range(self.used, 0, -1):
            files = ((begin, min(begin + STRETCH, data)) for begin in range(0, data, STRETCH))
            if sum(count_of_nodes(before[end] - before[begin]) for begin, end in files) <= (self.used - data) * NODES:
                return data
        raise FILES.Failed("there is no room for the nodes")

    def write_slot(self, disk, slot, kind, pieces, body):
        disk.seek(FIRST_SLOT + SLOT * slot)
        disk.write(container(slot + 1, kind, pieces, body))

    def write_data(self, disk, number):
        """The segments of a container of data that a file needs."""
        shape = self.shapes[number % SHAPES]
        body, pieces = bytearray(shape.body), []
        for place, (end, length, begun) in enumerate(shape.pieces):
            mark = struct.pack(">Q", number << 10 | place)
            body[end - 8 : end] = mark
            whole = begun.copy()
            whole.update(mark)
            pieces.append((whole.digest(), length, 0))
        self.write_slot(disk, number, 0, pieces, bytes(body))
        return [(digest, length) for digest, length, _level in pieces[: self.needed(number)]]

    def write_file(self, disk, begin, end):
        """The containers of a file. Its record is noted, and its nodes are given back."""
        segments = []
        for number in range(begin, end):
            segments += self.write_data(disk, number)
        nodes, (length, level, digest) = tree(segments)
        name = f"night-{begin // STRETCH + 1:02}".encode()
        head = struct.pack(">BBBQQB", 0xA5, 1, len(name), len(self.records) + 1, length, level)
        self.records.append(cell(head + digest + name))
        return nodes

    def write_nodes(self, disk, nodes):
        slots = self.used - self.data
        for it in range(slots):
            part = nodes[len(nodes) * it // slots : len(nodes) * (it + 1) // slots]
            pieces = [(digest, len(node), level) for digest, level, node in part]
            self.write_slot(disk, self.data + it, 1, pieces, b"".join(node for _digest, _level, node in part))

    def write_cells(self, disk):
        begin = cell(b"\xd5DDFSIMG" + struct.pack(">II", 1, self.slots)) + cell(b"\xb5DDFSSEL" + struct.pack(">QIBQ", 1, 1, 0, 0))
        disk.seek(0)
        disk.write((begin + bytes(512) + b"".join(self.records)).ljust(FIRST_SLOT, b"\0"))

    def leave(self, disk):
        """What was written is on the disk, and not in memory."""
        disk.flush()
        os.fsync(disk.fileno())
        os.posix_fadvise(disk.fileno(), 0, 0, os.POSIX_FADV_DONTNEED)

    def reset(self):
        """Undoes what one `ingest` of a byte, or one `collect 50`, has done."""
        with open(self.path, "r+b") as disk:
            self.write_cells(disk)
            for number in sorted(BARE | THIN):
                self.write_data(disk, number)
            for slot in range(self.used, self.slots):
                disk.seek(FIRST_SLOT + SLOT * slot)
                if disk.read(1) != b"\0":
                    disk.seek(FIRST_SLOT + SLOT * slot)
                    disk.write(b"\0")
            disk.flush()
            os.fsync(disk.fileno())

    def forget(self):
        """Nothing of the image is in memory any more."""
        with open(self.path, "rb") as disk:
            os.fsync(disk.fileno())
            os.posix_fadvise(disk.fileno(), 0, 0, os.POSIX_FADV_DONTNEED)
