"""The program over an image, and what the image has: what most programs of this folder share."""

import os
import re
import subprocess
import sys
from importlib.machinery import SourceFileLoader
from importlib.util import module_from_spec, spec_from_loader

HERE = os.path.dirname(os.path.realpath(__file__))
TOP = os.path.dirname(HERE)
# The bytes of segments or nodes that a container has room for.
ROOM = 212_480


def files_module():
    """The bytes of nights, and the places of slots, are those of bench/files."""
    loader = SourceFileLoader("files", f"{HERE}/files")
    module = module_from_spec(spec_from_loader("files", loader))
    loader.exec_module(module)
    return module


sys.dont_write_bytecode = True
FILES = files_module()
Failed, MIB, PROGRAM = FILES.Failed, FILES.MIB, FILES.PROGRAM


def call(program, image, *words, given=None, source=None):
    """Runs a command, and gives its reply. Its input is the bytes `given`, or the file `source`, or none."""
    words = [program, image, *map(str, words)]
    with open(source or os.devnull, "rb") as stdin:
        feed = {"input": given} if given is not None else {"stdin": stdin}
        done = subprocess.run(words, stdout=subprocess.PIPE, stderr=subprocess.PIPE, **feed)
    if done.returncode:
        raise Failed(f"{' '.join(words)}: status {done.returncode}, {done.stderr.decode(errors='replace').strip()}")
    return done.stdout


def stat(program, image):
    """The bytes of segments and nodes in containers, and how many slots are used and free."""
    reply = call(program, image, "run", given=b"stat\n").decode()
    found = re.fullmatch(r"stat files \d+ segments \d+ bytes (\d+) used (\d+) free (\d+)\n", reply)
    if not found:
        raise Failed(f"stat: {reply}")
    return tuple(map(int, found.groups()))


def collect(program, image, percent):
    """How many slots were freed, and how many segments and nodes copied."""
    reply = call(program, image, "collect", percent).decode()
    found = re.fullmatch(r"collected freed (\d+) copied (\d+)\n", reply)
    if not found:
        raise Failed(f"collect {percent}: {reply}")
    return tuple(map(int, found.groups()))


def containers(image, slots):
    """The containers of an image: of each its id, its kind (0 data, 1 tree), its bytes of segments or nodes, and its slot."""
    found = []
    with open(image, "rb") as disk:
        for slot in range(slots):
            disk.seek(FILES.FIRST_SLOT + FILES.SLOT * slot)
            head = disk.read(24)
            if head[0] == 0xC5:
                found.append((int.from_bytes(head[8:16], "big"), head[16], int.from_bytes(head[20:24], "big"), slot))
    return found


def lengths_of(image, slots):
    """The lengths of the segments in the containers of data, in the order in which they were stored."""
    found = []
    with open(image, "rb") as disk:
        for _id, kind, _held, slot in sorted(containers(image, slots)):
            if kind == 0:
                disk.seek(FILES.FIRST_SLOT + FILES.SLOT * slot)
                head = disk.read(512 + 48 * 1024)
                count = int.from_bytes(head[18:20], "big")
                found.extend(int.from_bytes(head[512 + 48 * it + 36 : 512 + 48 * it + 40], "big") for it in range(count))
    return found


def full(parts):
    """How full containers are, in percent of the bytes that they have room for."""
    return f"{100 * sum(parts) / (ROOM * len(parts)):.1f} %" if parts else "-"


def least(parts):
    """How many containers of one kind would have room for as many bytes."""
    return -(-sum(parts) // ROOM)


def needs_program(parser, given):
    given.program = os.path.realpath(given.program)
    if not os.access(given.program, os.X_OK):
        parser.error(f"there is no program {given.program}: ./ddfs builds it at its first call")


def slots_for(first, new, kept):
    """N by the formula of README.md, 'How large', for 80 percent: of the bytes of a first night, the new bytes of a later one, and how many
    nights are kept, all of them by days."""
    return (first + kept * new) // 170_000 + (kept + 1) * (first // 24_000_000 + 3) + 3 * first // (2 * new) + 4
