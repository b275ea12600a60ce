"""Nights, and the stores of other programs into which they go: what bench/nights, bench/checking and bench/peers share."""

import json
import os
import shutil
import subprocess
import time

from images import FILES, Failed

NAMES = ("first", "second", "third")
# The segments of ddfs as borg says it: from 2^11 to 2^14 bytes, cut where 12 bits of a window hit, which has 48 bytes; borg wants it odd.
LEAST, BITS, MOST, WINDOW = 11, 12, 14, 49


def command(words, source=os.devnull, sink=None, environment=None):
    """Runs a command, and gives its seconds and what it wrote, where that is to be kept."""
    with open(source, "rb") as stdin, open(sink or os.devnull, "wb") as stdout:
        os.sync()
        start = time.perf_counter()
        kept = stdout if sink else subprocess.PIPE
        done = subprocess.run(words, stdin=stdin, stdout=kept, stderr=subprocess.PIPE, env=environment)
        wall = time.perf_counter() - start
    if done.returncode:
        raise Failed(f"{' '.join(words)}: status {done.returncode}, {done.stderr.decode(errors='replace').strip()}")
    return wall, "" if sink else done.stdout.decode(errors="replace")


def size_of_folder(folder):
    return sum(os.path.getsize(f"{at}/{name}") for at, _folders, names in os.walk(folder) for name in names)


def allocated_in_folder(folder):
    return sum(os.lstat(f"{at}/{name}").st_blocks * 512 for at, _folders, names in os.walk(folder) for name in (".", *names))


class Nights:
    """Three nights, each made from the one before."""

    def __init__(self, folder, size):
        self.paths = [f"{folder}/{name}" for name in NAMES]
        FILES.write_first_night(self.paths[0], size)
        FILES.write_second_night(self.paths[1], self.paths[0], size)
        self.write_third_night(size)
        self.digests = [FILES.digest_of(path) for path in self.paths]
        self.sizes = [os.path.getsize(path) for path in self.paths]

    def write_third_night(self, size):
        """The second night, with as many bytes replaced in the middle of each stretch."""
        source = FILES.random.Random(3)
        piece = int(size * FILES.CHANGED) // FILES.PLACES
        with open(self.paths[1], "rb") as old, open(self.paths[2], "wb") as new:
            whole = os.path.getsize(self.paths[1])
            for place in range(FILES.PLACES):
                begin, end = whole * place // FILES.PLACES, whole * (place + 1) // FILES.PLACES
                old.seek(begin)
                half = (end - begin) // 2
                new.write(old.read(half))
                new.write(FILES.random_bytes(source, piece))
                old.seek(begin + half + piece)
                new.write(old.read(max(0, end - begin - half - piece)))

    def is_back(self, number, path, title):
        FILES.same_bytes(path, self.digests[number], f"{title}: the {NAMES[number]} night")

    def logical(self, numbers):
        return sum(self.sizes[number] for number in numbers)


class Other:
    """What the stores of other programs have in common: a folder, into which nights go, mostly as standard input."""

    title = program = ""
    # Without these, nights are read from their files, and given back into files.
    by_streams = True

    def __init__(self, folder):
        self.folder, self.home = f"{folder}/{self.title}", f"{folder}/{self.title}.home"
        self.environment = dict(os.environ, HOME=self.home, XDG_CACHE_HOME=f"{self.home}/cache")

    def call(self, words, source=os.devnull, sink=None):
        return command(words, source, sink, self.environment)

    def is_there(self):
        return shutil.which(self.program) is not None

    def clear(self):
        for folder in (self.folder, self.home):
            shutil.rmtree(folder, ignore_errors=True)

    def stored(self):
        """The bytes of its files, and those that the disk has for them."""
        return size_of_folder(self.folder), allocated_in_folder(self.folder)


class Borg(Other):
    title = program = "borg"
    cutting = ()

    def version(self):
        return self.call(["borg", "--version"])[1].strip()

    def flags(self):
        return " ".join(["--encryption=none", "--compression=none", *self.cutting])

    def make(self):
        self.environment["BORG_UNKNOWN_UNENCRYPTED_REPO_ACCESS_IS_OK"] = "yes"
        self.call(["borg", "init", "--encryption=none", self.folder])

    def storing(self, name, _path):
        return ["borg", "create", "--compression=none", *self.cutting, f"{self.folder}::{name}", "-"]

    def giving(self, name, _path):
        return ["borg", "extract", "--stdout", f"{self.folder}::{name}"]

    def deleting(self, name, wholly):
        # The threshold is that of segments which are written anew, in percent of what is not needed.
        flags = ["--threshold=0"] if wholly else []
        return [["borg", "delete", f"{self.folder}::{name}"], ["borg", "compact", *flags, self.folder]]


class FineBorg(Borg):
    """With segments as long as those of ddfs."""

    title = "borg-fine"
    cutting = (f"--chunker-params=buzhash,{LEAST},{MOST},{BITS},{WINDOW}",)


class Restic(Other):
    title = program = "restic"

    def version(self):
        return self.call(["restic", "version"])[1].strip() + "; it encrypts always"

    def flags(self):
        return "--compression=off"

    def make(self):
        self.environment["RESTIC_PASSWORD"] = "nights"
        self.call(["restic", "-r", self.folder, "init"])

    def storing(self, name, _path):
        words = ["backup", "--stdin", "--stdin-filename", name, "--tag", name]
        return ["restic", "-r", self.folder, "--compression=off", *words]

    def giving(self, name, _path):
        return ["restic", "-r", self.folder, "dump", "--tag", name, "latest", f"/{name}"]

    def deleting(self, name, wholly):
        # By its number: a policy that keeps nothing wants the flag --unsafe-allow-remove-all, which older ones don't know.
        _wall, found = self.call(["restic", "-r", self.folder, "snapshots", "--json", "--tag", name])
        gone = [it["id"] for it in json.loads(found)]
        flags = ["--max-unused=0"] if wholly else []
        return [["restic", "-r", self.folder, "forget", *gone], ["restic", "-r", self.folder, "prune", *flags]]


class Casync(Other):
    title = program = "casync"
    by_streams = False
    cutting = ()

    def version(self):
        return self.call(["casync", "--version"])[1].split("\n")[0].strip() + "; it compresses always, and never syncs"

    def flags(self):
        return " ".join(["--compression=zstd", *self.cutting])

    def index(self, name):
        return f"{self.folder}/{name}.caibx"

    def words(self, *words):
        return ["casync", f"--store={self.folder}/store.castr", "--compression=zstd", *self.cutting, *words]

    def make(self):
        os.mkdir(self.folder)

    def storing(self, name, path):
        return self.words("make", self.index(name), path)

    def giving(self, name, path):
        return self.words("extract", self.index(name), path)

    def deleting(self, name, _wholly):
        return [["rm", self.index(name)], self.words("gc", *(self.index(it) for it in NAMES if it != name))]


class FineCasync(Casync):
    """With segments as long as those of ddfs, of which the average is 2,048 bytes and the 4,096 or so until a window hits."""

    title = "casync-fine"
    cutting = (f"--chunk-size={1 << LEAST}:{(1 << LEAST) + (1 << BITS)}:{1 << MOST}",)
