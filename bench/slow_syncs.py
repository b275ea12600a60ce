"""A disk whose syncs take 4 ms more, for programs that call libc's, and for those that do not."""

import os
import re
import shutil
import subprocess

from images import Failed

MILLISECONDS = 4
CALLS = ("fsync", "fdatasync", "syncfs", "sync_file_range", "msync")
# Each call is made, then waits, then leaves a byte in a file, so that they can be counted. What only begins to write does not wait.
LIBRARY = r"""
#define _GNU_SOURCE
#include <dlfcn.h>
#include <errno.h>
#include <fcntl.h>
#include <stdlib.h>
#include <sys/mman.h>
#include <time.h>
#include <unistd.h>

static void waits(void) {
    int before = errno;
    struct timespec left = {0, MILLISECONDS * 1000000L};
    while (nanosleep(&left, &left) != 0 && errno == EINTR) {}
    const char *path = getenv("SLOW_SYNCS");
    int count = path ? open(path, O_WRONLY | O_CREAT | O_APPEND | O_CLOEXEC, 0600) : -1;
    if (count >= 0) {
        if (write(count, "s", 1) != 1) abort();
        close(count);
    }
    errno = before;
}

#define SLOW(name, taken, given, when) \
    int name taken { \
        int (*real) taken = dlsym(RTLD_NEXT, #name); \
        int got = real given; \
        if (when) waits(); \
        return got; \
    }

SLOW(fsync, (int fd), (fd), 1)
SLOW(fdatasync, (int fd), (fd), 1)
SLOW(syncfs, (int fd), (fd), 1)
SLOW(sync_file_range, (int fd, off64_t at, off64_t count, unsigned flags), (fd, at, count, flags),
     flags & (SYNC_FILE_RANGE_WAIT_BEFORE | SYNC_FILE_RANGE_WAIT_AFTER))
SLOW(msync, (void *at, size_t count, int flags), (at, count, flags), flags & MS_SYNC)
"""


class SlowSyncs:
    def __init__(self, folder):
        self.library, self.noted = f"{folder}/slow_syncs.so", f"{folder}/syncs"
        source = f"{folder}/slow_syncs.c"
        with open(source, "w", encoding="ascii") as text:
            text.write(LIBRARY)
        words = ["gcc", "-O2", "-shared", "-fPIC", f"-DMILLISECONDS={MILLISECONDS}", "-o", self.library, source, "-ldl"]
        done = subprocess.run(words, capture_output=True)
        if done.returncode:
            raise Failed(f"gcc: {done.stderr.decode(errors='replace')}")

    def words(self, words, by_libc):
        """The words that run a command so, and what its environment has to have."""
        if os.path.exists(self.noted):
            os.remove(self.noted)
        if by_libc:
            return words, {"LD_PRELOAD": self.library, "SLOW_SYNCS": self.noted}
        # strace stops a program at signals too. Go sends itself many, but for this word.
        calls, more = ",".join(CALLS), {"GODEBUG": "asyncpreemptoff=1"}
        inject = f"inject={calls}:delay_exit={1000 * MILLISECONDS}"
        return ["strace", "-f", "--seccomp-bpf", "-o", self.noted, "-e", f"trace={calls}", "-e", inject, *words], more

    def count(self, by_libc):
        """How many syncs of the last command waited."""
        if not os.path.exists(self.noted):
            return 0
        if by_libc:
            return os.path.getsize(self.noted)
        with open(self.noted, encoding="utf-8", errors="replace") as lines:
            return sum(1 for line in lines if re.match(rf"\d+ +({'|'.join(CALLS)})\(", line))

    def does(self, by_libc):
        """Whether it can do this here."""
        if by_libc:
            return True
        words, _environment = self.words(["true"], False)
        return shutil.which("strace") is not None and subprocess.run(words, capture_output=True).returncode == 0
