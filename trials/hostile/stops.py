"""Stops of a program at one of its writes, and reads of few bytes: by a library that `cc` builds and the program loads."""

import os
import subprocess

from .running import SECONDS_MOST

# A write to a file counts where it goes beyond the standard streams. At the one that STOP_AT names the first bytes are written,
# so many as the seed draws, some of them as other ones; then the process is killed. PIECE is how many bytes a read of the
# standard input gives at most.
LIBRARY = r"""
#define _GNU_SOURCE
#include <signal.h>
#include <stdlib.h>
#include <sys/syscall.h>
#include <unistd.h>

static long given(const char *name) { const char *word = getenv(name); return word ? atol(word) : -1; }

static unsigned draw(void) {
    static unsigned long state;
    if (!state) state = (unsigned long)given("STOP_SEED") | 1;
    state = state * 6364136223846793005UL + 1442695040888963407UL;
    return (unsigned)(state >> 33);
}

ssize_t write(int fd, const void *from, size_t len) {
    static long count;
    if (fd < 3 || count++ != given("STOP_AT")) return syscall(SYS_write, fd, from, len);
    unsigned char torn[4096];
    size_t most = draw() % ((len < sizeof torn ? len : sizeof torn) + 1);
    unsigned noise = draw() % 2;
    for (size_t at = 0; at < most; at++)
        torn[at] = noise && draw() % 4 == 0 ? (unsigned char)draw() : ((const unsigned char *)from)[at];
    syscall(SYS_write, fd, torn, most);
    kill(getpid(), SIGKILL);
    return -1;
}

ssize_t read(int fd, void *to, size_t len) {
    long piece = fd ? -1 : given("PIECE");
    size_t most = piece > 0 ? 1 + draw() % piece : len;
    return syscall(SYS_read, fd, to, most < len ? most : len);
}
"""


class Runs:
    """Runs of programs in a folder, over files that are told by name."""

    def __init__(self, folder, written):
        """`written` are the names of the files that a run may write."""
        self.folder, self.written, self.files, self.count = folder, written, {}, 0
        self.library = self.path("stops.so")
        with open(self.path("stops.c"), "w", encoding="ascii") as file:
            file.write(LIBRARY)
        subprocess.run(["cc", "-O2", "-shared", "-fPIC", "-o", self.library, file.name], check=True)

    def path(self, name):
        return os.path.join(self.folder, name)

    def put(self, files):
        for name in {**files, **self.files}:
            if name not in files:
                os.remove(self.path(name))
            elif self.files.get(name) != files[name]:
                with open(self.path(name), "wb") as file:
                    file.write(files[name])

    def run(self, program, words, files, heard, settings):
        """The status and both outputs of a run over these files, and the files as it leaves them."""
        self.put(files)
        environment = {**os.environ, **{name: str(value) for name, value in settings.items()}}
        if settings:
            environment["LD_PRELOAD"] = self.library
        try:
            done = subprocess.run([program, *words], cwd=self.folder, input=heard, capture_output=True, check=False,
                                  timeout=SECONDS_MOST, env=environment)
            outcome = done.returncode, done.stdout, done.stderr
        except subprocess.TimeoutExpired:
            outcome = -1, b"", b"no end in time"
        self.count, self.files = self.count + 1, {name: data for name, data in files.items() if name not in self.written}
        for name in self.written:
            if os.path.exists(self.path(name)):
                with open(self.path(name), "rb") as file:
                    self.files[name] = file.read()
        return outcome, self.files
