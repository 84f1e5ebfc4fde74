/* Preloaded into a program, this notes each read, write and fsync of a file and each thread, and lets a read, write or fsync fail.

     gcc -shared -fPIC -O1 -o calls.so calls.c -ldl
     LD_PRELOAD=./calls.so CALLS_LOG=log CALLS_FAIL=fsync:2 PROGRAM ..

   CALLS_LOG names the file of notes. A note is a line: the call, what it answered, and the file's path, - for a thread.
   CALLS_FAIL tells which call fails, of which kind and which one, from 1. It does nothing and says EIO.
   Standard streams are passed over. */
#define _GNU_SOURCE
#include <dlfcn.h>
#include <errno.h>
#include <fcntl.h>
#include <limits.h>
#include <pthread.h>
#include <stdio.h>
#include <stdlib.h>
#include <string.h>
#include <unistd.h>

enum kind { READ, WRITE, FSYNC };
static const char *const names[] = {"read", "write", "fsync"};
static long calls[3];
static int notes = -1;

static ssize_t (*real_read)(int, void *, size_t);
static ssize_t (*real_write)(int, const void *, size_t);
static int (*real_fsync)(int);
static int (*real_thread)(pthread_t *, const pthread_attr_t *, void *(*)(void *), void *);

__attribute__((constructor)) static void begin(void) {
    real_read = (ssize_t (*)(int, void *, size_t))dlsym(RTLD_NEXT, "read");
    real_write = (ssize_t (*)(int, const void *, size_t))dlsym(RTLD_NEXT, "write");
    real_fsync = (int (*)(int))dlsym(RTLD_NEXT, "fsync");
    real_thread = (int (*)(pthread_t *, const pthread_attr_t *, void *(*)(void *), void *))dlsym(RTLD_NEXT, "pthread_create");
    const char *log = getenv("CALLS_LOG");
    if (log) notes = open(log, O_WRONLY | O_CREAT | O_TRUNC | O_APPEND | O_CLOEXEC, 0600);
}

/* Whether this call, the next of its kind, is the one that fails. */
static int fails(enum kind kind) {
    const char *wanted = getenv("CALLS_FAIL");
    size_t length = strlen(names[kind]);
    calls[kind]++;
    return wanted && strncmp(wanted, names[kind], length) == 0 && wanted[length] == ':'
        && atol(wanted + length + 1) == calls[kind];
}

static void note(const char *call, ssize_t answer, const char *path) {
    char line[PATH_MAX + 64];
    int size = snprintf(line, sizeof line, "%s %zd %s\n", call, answer, path);
    if (notes >= 0 && real_write(notes, line, (size_t)size) != size) abort();
}

/* Notes what the call answered, and hands it on. */
static ssize_t noted(enum kind kind, int file, ssize_t answer) {
    int error = errno;
    char link[32], path[PATH_MAX];
    snprintf(link, sizeof link, "/proc/self/fd/%d", file);
    ssize_t length = readlink(link, path, sizeof path - 1);
    path[length > 0 ? length : 0] = 0;
    note(names[kind], answer, path);
    errno = error;
    return answer;
}

static ssize_t fault(enum kind kind, int file) {
    errno = EIO;
    return noted(kind, file, -1);
}

ssize_t read(int file, void *buffer, size_t size) {
    if (file <= 2) return real_read(file, buffer, size);
    if (fails(READ)) return fault(READ, file);
    return noted(READ, file, real_read(file, buffer, size));
}

ssize_t write(int file, const void *piece, size_t size) {
    if (file <= 2) return real_write(file, piece, size);
    if (fails(WRITE)) return fault(WRITE, file);
    return noted(WRITE, file, real_write(file, piece, size));
}

int fsync(int file) {
    if (file <= 2) return real_fsync(file);
    if (fails(FSYNC)) return (int)fault(FSYNC, file);
    return (int)noted(FSYNC, file, real_fsync(file));
}

int pthread_create(pthread_t *thread, const pthread_attr_t *how, void *(*work)(void *), void *of) {
    int answer = real_thread(thread, how, work, of);
    note("thread", answer, "-");
    return answer;
}
