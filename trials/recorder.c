/* Preloaded into a program, it notes what the program does to one file: each write with its place and bytes, and each sync.
   RECORD_FILE=PATH   the file, as the program names it
   RECORD_LOG=PATH    where the notes go: for a write 'w', its place and its length, 8 bytes each, and the bytes; for a sync 's'
   RECORD_WAIT=N      each sync takes N microseconds more
   Built by: gcc -shared -fPIC -O2 -o recorder.so recorder.c -ldl */
#define _GNU_SOURCE
#include <dlfcn.h>
#include <fcntl.h>
#include <stdarg.h>
#include <stdint.h>
#include <stdlib.h>
#include <string.h>
#include <sys/types.h>
#include <unistd.h>

static int watched = -1, notes = -1;

static void note(const void *bytes, size_t count) {
    static ssize_t (*plain)(int, const void *, size_t);
    if (!plain) plain = dlsym(RTLD_NEXT, "write");
    const char *from = bytes;
    while (notes >= 0 && count > 0) {
        ssize_t done = plain(notes, from, count);
        if (done <= 0) _exit(120);
        from += done;
        count -= done;
    }
}

static void look(const char *path, int file) {
    const char *wanted = getenv("RECORD_FILE"), *log = getenv("RECORD_LOG");
    static int (*plain)(const char *, int, ...);
    if (!plain) plain = dlsym(RTLD_NEXT, "open64");
    if (file < 0 || !wanted || strcmp(path, wanted)) return;
    watched = file;
    if (log && notes < 0) notes = plain(log, O_WRONLY | O_CREAT | O_APPEND | O_CLOEXEC, 0600);
}

#define OPENS(name)                                                     \
    int name(const char *path, int flags, ...) {                        \
        static int (*plain)(const char *, int, ...);                    \
        if (!plain) plain = dlsym(RTLD_NEXT, #name);                    \
        va_list more;                                                   \
        va_start(more, flags);                                          \
        int mode = flags & O_CREAT ? va_arg(more, int) : 0;             \
        va_end(more);                                                   \
        int file = plain(path, flags, mode);                            \
        look(path, file);                                               \
        return file;                                                    \
    }
OPENS(open)
OPENS(open64)

ssize_t write(int file, const void *bytes, size_t count) {
    static ssize_t (*plain)(int, const void *, size_t);
    if (!plain) plain = dlsym(RTLD_NEXT, "write");
    if (file != watched) return plain(file, bytes, count);
    uint64_t place = lseek(file, 0, SEEK_CUR);
    ssize_t done = plain(file, bytes, count);
    if (done > 0) {
        uint64_t length = done;
        note("w", 1);
        note(&place, 8);
        note(&length, 8);
        note(bytes, done);
    }
    return done;
}

int fsync(int file) {
    static int (*plain)(int);
    if (!plain) plain = dlsym(RTLD_NEXT, "fsync");
    const char *wait = getenv("RECORD_WAIT");
    if (wait) usleep(atol(wait));
    int done = plain(file);
    if (file == watched && done == 0) note("s", 1);
    return done;
}
