"""A library in C that is loaded before the C library and lets calls fail: requests for memory, or calls on files."""
import subprocess

# Met calls are counted from 0; those from FAIL_FROM to FAIL_TO fail, and the first says so on standard error.
# FAIL_WHAT: memory; input (EIO), full (ENOSPC) or quota (EDQUOT); killed (the process ends before the call); interrupted (EINTR, at
# that call alone); short (one byte is moved); closing (EIO at what need not succeed: a file is closed all the same, and one that is
# not locked is used).
SOURCE = r"""
#define _GNU_SOURCE
#include <errno.h>
#include <fcntl.h>
#include <signal.h>
#include <stdarg.h>
#include <stddef.h>
#include <stdlib.h>
#include <limits.h>
#include <stdio.h>
#include <string.h>
#include <sys/file.h>
#include <sys/stat.h>
#include <sys/syscall.h>
#include <unistd.h>

void *__libc_malloc(size_t size);
void *__libc_calloc(size_t count, size_t size);
void *__libc_realloc(void *old, size_t size);
void *__libc_memalign(size_t align, size_t size);

enum what { NOTHING, MEMORY, INPUT, INTERRUPTED, SHORT, CLOSING };

static enum what what = NOTHING;
static long met, first, last;
static int fault = EIO, kills;

__attribute__((constructor)) static void begin(void) {
    const char *from = getenv("FAIL_FROM"), *to = getenv("FAIL_TO"), *named = getenv("FAIL_WHAT");
    if (!from || !to || !named)
        return;
    first = atol(from);
    last = atol(to);
    kills = !strcmp(named, "killed");
    fault = !strcmp(named, "full") ? ENOSPC : !strcmp(named, "quota") ? EDQUOT : EIO;
    what = !strcmp(named, "memory") ? MEMORY : !strcmp(named, "interrupted") ? INTERRUPTED : !strcmp(named, "closing") ? CLOSING
         : !strcmp(named, "short") ? SHORT : INPUT;
}

static int fails(int error) {
    long at = met++;
    if (at < first || last < at)
        return 0;
    if (at == first && syscall(SYS_write, 2, "failed", 6) != 6)
        abort();
    if (kills)
        raise(SIGKILL);
    errno = error;
    return 1;
}

static int no_memory(void) { return what == MEMORY && fails(ENOMEM); }
static int no_call(void) { return (what == INPUT && fails(fault)) || (what == INTERRUPTED && fails(EINTR)); }
static int no_uninterrupted(void) { return what == INPUT && fails(fault); }
static int no_closing(void) { return (what == CLOSING && fails(EIO)) || (what == INTERRUPTED && fails(EINTR)); }
static size_t moved(size_t size) { return what == SHORT && size > 1 && fails(0) ? 1 : size; }

void *malloc(size_t size) { return no_memory() ? NULL : __libc_malloc(size); }
void *calloc(size_t count, size_t size) { return no_memory() ? NULL : __libc_calloc(count, size); }
void *realloc(void *old, size_t size) { return no_memory() ? NULL : __libc_realloc(old, size); }
void *memalign(size_t align, size_t size) { return no_memory() ? NULL : __libc_memalign(align, size); }
void *aligned_alloc(size_t align, size_t size) { return no_memory() ? NULL : __libc_memalign(align, size); }
int posix_memalign(void **made, size_t align, size_t size) {
    *made = no_memory() ? NULL : __libc_memalign(align, size);
    return *made ? 0 : ENOMEM;
}

int open(const char *name, int flags, ...) {
    va_list rest;
    va_start(rest, flags);
    int mode = flags & O_CREAT ? va_arg(rest, int) : 0;
    va_end(rest);
    int file = strncmp(name, "/dev/", 5) != 0;
    return file && no_call() ? -1 : (int)syscall(SYS_openat, AT_FDCWD, name, flags, mode);
}
ssize_t pread(int file, void *to, size_t size, off_t at) {
    return no_call() ? -1 : syscall(SYS_pread64, file, to, moved(size), at);
}
ssize_t pwrite(int file, const void *from, size_t size, off_t at) {
    return no_call() ? -1 : syscall(SYS_pwrite64, file, from, moved(size), at);
}
ssize_t write(int file, const void *from, size_t size) {
    return no_call() ? -1 : syscall(SYS_write, file, from, moved(size));
}
int ftruncate(int file, off_t size) { return no_call() ? -1 : (int)syscall(SYS_ftruncate, file, size); }
int fsync(int file) { return no_call() ? -1 : (int)syscall(SYS_fsync, file); }
int fdatasync(int file) { return no_call() ? -1 : (int)syscall(SYS_fdatasync, file); }
int fchmod(int file, mode_t mode) { return no_call() ? -1 : (int)syscall(SYS_fchmod, file, mode); }
int flock(int file, int how) { return no_closing() ? -1 : (int)syscall(SYS_flock, file, how); }
int close(int file) {
    int ended = (int)syscall(SYS_close, file);
    return what == CLOSING && fails(EIO) ? -1 : ended;
}
// no signal interrupts these
int statx(int at, const char *restrict name, int flags, unsigned mask, struct statx *restrict found) {
    return no_uninterrupted() ? -1 : (int)syscall(SYS_statx, at, name, flags, mask, found);
}
int rename(const char *from, const char *to) { return no_uninterrupted() ? -1 : (int)syscall(SYS_rename, from, to); }
int unlink(const char *name) { return no_uninterrupted() ? -1 : (int)syscall(SYS_unlink, name); }
ssize_t readlink(const char *restrict name, char *restrict to, size_t size) {
    return no_uninterrupted() ? -1 : syscall(SYS_readlink, name, to, size);
}
"""

ALL_THAT_FOLLOW = 2**62


def made_library(folder):
    """Makes the library in a folder, and gives its path."""
    source, library = folder / "fail.c", folder / "fail.so"
    source.write_text(SOURCE)
    subprocess.run(["cc", "-O1", "-shared", "-fPIC", "-o", library, source], check=True)
    library.chmod(0o755)
    return library


def environment(library, what, first, last):
    """The environment of a process in which the calls from `first` to `last` fail."""
    return {"LD_PRELOAD": str(library), "FAIL_WHAT": what, "FAIL_FROM": str(first), "FAIL_TO": str(last)}


def met(outcome):
    """Whether a call failed, and the outcome without what the library said of it."""
    failed = outcome.errors.startswith(b"failed")
    return failed, outcome.with_errors(outcome.errors.removeprefix(b"failed"))
