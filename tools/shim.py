"""A library that stands before the C library's allocator, streams and threads in a run of a program: it counts what the
program asks of these, and refuses what it is told to.

It is compiled by cc. What it counts stands in a file that it maps, so a process that is killed tells it too. A call of the
allocator is one of malloc, calloc, realloc and their like, also by the C library itself; calls of `read` and `write` are
those of any file. As batches, an input comes so that each read gives one of them whole.
"""

import contextlib
import os
import socket
import struct
import subprocess
import tempfile
import threading
from pathlib import Path
from typing import NamedTuple

SOURCE = r"""
#define _GNU_SOURCE
#include <errno.h>
#include <fcntl.h>
#include <malloc.h>
#include <pthread.h>
#include <stdatomic.h>
#include <stddef.h>
#include <stdlib.h>
#include <string.h>
#include <sys/mman.h>
#include <sys/syscall.h>
#include <sys/uio.h>
#include <unistd.h>
#include <dlfcn.h>

extern void *__libc_malloc(size_t);
extern void *__libc_calloc(size_t, size_t);
extern void *__libc_realloc(void *, size_t);
extern void *__libc_memalign(size_t, size_t);
extern void __libc_free(void *);

/* In the order of Counts in tools/shim.py. */
struct counts {
    atomic_long calls, bytes, in_use, most, refused, behind, threads, refused_threads, reads, writes, syncs;
};
static struct counts own, *counts = &own;
enum { NOTHING, MEMORY, MEMORY_BEHIND, THREADS };
static int refuses = NOTHING, is_ready;
static long first, last;
static _Thread_local int is_behind;

static void get_ready(void) {
    is_ready = 1;
    const char *file = getenv("SHIM_COUNTS"), *told = getenv("SHIM_REFUSES");
    int fd = file ? open(file, O_RDWR) : -1;
    if (fd >= 0) {
        void *place = mmap(NULL, sizeof own, PROT_READ | PROT_WRITE, MAP_SHARED, fd, 0);
        if (place != MAP_FAILED) counts = place;
        close(fd);
    }
    if (!told) return;
    char *end;
    refuses = !strncmp(told, "memory ", 7) ? MEMORY : !strncmp(told, "behind ", 7) ? MEMORY_BEHIND : THREADS;
    first = strtol(strchr(told, ' '), &end, 10);
    last = strtol(end, NULL, 10);
}

static int is_refused(long number) { return first <= number && number <= last; }

/* Counts a call of the allocator, and tells whether it is refused. */
static int refuses_memory(size_t size) {
    if (!is_ready) get_ready();
    long call = atomic_fetch_add(&counts->calls, 1) + 1;
    atomic_fetch_add(&counts->bytes, size);
    long behind = is_behind ? atomic_fetch_add(&counts->behind, 1) + 1 : 0;
    if (!(refuses == MEMORY && is_refused(call)) && !(refuses == MEMORY_BEHIND && behind && is_refused(behind))) return 0;
    atomic_fetch_add(&counts->refused, 1);
    errno = ENOMEM;
    return 1;
}

static void *given(void *place) {
    if (!place) return place;
    long size = malloc_usable_size(place), now = atomic_fetch_add(&counts->in_use, size) + size;
    long most = atomic_load(&counts->most);
    while (now > most && !atomic_compare_exchange_weak(&counts->most, &most, now)) {}
    return place;
}

static void taken_back(void *place) {
    if (place) atomic_fetch_sub(&counts->in_use, (long)malloc_usable_size(place));
}

void *malloc(size_t size) { return refuses_memory(size) ? NULL : given(__libc_malloc(size)); }
void *calloc(size_t count, size_t size) { return refuses_memory(count * size) ? NULL : given(__libc_calloc(count, size)); }
void *realloc(void *old, size_t size) {
    if (refuses_memory(size)) return NULL;
    long before = old ? (long)malloc_usable_size(old) : 0;
    void *place = __libc_realloc(old, size);
    if (place || !size) atomic_fetch_sub(&counts->in_use, before);
    return given(place);
}
void *memalign(size_t align, size_t size) { return refuses_memory(size) ? NULL : given(__libc_memalign(align, size)); }
void *aligned_alloc(size_t align, size_t size) { return memalign(align, size); }
int posix_memalign(void **to, size_t align, size_t size) {
    if (refuses_memory(size)) return ENOMEM;
    *to = given(__libc_memalign(align, size));
    return *to ? 0 : ENOMEM;
}
void free(void *place) {
    int before = errno;
    taken_back(place);
    __libc_free(place);
    errno = before;
}

ssize_t read(int fd, void *to, size_t size) {
    atomic_fetch_add(&counts->reads, 1);
    return syscall(SYS_read, fd, to, size);
}
ssize_t pread(int fd, void *to, size_t size, off_t at) {
    atomic_fetch_add(&counts->reads, 1);
    return syscall(SYS_pread64, fd, to, size, at);
}
ssize_t pread64(int fd, void *to, size_t size, off_t at) { return pread(fd, to, size, at); }
ssize_t write(int fd, const void *from, size_t size) {
    atomic_fetch_add(&counts->writes, 1);
    return syscall(SYS_write, fd, from, size);
}
ssize_t writev(int fd, const struct iovec *from, int count) {
    atomic_fetch_add(&counts->writes, 1);
    return syscall(SYS_writev, fd, from, count);
}
ssize_t pwrite(int fd, const void *from, size_t size, off_t at) {
    atomic_fetch_add(&counts->writes, 1);
    return syscall(SYS_pwrite64, fd, from, size, at);
}
ssize_t pwrite64(int fd, const void *from, size_t size, off_t at) { return pwrite(fd, from, size, at); }
int fsync(int fd) {
    atomic_fetch_add(&counts->syncs, 1);
    return syscall(SYS_fsync, fd);
}
int fdatasync(int fd) {
    atomic_fetch_add(&counts->syncs, 1);
    return syscall(SYS_fdatasync, fd);
}

struct start { void *(*work)(void *); void *with; };
static void *behind_start(void *told) {
    struct start start = *(struct start *)told;
    __libc_free(told);
    is_behind = 1;
    return start.work(start.with);
}
int pthread_create(pthread_t *thread, const pthread_attr_t *attributes, void *(*work)(void *), void *with) {
    static int (*create)(pthread_t *, const pthread_attr_t *, void *(*)(void *), void *);
    if (!is_ready) get_ready();
    if (!create) create = dlsym(RTLD_NEXT, "pthread_create");
    if (refuses == THREADS && is_refused(atomic_fetch_add(&counts->threads, 1) + 1)) {
        atomic_fetch_add(&counts->refused_threads, 1);
        return EAGAIN;
    }
    if (refuses != THREADS) atomic_fetch_add(&counts->threads, 1);
    struct start *start = __libc_malloc(sizeof *start);
    if (!start) return EAGAIN;
    *start = (struct start){work, with};
    int failed = create(thread, attributes, behind_start, start);
    if (failed) __libc_free(start);
    return failed;
}
"""

NO_LAST = 1 << 60
SECONDS = 60  # after which a run is ended


class Counts(NamedTuple):
    """What was counted of a run. `behind` are the calls of the allocator on threads that the program started."""

    calls: int
    bytes: int
    in_use: int
    most: int
    refused: int
    behind: int
    threads: int
    refused_threads: int
    reads: int
    writes: int
    syncs: int


class Refusal(NamedTuple):
    """Which calls are refused, counted from 1: of `memory`, of memory `behind` the start of a thread, or of `threads`."""

    what: str
    first: int
    last: int


def one(call, what="memory"):
    """That call is refused alone."""
    return Refusal(what, call, call)


def each_from(call, what="memory"):
    """That call is refused, and each behind it."""
    return Refusal(what, call, NO_LAST)


class Ended(NamedTuple):
    """What is seen of a run. The status is None where it didn't end in time."""

    status: int | None
    out: bytes
    err: bytes
    counts: Counts

    def what(self):
        """All but the counts."""
        return self.status, self.out, self.err


class Shim:
    """The library, compiled in a folder."""

    def __init__(self, folder):
        self.folder = Path(folder)
        source, self.library = self.folder / "shim.c", self.folder / "shim.so"
        source.write_text(SOURCE)
        subprocess.run(["cc", "-O1", "-shared", "-fPIC", "-o", self.library, source, "-ldl"], check=True)

    def run(self, command, given=b"", refusal=None, batches=None, seconds=SECONDS):
        """One run on an input, or on batches of one, of which each is read by itself."""
        with tempfile.NamedTemporaryFile(dir=self.folder) as file:
            file.write(bytes(4096))
            file.flush()
            settings = {"LD_PRELOAD": str(self.library), "SHIM_COUNTS": file.name}
            if refusal:
                settings["SHIM_REFUSES"] = " ".join(map(str, refusal))
            run, source = (plain, given) if batches is None else (batched, batches)
            told = run(command, source, settings, seconds)
            counts = Counts(*struct.unpack_from(f"{len(Counts._fields)}q", os.pread(file.fileno(), 4096, 0)))
        return Ended(*told, counts)


def end_of(command, source, settings, seconds):
    """The status and both outputs of a run."""
    try:
        child = subprocess.run(command, stdin=source, capture_output=True, env=settings, timeout=seconds)
        return child.returncode, child.stdout, child.stderr
    except subprocess.TimeoutExpired as late:
        return None, late.stdout or b"", late.stderr or b""


def plain(command, given, settings, seconds):
    """A run whose input is a file, so that each read gives as much as is asked for."""
    with tempfile.TemporaryFile() as source:
        source.write(given)
        source.seek(0)
        return end_of(command, source, settings, seconds)


def send(ours, batches):
    """Sends batches, as far as they are taken."""
    with ours, contextlib.suppress(ConnectionError):
        for batch in batches:
            ours.sendall(batch)


def batched(command, batches, settings, seconds):
    """A run whose input is a socket that keeps the borders of what was sent."""
    ours, theirs = socket.socketpair(socket.AF_UNIX, socket.SOCK_SEQPACKET)
    sender = threading.Thread(target=send, args=(ours, batches))
    try:
        with theirs:
            sender.start()
            return end_of(command, theirs, settings, seconds)
    finally:
        sender.join()
