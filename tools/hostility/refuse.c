/* Stands between a program and the C library, and has one of the program's own calls fail.

   FISH_CALL is "KIND NUMBER": the call of that kind with that number, from 1, fails. The kinds are
     memory   malloc, realloc
     input    open of a file that is only read, read
     output   write to standard output
     disk     the store: open, flock, statx, pread, pwrite, fsync
     cut      after that write to standard output the store is cut to FISH_CUT bytes
     short    read, write, pread or pwrite of several bytes: it moves one
     signal   the same calls and open: interrupted, nothing was moved
   FISH_COUNT is a file of COUNTS numbers of 8 bytes: how many calls of each kind there were, in this order, and last whether one failed.
   FISH_TRACE, if given, is a file that gets each pwrite and each fsync of the store: three numbers of 8 bytes (0 or 1, the place, the
   length), and the bytes. A pwrite that fails is among them, since a disk may have begun it, and an fsync that fails is not. */
#define _GNU_SOURCE
#include <dlfcn.h>
#include <errno.h>
#include <fcntl.h>
#include <link.h>
#include <sched.h>
#include <stdarg.h>
#include <stdint.h>
#include <stdlib.h>
#include <string.h>
#include <sys/mman.h>
#include <sys/stat.h>
#include <unistd.h>

enum kind { MEMORY, INPUT, OUTPUT, DISK, CUT, SHORT, SIGNAL, KINDS };
enum { FAILED = KINDS, COUNTS };
static const char *const NAMES[KINDS] = {"memory", "input", "output", "disk", "cut", "short", "signal"};

void *__libc_malloc(size_t);
void *__libc_realloc(void *, size_t);
static int (*real_open)(const char *, int, ...);
static int (*real_flock)(int, int);
static int (*real_statx)(int, const char *, int, unsigned, struct statx *);
static int (*real_fsync)(int);
static int (*real_yield)(void);
static ssize_t (*real_read)(int, void *, size_t);
static ssize_t (*real_write)(int, const void *, size_t);
static ssize_t (*real_pread)(int, void *, size_t, off_t);
static ssize_t (*real_pwrite)(int, const void *, size_t, off_t);

static uintptr_t begins, ends; /* of the program */
static uint64_t unseen[COUNTS], *counts = unseen;
static enum kind refused = KINDS;
static uint64_t number;
static int store = -1, trace = -1;

static int first_object(struct dl_phdr_info *object, size_t size, void *unused) {
    (void)size, (void)unused;
    for (int i = 0; i < object->dlpi_phnum; i++) {
        const ElfW(Phdr) *part = &object->dlpi_phdr[i];
        if (part->p_type == PT_LOAD && part->p_flags & PF_X) {
            begins = object->dlpi_addr + part->p_vaddr;
            ends = begins + part->p_memsz;
        }
    }
    return 1; /* the first object is the program */
}

__attribute__((constructor)) static void begin(void) {
    real_open = (int (*)(const char *, int, ...))dlsym(RTLD_NEXT, "open");
    real_flock = (int (*)(int, int))dlsym(RTLD_NEXT, "flock");
    real_statx = (int (*)(int, const char *, int, unsigned, struct statx *))dlsym(RTLD_NEXT, "statx");
    real_fsync = (int (*)(int))dlsym(RTLD_NEXT, "fsync");
    real_yield = (int (*)(void))dlsym(RTLD_NEXT, "sched_yield");
    real_read = (ssize_t (*)(int, void *, size_t))dlsym(RTLD_NEXT, "read");
    real_write = (ssize_t (*)(int, const void *, size_t))dlsym(RTLD_NEXT, "write");
    real_pread = (ssize_t (*)(int, void *, size_t, off_t))dlsym(RTLD_NEXT, "pread");
    real_pwrite = (ssize_t (*)(int, const void *, size_t, off_t))dlsym(RTLD_NEXT, "pwrite");
    dl_iterate_phdr(first_object, NULL);
    const char *call = getenv("FISH_CALL"), *count = getenv("FISH_COUNT"), *traced = getenv("FISH_TRACE");
    if (traced) trace = fcntl(real_open(traced, O_WRONLY | O_APPEND | O_CREAT, 0666), F_DUPFD, 100);
    if (count) {
        int file = real_open(count, O_RDWR);
        void *seen = mmap(NULL, sizeof unseen, PROT_READ | PROT_WRITE, MAP_SHARED, file, 0);
        if (seen == MAP_FAILED) abort();
        counts = seen;
        close(file);
    }
    for (int kind = 0; call && kind < KINDS; kind++) {
        size_t length = strlen(NAMES[kind]);
        if (!strncmp(call, NAMES[kind], length) && call[length] == ' ') {
            number = strtoull(call + length, NULL, 10);
            refused = kind;
        }
    }
}

/* Counts a call of a kind, and says whether it is the one that is to fail. */
static int fails(enum kind kind) {
    uint64_t at = __atomic_add_fetch(&counts[kind], 1, __ATOMIC_SEQ_CST);
    if (kind != refused || at != number) return 0;
    counts[FAILED] = 1;
    return 1;
}

static int is_own(const void *caller) {
    return (uintptr_t)caller >= begins && (uintptr_t)caller < ends;
}

#define OWN is_own(__builtin_return_address(0))
#define FAIL(kind, error) \
    if (fails(kind)) return errno = (error), -1

void *malloc(size_t size) {
    if (OWN && fails(MEMORY)) return errno = ENOMEM, NULL;
    return __libc_malloc(size);
}

void *realloc(void *old, size_t size) {
    if (OWN && fails(MEMORY)) return errno = ENOMEM, NULL;
    return __libc_realloc(old, size);
}

int open(const char *path, int flags, ...) {
    va_list rest;
    va_start(rest, flags);
    mode_t mode = flags & O_CREAT ? va_arg(rest, mode_t) : 0;
    va_end(rest);
    if (!OWN || !strcmp(path, "/")) return real_open(path, flags, mode);
    FAIL(SIGNAL, EINTR);
    FAIL(flags & O_CREAT ? DISK : INPUT, EIO);
    int file = real_open(path, flags, mode);
    if (flags & O_CREAT) store = file;
    return file;
}

int flock(int file, int how) {
    if (OWN) FAIL(DISK, EIO);
    return real_flock(file, how);
}

int statx(int folder, const char *restrict path, int flags, unsigned mask, struct statx *restrict found) {
    if (OWN && folder == store && !*path) FAIL(DISK, EIO);
    return real_statx(folder, path, flags, mask, found);
}

ssize_t read(int file, void *room, size_t length) {
    if (!OWN) return real_read(file, room, length);
    FAIL(INPUT, EIO);
    FAIL(SIGNAL, EINTR);
    return real_read(file, room, length > 1 && fails(SHORT) ? 1 : length);
}

ssize_t write(int file, const void *piece, size_t length) {
    if (!OWN || file != STDOUT_FILENO) return real_write(file, piece, length);
    FAIL(OUTPUT, ENOSPC);
    FAIL(SIGNAL, EINTR);
    ssize_t count = real_write(file, piece, length > 1 && fails(SHORT) ? 1 : length);
    if (fails(CUT) && ftruncate(store, atoll(getenv("FISH_CUT")))) abort();
    return count;
}

ssize_t pread(int file, void *room, size_t length, off_t at) {
    if (!OWN) return real_pread(file, room, length, at);
    FAIL(DISK, EIO);
    FAIL(SIGNAL, EINTR);
    return real_pread(file, room, length > 1 && fails(SHORT) ? 1 : length, at);
}

static void tell(uint64_t what, uint64_t at, uint64_t length, const void *bytes) {
    uint64_t head[3] = {what, at, length};
    if (trace < 0) return;
    if (real_write(trace, head, sizeof head) != sizeof head) abort();
    if (length && real_write(trace, bytes, length) != (ssize_t)length) abort();
}

ssize_t pwrite(int file, const void *piece, size_t length, off_t at) {
    if (!OWN) return real_pwrite(file, piece, length, at);
    FAIL(SIGNAL, EINTR);
    size_t part = length > 1 && fails(SHORT) ? 1 : length;
    tell(0, at, part, piece);
    FAIL(DISK, EIO);
    return real_pwrite(file, piece, part, at);
}

int fsync(int file) {
    if (!OWN) return real_fsync(file);
    FAIL(DISK, EIO);
    tell(1, 0, 0, NULL);
    return real_fsync(file);
}

/* Once a call has failed, what waits may wait for nothing: it counts its turns, and they are short. */
int sched_yield(void) {
    return counts[FAILED] ? 0 : real_yield();
}
