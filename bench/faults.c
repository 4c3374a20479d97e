/* Stands before the C library of one dagsched, counts its calls, and has one of them, or all from one on, fail as FAULT and FAULT_AT say.
   The counts are longs in the file FAULT_COUNTS, which whoever started it reads. Programs of tries run without it. */
#define _GNU_SOURCE
#include <dlfcn.h>
#include <errno.h>
#include <fcntl.h>
#include <stdlib.h>
#include <string.h>
#include <sys/mman.h>
#include <sys/syscall.h>
#include <unistd.h>

enum { GROWTHS, READS, WRITES, DISK, COMMITS, KINDS };
static const char *const NAMES[KINDS] = {"growths", "reads", "writes", "disk", "commits"};
static long nowhere[KINDS], *counts = nowhere, at = -1;
static int kind = -1, is_kill, is_once;
static void *(*real_malloc)(size_t), *(*real_realloc)(void *, size_t);

static void begin_memory(void) {
    real_malloc = dlsym(RTLD_NEXT, "malloc");
    real_realloc = dlsym(RTLD_NEXT, "realloc");
}

__attribute__((constructor)) static void begin(void) {
    const char *fault = getenv("FAULT"), *name = getenv("FAULT_COUNTS");
    begin_memory();
    is_kill = fault && !strcmp(fault, "kills");
    is_once = fault && !strcmp(fault, "once");
    for (int it = 0; it < KINDS; it++)
        if (fault && !strcmp(is_kill || is_once ? "disk" : fault, NAMES[it])) kind = it;
    int file = name ? open(name, O_RDWR) : -1;
    if (file >= 0) {
        counts = mmap(NULL, sizeof nowhere, PROT_READ | PROT_WRITE, MAP_SHARED, file, 0);
        close(file);
    }
    at = getenv("FAULT_AT") ? atol(getenv("FAULT_AT")) : -1;
    unsetenv("LD_PRELOAD");
}

/* Counts a call, and says whether it fails. */
static int fails(int which) {
    long number = __atomic_add_fetch(&counts[which], 1, __ATOMIC_SEQ_CST);
    if (which != kind || at < 0 || number < at) return 0;
    if (number > at && (which == GROWTHS || is_once)) return 0;
    if (is_kill) syscall(SYS_exit_group, 137);
    errno = which == GROWTHS ? ENOMEM : EIO;
    return 1;
}

void *malloc(size_t size) {
    if (!real_malloc) begin_memory();
    return fails(GROWTHS) ? NULL : real_malloc(size);
}

void *realloc(void *old, size_t size) {
    if (!real_realloc) begin_memory();
    return fails(GROWTHS) ? NULL : real_realloc(old, size);
}

/* a script and its answers go a byte at a time where their calls fail */
ssize_t read(int file, void *bytes, size_t size) {
    if (file == 0 && fails(READS)) return -1;
    return syscall(SYS_read, file, bytes, file == 0 && kind == READS && size ? 1 : size);
}

ssize_t write(int file, const void *bytes, size_t size) {
    if (file == 1 && fails(WRITES)) return -1;
    return syscall(SYS_write, file, bytes, file == 1 && kind == WRITES && size ? 1 : size);
}

ssize_t __write(int file, const void *bytes, size_t size) { return write(file, bytes, size); }

ssize_t pwrite(int file, const void *bytes, size_t size, off_t place) {
    return fails(DISK) ? -1 : syscall(SYS_pwrite64, file, bytes, size, place);
}

int ftruncate(int file, off_t size) { return fails(DISK) ? -1 : syscall(SYS_ftruncate, file, size); }

int fdatasync(int file) {
    if (fails(DISK)) return -1;
    int done = syscall(SYS_fdatasync, file);
    /* `commits` is a stop behind a sync, between two events */
    if (fails(COMMITS)) syscall(SYS_exit_group, 137);
    return done;
}
