// A library to be preloaded: it lets allocations, reads, writes, starts of threads, and calls for whole files of one process fail, as
// variables of its environment say. `tools/faults`, `tools/sweeps` and `tests/refusals.py` use it; no crate knows of it. Calls of each kind are counted from 1.
//
//   FAULTS_ALLOCATION=N   the Nth allocation is refused
//   FAULTS_READ=N         the Nth read fails (EIO)
//   FAULTS_WRITE=N        the Nth write fails (EIO)
//   FAULTS_THREAD=N       the Nth thread isn't started (EAGAIN)
//   FAULTS_SYNC=N         the Nth file isn't brought onto its device (EIO)
//   FAULTS_RENAME=N       the Nth file isn't renamed (EIO)
//   FAULTS_REMOVE=N       the Nth file isn't removed (EIO)
//   FAULTS_LASTING=1      and so does each later call of that kind
//   FAULTS_SHORT=1        a read or a write takes one octet at most
//   FAULTS_INTERRUPTED=1  every other read and every other write is interrupted before it did anything (EINTR)
//   FAULTS_AT=FILE        the file that is made when a call of a number fails first; it has the number of the descriptor that was to be
//                         read or written, or else 0
#define _GNU_SOURCE
#include <dlfcn.h>
#include <errno.h>
#include <fcntl.h>
#include <pthread.h>
#include <stdatomic.h>
#include <stdlib.h>
#include <sys/syscall.h>
#include <unistd.h>

extern void *__libc_malloc(size_t size);
extern void *__libc_calloc(size_t count, size_t size);
extern void *__libc_realloc(void *old, size_t size);
extern void *__libc_memalign(size_t align, size_t size);

static atomic_ulong allocations, reads, writes, threads, syncs, renames, removals;
static atomic_int marked;

static int is_set(const char *name) { return getenv(name) != NULL; }

static void mark(int descriptor) {
    const char *place = getenv("FAULTS_AT");
    if (place == NULL || atomic_exchange(&marked, 1))
        return;
    int file = open(place, O_CREAT | O_WRONLY, 0600);
    char digit = '0' + descriptor % 10;
    if (file < 0)
        return;
    syscall(SYS_write, file, &digit, 1);
    close(file);
}

// Whether this call of a kind fails.
static int fails(const char *name, atomic_ulong *calls, int descriptor) {
    const char *number = getenv(name);
    unsigned long place = atomic_fetch_add(calls, 1) + 1;
    if (number == NULL)
        return 0;
    unsigned long first = strtoul(number, NULL, 10);
    if (place != first && !(place > first && is_set("FAULTS_LASTING")))
        return 0;
    mark(descriptor);
    return 1;
}

static int is_refused(void) {
    if (!fails("FAULTS_ALLOCATION", &allocations, 0))
        return 0;
    errno = ENOMEM;
    return 1;
}

void *malloc(size_t size) { return is_refused() ? NULL : __libc_malloc(size); }

void *calloc(size_t count, size_t size) { return is_refused() ? NULL : __libc_calloc(count, size); }

void *realloc(void *old, size_t size) { return is_refused() ? NULL : __libc_realloc(old, size); }

void *memalign(size_t align, size_t size) { return is_refused() ? NULL : __libc_memalign(align, size); }

void *aligned_alloc(size_t align, size_t size) { return is_refused() ? NULL : __libc_memalign(align, size); }

int posix_memalign(void **place, size_t align, size_t size) {
    if (is_refused() || (*place = __libc_memalign(align, size)) == NULL)
        return ENOMEM;
    return 0;
}

// Whether a read or a write is to fail, and why.
static int has_fault(const char *name, atomic_ulong *calls, int descriptor) {
    if (fails(name, calls, descriptor)) {
        errno = EIO;
        return 1;
    }
    if (is_set("FAULTS_INTERRUPTED") && atomic_load(calls) % 2 == 1) {
        errno = EINTR;
        return 1;
    }
    return 0;
}

// How many octets a read or a write of so many takes at most.
static size_t room(size_t size) { return size > 1 && is_set("FAULTS_SHORT") ? 1 : size; }

ssize_t read(int descriptor, void *octets, size_t size) {
    if (has_fault("FAULTS_READ", &reads, descriptor))
        return -1;
    return syscall(SYS_read, descriptor, octets, room(size));
}

ssize_t write(int descriptor, const void *octets, size_t size) {
    if (has_fault("FAULTS_WRITE", &writes, descriptor))
        return -1;
    return syscall(SYS_write, descriptor, octets, room(size));
}

int pthread_create(pthread_t *thread, const pthread_attr_t *how, void *(*start)(void *), void *given) {
    int (*create)(pthread_t *, const pthread_attr_t *, void *(*)(void *), void *);
    create = (int (*)(pthread_t *, const pthread_attr_t *, void *(*)(void *), void *))dlsym(RTLD_NEXT, "pthread_create");
    if (create == NULL || fails("FAULTS_THREAD", &threads, 0))
        return EAGAIN;
    return create(thread, how, start, given);
}

int fsync(int descriptor) {
    if (fails("FAULTS_SYNC", &syncs, 0)) {
        errno = EIO;
        return -1;
    }
    return syscall(SYS_fsync, descriptor);
}

int rename(const char *from, const char *to) {
    if (fails("FAULTS_RENAME", &renames, 0)) {
        errno = EIO;
        return -1;
    }
    return syscall(SYS_rename, from, to);
}

int unlink(const char *name) {
    if (fails("FAULTS_REMOVE", &removals, 0)) {
        errno = EIO;
        return -1;
    }
    return syscall(SYS_unlink, name);
}
