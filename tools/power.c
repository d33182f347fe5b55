// A library to be preloaded: it writes down what a process has written to a file and hasn't synced, and kills the process at a call of a
// number. tests/power.py makes of that a loss of power, in which each unsynced write is left whole, in part, as garbage or not at all.
//
//   POWER_LOG=FILE    the file in which unsynced writes and names stand, one a line; a sync of a file takes its writes away, one of a folder
//                     the names. What stands in it at the start comes from earlier processes, and stays until a sync.
//   POWER_AT=N        at the Nth call that writes, syncs, links or removes, counted from 1, the process is killed
//   POWER_AFTER=1     and that call is made before
//   POWER_FAILS=N     the Nth call that reads, writes, syncs, links or removes fails, with the error of the number POWER_ERRNO
//   POWER_LIES=K      each sync of a file whose number leaves no rest by K does nothing, and says that it did
#define _GNU_SOURCE
#include <dlfcn.h>
#include <errno.h>
#include <fcntl.h>
#include <signal.h>
#include <stdint.h>
#include <stdio.h>
#include <stdlib.h>
#include <string.h>
#include <sys/stat.h>
#include <sys/syscall.h>
#include <unistd.h>

#define LONGEST 4096
#define MOST 65536

static unsigned long calls, tried, syncs;

static unsigned long number(const char *name) {
    const char *value = getenv(name);
    return value == NULL ? 0 : strtoul(value, NULL, 10);
}

static void *next(const char *name) { return dlsym(RTLD_NEXT, name); }

static void die(void) {
    syscall(SYS_kill, getpid(), SIGKILL);
    for (;;)
        pause();
}

static void before(void) {
    if (++calls == number("POWER_AT") && getenv("POWER_AFTER") == NULL)
        die();
}

static void after(void) {
    if (calls == number("POWER_AT"))
        die();
}

// Whether this call fails.
static int fails(void) {
    if (++tried != number("POWER_FAILS"))
        return 0;
    errno = number("POWER_ERRNO");
    return 1;
}

static int is_folder(int file) {
    struct stat about;
    return fstat(file, &about) == 0 && S_ISDIR(about.st_mode);
}

static void put(int log, const char *text, size_t size) { syscall(SYS_write, log, text, size); }

// Adds a line to the log.
static void note(const char *line) {
    const char *place = getenv("POWER_LOG");
    if (place == NULL)
        return;
    int log = syscall(SYS_openat, AT_FDCWD, place, O_CREAT | O_WRONLY | O_APPEND, 0600);
    put(log, line, strlen(line));
    syscall(SYS_close, log);
}

// Takes the lines away that begin with one of these letters.
static void forget(const char *letters) {
    static char text[MOST];
    const char *place = getenv("POWER_LOG");
    int log = place == NULL ? -1 : (int)syscall(SYS_openat, AT_FDCWD, place, O_RDWR, 0600);
    if (log < 0)
        return;
    long size = syscall(SYS_read, log, text, MOST - 1);
    text[size < 0 ? 0 : size] = 0;
    syscall(SYS_ftruncate, log, 0L);
    syscall(SYS_lseek, log, 0L, SEEK_SET);
    for (char *line = strtok(text, "\n"); line != NULL; line = strtok(NULL, "\n"))
        if (strchr(letters, line[0]) == NULL) {
            put(log, line, strlen(line));
            put(log, "\n", 1);
        }
    syscall(SYS_close, log);
}

static char *hex(char *to, const unsigned char *octets, size_t size) {
    for (size_t at = 0; at < size; at++)
        to += sprintf(to, "%02x", octets[at]);
    return to;
}

// A line of a write: its file's name, its place, what stood there, and what is written.
static void note_write(int file, const void *octets, size_t size, off_t at) {
    static unsigned char old[LONGEST];
    static char line[5 * LONGEST], link[64], name[1024];
    snprintf(link, sizeof link, "/proc/self/fd/%d", file);
    ssize_t length = readlink(link, name, sizeof name - 1);
    name[length < 0 ? 0 : length] = 0;
    memset(old, 0, sizeof old);
    int reader = syscall(SYS_openat, AT_FDCWD, name, O_RDONLY);
    syscall(SYS_pread64, reader, old, size, at);
    syscall(SYS_close, reader);
    char *end = line + sprintf(line, "W %s %ld ", name, (long)at);
    end = hex(end, old, size);
    *end++ = ' ';
    end = hex(end, octets, size);
    *end++ = '\n';
    *end = 0;
    note(line);
}

ssize_t pread(int file, void *octets, size_t size, off_t at) {
    return fails() ? -1 : syscall(SYS_pread64, file, octets, size, at);
}

ssize_t pread64(int file, void *octets, size_t size, off64_t at) { return pread(file, octets, size, at); }

ssize_t pwrite(int file, const void *octets, size_t size, off_t at) {
    if (fails())
        return -1;
    before();
    size = size > LONGEST ? LONGEST : size;
    note_write(file, octets, size, at);
    ssize_t done = syscall(SYS_pwrite64, file, octets, size, at);
    after();
    return done;
}

ssize_t pwrite64(int file, const void *octets, size_t size, off64_t at) { return pwrite(file, octets, size, at); }

static int sync_of(int file) {
    if (fails())
        return -1;
    before();
    if (is_folder(file))
        forget("LU");
    else if (number("POWER_LIES") == 0 || ++syncs % number("POWER_LIES") != 0)
        forget("W");
    after();
    return 0;
}

int fsync(int file) { return sync_of(file); }

int fdatasync(int file) { return sync_of(file); }

int link(const char *from, const char *to) {
    char line[2100];
    if (fails())
        return -1;
    before();
    snprintf(line, sizeof line, "L %s %s\n", from, to);
    note(line);
    int done = ((int (*)(const char *, const char *))next("link"))(from, to);
    after();
    return done;
}

int unlink(const char *name) {
    char line[1100];
    if (fails())
        return -1;
    before();
    snprintf(line, sizeof line, "U %s\n", name);
    note(line);
    int done = ((int (*)(const char *))next("unlink"))(name);
    after();
    return done;
}
