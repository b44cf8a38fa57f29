// Preloaded into a process, it fails one in FAIL_EVERY of the process's calls that read, write or sync a file, with EIO. The file is that
// named by FAIL_FILE in the environment, by its last part. FAIL_READS, FAIL_WRITES and FAIL_SYNCS say which calls, if they are set; reads
// and writes are those at an offset. With FAIL_LATE_MS each write of the file takes so many milliseconds longer. If FAIL_WHILE is set, all
// this is so only while there is a file at that path.
#define _GNU_SOURCE
#include <dlfcn.h>
#include <errno.h>
#include <stdio.h>
#include <stdlib.h>
#include <string.h>
#include <sys/types.h>
#include <unistd.h>

static unsigned long calls;

// Says whether the descriptor is of the file, at a time at which it is to fail or to be late.
static int is_file(int descriptor)
{
    char link[64], path[4096];
    const char *wanted = getenv("FAIL_FILE"), *held = getenv("FAIL_WHILE");
    if (held && access(held, F_OK) != 0)
        return 0;
    snprintf(link, sizeof link, "/proc/self/fd/%d", descriptor);
    ssize_t length = readlink(link, path, sizeof path - 1);
    if (!wanted || length < 0)
        return 0;
    path[length] = 0;
    const char *last = strrchr(path, '/');
    return strcmp(last ? last + 1 : path, wanted) == 0;
}

// Counts a call of this kind, and says whether it fails.
static int fails(int descriptor, const char *kind)
{
    const char *every = getenv("FAIL_EVERY");
    if (!every || !getenv(kind) || !is_file(descriptor))
        return 0;
    if (__atomic_add_fetch(&calls, 1, __ATOMIC_SEQ_CST) % strtoul(every, NULL, 10) != 0)
        return 0;
    errno = EIO;
    return 1;
}

ssize_t pread(int descriptor, void *buffer, size_t count, off_t offset)
{
    static ssize_t (*next)(int, void *, size_t, off_t);
    if (!next)
        next = dlsym(RTLD_NEXT, "pread");
    return fails(descriptor, "FAIL_READS") ? -1 : next(descriptor, buffer, count, offset);
}

ssize_t pwrite(int descriptor, const void *buffer, size_t count, off_t offset)
{
    static ssize_t (*next)(int, const void *, size_t, off_t);
    if (!next)
        next = dlsym(RTLD_NEXT, "pwrite");
    const char *late = getenv("FAIL_LATE_MS");
    if (late && is_file(descriptor))
        usleep(1000 * strtoul(late, NULL, 10));
    return fails(descriptor, "FAIL_WRITES") ? -1 : next(descriptor, buffer, count, offset);
}

int fdatasync(int descriptor)
{
    static int (*next)(int);
    if (!next)
        next = dlsym(RTLD_NEXT, "fdatasync");
    return fails(descriptor, "FAIL_SYNCS") ? -1 : next(descriptor);
}
