/* A read and a write that move three bytes at most on the file that the variable STREAM numbers, or as many as MOST gives, and
   of which one call fails there: the one whose number, from 1, FAILED gives. Each other read is interrupted first, which counts as
   no call. Put before those of the C library by LD_PRELOAD. At its end the program's calls on that file are counted into the file
   that CALLS names. */
#define _GNU_SOURCE
#include <errno.h>
#include <stdio.h>
#include <stdlib.h>
#include <sys/syscall.h>
#include <unistd.h>

static int stream = -1;
static unsigned long calls;
static unsigned long failed;
static ssize_t most_at_once = 3;
static int was_interrupted;

/* How many bytes a call may move, or -1 where it fails. */
static ssize_t most(int file, size_t count)
{
    if (file != stream)
        return (ssize_t)count;
    calls++;
    if (calls == failed) {
        errno = EIO;
        return -1;
    }
    return (ssize_t)count < most_at_once ? (ssize_t)count : most_at_once;
}

ssize_t read(int file, void *bytes, size_t count)
{
    ssize_t moved;
    if (file == stream && !was_interrupted) {
        was_interrupted = 1;
        errno = EINTR;
        return -1;
    }
    was_interrupted = 0;
    moved = most(file, count);
    return moved < 0 ? -1 : syscall(SYS_read, file, bytes, moved);
}

ssize_t write(int file, const void *bytes, size_t count)
{
    ssize_t moved = most(file, count);
    return moved < 0 ? -1 : syscall(SYS_write, file, bytes, moved);
}

__attribute__((constructor)) static void begin(void)
{
    const char *number = getenv("STREAM"), *call = getenv("FAILED"), *count = getenv("MOST");
    stream = number ? atoi(number) : -1;
    failed = call ? strtoul(call, NULL, 10) : 0;
    most_at_once = count ? atoi(count) : 3;
}

__attribute__((destructor)) static void end(void)
{
    const char *name = getenv("CALLS");
    FILE *file = name ? fopen(name, "w") : NULL;
    stream = -1;
    if (file) {
        fprintf(file, "%lu\n", calls);
        fclose(file);
    }
}
