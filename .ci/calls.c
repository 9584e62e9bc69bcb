/* Stands before the C library's `read`, `pread` and `write` where `.ci/calls` runs the programs. Each of these variables of the
   environment changes what the system answers; without it nothing is changed.
   CALLS_READ: a read of standard input brings at most so many octets.
   CALLS_WRITE: a write to standard output takes at most so many octets.
   CALLS_INTERRUPT: every other call on either is interrupted before it moves an octet.
   CALLS_FAIL: behind so many octets of standard input each read fails with EIO.
   CALLS_FILES: what is said of standard input holds of all files that are read, their octets counted together. */
#define _GNU_SOURCE
#include <errno.h>
#include <stdlib.h>
#include <sys/syscall.h>
#include <sys/types.h>
#include <unistd.h>

static size_t setting(const char *name, size_t otherwise)
{
    const char *text = getenv(name);
    return text ? (size_t)atol(text) : otherwise;
}

static int interrupted(void)
{
    static unsigned calls;
    if (!getenv("CALLS_INTERRUPT") || calls++ % 2 == 1)
        return 0;
    errno = EINTR;
    return 1;
}

/* Whether what is said of standard input holds of this file. */
static int counted(int fd)
{
    return fd == STDIN_FILENO || getenv("CALLS_FILES");
}

/* How many octets a read of so many may bring, behind those that were given: 0 where it fails. */
static size_t allowed(size_t given, size_t room)
{
    size_t most = setting("CALLS_READ", room);
    size_t left = setting("CALLS_FAIL", given + room) - given;
    if (most > room)
        most = room;
    if (left == 0)
        errno = EIO;
    return most < left ? most : left;
}

/* A read at a place, or one at the file's own where the place is below 0. */
static ssize_t read_from(int fd, void *buffer, size_t room, off_t place)
{
    static size_t given;
    if (counted(fd)) {
        if (interrupted())
            return -1;
        room = allowed(given, room);
        if (room == 0)
            return -1;
    }
    ssize_t got = place < 0 ? syscall(SYS_read, fd, buffer, room) : syscall(SYS_pread64, fd, buffer, room, place);
    if (got > 0 && counted(fd))
        given += (size_t)got;
    return got;
}

ssize_t read(int fd, void *buffer, size_t room)
{
    return read_from(fd, buffer, room, -1);
}

ssize_t pread(int fd, void *buffer, size_t room, off_t place)
{
    return read_from(fd, buffer, room, place);
}

ssize_t write(int fd, const void *buffer, size_t octets)
{
    if (fd != STDOUT_FILENO)
        return syscall(SYS_write, fd, buffer, octets);
    if (interrupted())
        return -1;
    size_t most = setting("CALLS_WRITE", octets);
    return syscall(SYS_write, fd, buffer, most < octets ? most : octets);
}
