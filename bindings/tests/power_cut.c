/* A disk whose power is cut, for tests: loaded before the C library (LD_PRELOAD), it stands between a program and the file CUT_FILE.

   What is written to the file is on the disk only once the file is synced, and the file's name only once its folder is. At write,
   truncation or sync number CUT_AT the power is cut: of the bytes that are not on the disk the first CUT_KEEP stay and the others go, or
   read as zeros if CUT_ZEROS is 1; if none stays, a name that is not on the disk goes too; and the process is killed. If CUT_ERROR is 1
   the power stays, and the call fails, with the same loss of bytes. A sync that is not cut takes no time. */
#define _GNU_SOURCE
#include <errno.h>
#include <fcntl.h>
#include <signal.h>
#include <stdlib.h>
#include <sys/stat.h>
#include <sys/syscall.h>
#include <unistd.h>

static const char *file;
static long cut_at, keep, zeros, error;

static long operations;
static off_t synced;
static int named;

static long number(const char *name, long otherwise)
{
    const char *digits = getenv(name);
    return digits ? atol(digits) : otherwise;
}

static off_t size_now(void)
{
    struct stat now;
    return stat(file, &now) == 0 ? now.st_size : -1;
}

__attribute__((constructor)) static void begin(void)
{
    file = getenv("CUT_FILE");
    cut_at = number("CUT_AT", -1);
    keep = number("CUT_KEEP", 0);
    zeros = number("CUT_ZEROS", 0);
    error = number("CUT_ERROR", 0);
    synced = size_now();
    named = synced >= 0;
    synced = named ? synced : 0;
}

static int is_file(int descriptor)
{
    struct stat it, own;
    return fstat(descriptor, &it) == 0 && stat(file, &own) == 0 && it.st_dev == own.st_dev && it.st_ino == own.st_ino;
}

static int is_folder(int descriptor)
{
    struct stat it;
    return fstat(descriptor, &it) == 0 && S_ISDIR(it.st_mode);
}

static void lose_bytes(void)
{
    off_t size = size_now(), stays = synced + keep;
    if (stays < size && (truncate(file, stays) != 0 || (zeros && truncate(file, size) != 0)))
        abort();
}

static void die(void)
{
    if (!named && keep == 0 && !zeros)
        unlink(file);
    kill(getpid(), SIGKILL);
    for (;;)
        pause();
}

/* The next write, truncation or sync: whether it fails. */
static int fails(void)
{
    if (operations++ != cut_at)
        return 0;
    lose_bytes();
    if (!error)
        die();
    errno = EIO;
    return 1;
}

ssize_t write(int descriptor, const void *bytes, size_t length)
{
    ssize_t written = syscall(SYS_write, descriptor, bytes, length);
    return is_file(descriptor) && fails() ? -1 : written;
}

int ftruncate64(int descriptor, off64_t length)
{
    if (is_file(descriptor)) {
        if (fails())
            return -1;
        synced = length < synced ? length : synced;
    }
    return syscall(SYS_ftruncate, descriptor, length);
}

int fsync(int descriptor)
{
    int folder = is_folder(descriptor);
    if (!folder && !is_file(descriptor))
        return 0;
    if (fails())
        return -1;
    if (folder)
        named = 1;
    else
        synced = size_now();
    return 0;
}

int fdatasync(int descriptor)
{
    return fsync(descriptor);
}
