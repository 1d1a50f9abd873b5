/* Loaded before the C library of a program: fails the read of the number in FAIL, of those from files that the program opened itself,
   and all after it; then there is a file with the name in FAILED. */
#define _GNU_SOURCE
#include <dlfcn.h>
#include <errno.h>
#include <fcntl.h>
#include <stdlib.h>
#include <sys/types.h>
#include <unistd.h>

static unsigned long calls;

static int fails(int descriptor)
{
    const char *number = getenv("FAIL"), *name = getenv("FAILED");

    if (descriptor < 3 || !number || __atomic_add_fetch(&calls, 1, __ATOMIC_SEQ_CST) < strtoul(number, NULL, 10))
        return 0;
    if (name)
        close(open(name, O_CREAT | O_WRONLY | O_CLOEXEC, 0600));
    errno = EIO;
    return 1;
}

ssize_t read(int descriptor, void *bytes, size_t count)
{
    ssize_t (*next)(int, void *, size_t) = dlsym(RTLD_NEXT, "read");

    return fails(descriptor) ? -1 : next(descriptor, bytes, count);
}

ssize_t pread(int descriptor, void *bytes, size_t count, off_t place)
{
    ssize_t (*next)(int, void *, size_t, off_t) = dlsym(RTLD_NEXT, "pread");

    return fails(descriptor) ? -1 : next(descriptor, bytes, count, place);
}

ssize_t pread64(int descriptor, void *bytes, size_t count, off64_t place)
{
    ssize_t (*next)(int, void *, size_t, off64_t) = dlsym(RTLD_NEXT, "pread64");

    return fails(descriptor) ? -1 : next(descriptor, bytes, count, place);
}
