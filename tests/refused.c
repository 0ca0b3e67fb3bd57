/* Refuses requests for memory: the one whose number REFUSE names, from 0, and with REFUSE_ON all behind it too. REFUSE_COUNT names a
   file of eight bytes, in which the number of requests is counted. REFUSE_CALL names a call whose every request fails: rename or fsync. */
#include <errno.h>
#include <fcntl.h>
#include <stdio.h>
#include <stdlib.h>
#include <string.h>
#include <sys/mman.h>
#include <sys/syscall.h>
#include <unistd.h>

extern void *__libc_malloc(size_t size);
extern void *__libc_realloc(void *old, size_t size);

static long refused = -1, uncounted, *made = &uncounted;
static int goes_on;

__attribute__((constructor)) static void begin(void)
{
    const char *number = getenv("REFUSE"), *path = getenv("REFUSE_COUNT");
    int file = path ? open(path, O_RDWR) : -1;
    if (file >= 0) {
        void *at = mmap(NULL, sizeof(long), PROT_READ | PROT_WRITE, MAP_SHARED, file, 0);
        if (at != MAP_FAILED)
            made = at;
    }
    goes_on = getenv("REFUSE_ON") != NULL;
    *made = 0;
    if (number)
        refused = atol(number);
}

static int is_refused(void)
{
    long number = __atomic_fetch_add(made, 1, __ATOMIC_SEQ_CST);
    if (refused < 0 || number < refused || (number > refused && !goes_on))
        return 0;
    errno = ENOMEM;
    return 1;
}

void *malloc(size_t size)
{
    return is_refused() ? NULL : __libc_malloc(size);
}

void *realloc(void *old, size_t size)
{
    return is_refused() ? NULL : __libc_realloc(old, size);
}

static int is_failing(const char *call)
{
    const char *named = getenv("REFUSE_CALL");
    if (!named || strcmp(named, call))
        return 0;
    errno = EIO;
    return 1;
}

int rename(const char *from, const char *to)
{
    return is_failing("rename") ? -1 : renameat(AT_FDCWD, from, AT_FDCWD, to);
}

int fsync(int file)
{
    return is_failing("fsync") ? -1 : (int)syscall(SYS_fsync, file);
}
