/* Calls that fail, by number, for a built program: with FAIL_ALLOC=N the Nth request for memory is refused, with FAIL_DISK=N the Nth write or sync
   of a file fails, and with FAIL_SINK=N the Nth write to standard output. 0, or nothing, fails none. In crates/im_main, behind `rt run`, with C for
   the kit's folder of C libraries:

   gcc -no-pie -O1 -o refuse out/im_main.o ../../tools/refuse.c -Wl,--wrap=rattle_alloc,--wrap=rattle_realloc,--wrap=write \
       -Wl,--wrap=fsync,--wrap=fdatasync C/libos_c.a C/liblibc_c.a -lpthread -ldl -lm */
#include <errno.h>
#include <stdlib.h>
#include <unistd.h>

void *__real_rattle_alloc(size_t size, size_t align);
void *__real_rattle_realloc(void *at, size_t kept, size_t size, size_t align);
ssize_t __real_write(int file, const void *from, size_t count);
int __real_fsync(int file);
int __real_fdatasync(int file);

static long memory_at, disk_at, sink_at;
static long memory_calls, disk_calls, sink_calls;

static long number(const char *name)
{
    const char *text = getenv(name);
    return text ? strtol(text, 0, 10) : 0;
}

__attribute__((constructor)) static void begin(void)
{
    memory_at = number("FAIL_ALLOC");
    disk_at = number("FAIL_DISK");
    sink_at = number("FAIL_SINK");
}

static int fails(long *calls, long at)
{
    return at > 0 && __atomic_add_fetch(calls, 1, __ATOMIC_SEQ_CST) == at;
}

static int fails_with(long *calls, long at, int why)
{
    if (!fails(calls, at))
        return 0;
    errno = why;
    return 1;
}

void *__wrap_rattle_alloc(size_t size, size_t align)
{
    return fails(&memory_calls, memory_at) ? 0 : __real_rattle_alloc(size, align);
}

void *__wrap_rattle_realloc(void *at, size_t kept, size_t size, size_t align)
{
    return fails(&memory_calls, memory_at) ? 0 : __real_rattle_realloc(at, kept, size, align);
}

ssize_t __wrap_write(int file, const void *from, size_t count)
{
    if (file == 1 && fails_with(&sink_calls, sink_at, EIO))
        return -1;
    if (file > 2 && fails_with(&disk_calls, disk_at, ENOSPC))
        return -1;
    return __real_write(file, from, count);
}

int __wrap_fsync(int file)
{
    return fails_with(&disk_calls, disk_at, EIO) ? -1 : __real_fsync(file);
}

int __wrap_fdatasync(int file)
{
    return fails_with(&disk_calls, disk_at, EIO) ? -1 : __real_fdatasync(file);
}
