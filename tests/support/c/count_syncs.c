/* Loaded before the C library, has each sync of data take a while, and tells at the end how many there were. */
#include <stdatomic.h>
#include <stdio.h>
#include <sys/syscall.h>
#include <time.h>
#include <unistd.h>

static atomic_int count;

int fdatasync(int file)
{
    count++;
    nanosleep(&(struct timespec){0, 20000000}, 0);
    return (int)syscall(SYS_fdatasync, file);
}

__attribute__((destructor)) static void tell(void)
{
    fprintf(stderr, "%d", count);
}
