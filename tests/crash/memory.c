/* Stands between a program and the C library's memory and clock: it refuses one allocation, and tells another time.
   The file that REFUSALS names holds what a test sets: how many more allocations are answered before one is refused, or 0 for none, and
   the second of the clock, or 0 for the machine's. */
#include <errno.h>
#include <fcntl.h>
#include <stddef.h>
#include <stdlib.h>
#include <sys/mman.h>
#include <sys/syscall.h>
#include <time.h>
#include <unistd.h>

struct orders {
    long until_refused;
    long second;
};

void *__libc_malloc(size_t);
void *__libc_realloc(void *, size_t);

static struct orders *orders;

__attribute__((constructor)) static void begin(void) {
    const char *name = getenv("REFUSALS");
    int file = name ? open(name, O_RDWR) : -1;
    void *seen = file < 0 ? MAP_FAILED : mmap(NULL, sizeof *orders, PROT_READ | PROT_WRITE, MAP_SHARED, file, 0);
    if (file >= 0)
        close(file);
    if (seen != MAP_FAILED)
        orders = seen;
}

static int is_refused(void) {
    if (!orders || orders->until_refused == 0 || --orders->until_refused > 0)
        return 0;
    errno = ENOMEM;
    return 1;
}

void *malloc(size_t size) { return is_refused() ? NULL : __libc_malloc(size); }

void *realloc(void *old, size_t size) { return is_refused() ? NULL : __libc_realloc(old, size); }

int clock_gettime(clockid_t clock, struct timespec *now) {
    if (clock == CLOCK_REALTIME && orders && orders->second) {
        now->tv_sec = orders->second;
        now->tv_nsec = 0;
        return 0;
    }
    return (int)syscall(SYS_clock_gettime, clock, now);
}
