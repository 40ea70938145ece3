/* Notes by the clock when threads sleep and wake each other: each call of futex, into the file that the environment's CALLS names. It is
   preloaded into the program by bench/idle, which reads the file. Two looks at the clock a call are all that it adds.

   The file has room for ROOM calls, and is made with that size before. Its first eight bytes count the calls. Each begins at a multiple
   of 48: the nanoseconds at which it began and ended, its word's address, its thread, its result, which is minus the error's number where
   it failed, whether it waits, and for how many microseconds at most, or -1. */
#define _GNU_SOURCE
#include <dlfcn.h>
#include <errno.h>
#include <fcntl.h>
#include <linux/futex.h>
#include <stdarg.h>
#include <stdatomic.h>
#include <stdint.h>
#include <stdlib.h>
#include <sys/mman.h>
#include <sys/syscall.h>
#include <time.h>
#include <unistd.h>

#define ROOM 1000000

struct call {
    uint64_t begun, ended, address;
    int64_t thread, result;
    int32_t waits, limit;
};

static long (*real)(long, ...);
static _Atomic uint64_t *count;
static struct call *calls;
static __thread int64_t thread;

__attribute__((constructor)) static void begin(void) {
    const char *name = getenv("CALLS");
    int file = name ? open(name, O_RDWR) : -1;
    *(void **)&real = dlsym(RTLD_NEXT, "syscall");
    if (file < 0) return;
    void *place = mmap(NULL, (ROOM + 1) * sizeof *calls, PROT_READ | PROT_WRITE, MAP_SHARED, file, 0);
    close(file);
    if (place == MAP_FAILED) return;
    calls = (struct call *)place + 1;
    count = place;
}

static uint64_t now(void) {
    struct timespec time;
    clock_gettime(CLOCK_MONOTONIC, &time);
    return (uint64_t)time.tv_sec * 1000000000 + (uint64_t)time.tv_nsec;
}

/* The most microseconds of a wait. */
static int32_t limit_of(const struct timespec *most) {
    if (!most) return -1;
    return most->tv_sec < 2000 ? (int32_t)(most->tv_sec * 1000000 + most->tv_nsec / 1000) : 2000000000;
}

long syscall(long number, ...) {
    long with[6];
    va_list given;
    va_start(given, number);
    for (int i = 0; i < 6; i++) with[i] = va_arg(given, long);
    va_end(given);
    if (number != SYS_futex || !count) return real(number, with[0], with[1], with[2], with[3], with[4], with[5]);
    if (!thread) thread = gettid();
    uint64_t begun = now();
    long result = real(number, with[0], with[1], with[2], with[3], with[4], with[5]);
    int error = errno;
    uint64_t place = atomic_fetch_add(count, 1);
    if (place < ROOM) {
        int waits = (with[1] & FUTEX_CMD_MASK) == FUTEX_WAIT;
        int32_t limit = waits ? limit_of((const struct timespec *)with[3]) : -1;
        calls[place] = (struct call){begun, now(), (uint64_t)with[0], thread, result < 0 ? -error : result, waits, limit};
    }
    errno = error;
    return result;
}
