// The clock shows the second that SECOND names, and can't be read if that is empty. Flushes fail, from the one on whose number FLUSHES names.
// (A program with AddressSanitizer asks for the clock before `dlsym` can be called.)
#include <sys/syscall.h>
int clock_gettime(clockid_t id, struct timespec *at) {
    const char *second = getenv("SECOND");
    if (id != CLOCK_REALTIME || !second) return (int)syscall(SYS_clock_gettime, id, at);
    if (!*second) { errno = EPERM; return -1; }
    at->tv_sec = atoll(second);
    at->tv_nsec = 999999999;
    return 0;
}
int fdatasync(int file) {
    static long flushed;
    const char *flushes = getenv("FLUSHES");
    if (flushes && flushed++ >= atol(flushes)) { errno = EIO; return -1; }
    return (int)syscall(SYS_fdatasync, file);
}
