// A process that loads this library before the C library has a clock that is ahead by the seconds in the file PATH (tools/screens). The path is in the library,
// because nginx drops its environment. The other headers are those of office_kit/shim.h.
#include <sys/syscall.h>
#include <sys/time.h>
static long ahead(void) {
    char text[32] = {0};
    long file = syscall(SYS_openat, AT_FDCWD, PATH, O_RDONLY | O_CLOEXEC), size = syscall(SYS_read, file, text, sizeof text - 1);
    if (file >= 0) syscall(SYS_close, file);
    return size > 0 ? atol(text) : 0;
}
int clock_gettime(clockid_t id, struct timespec *at) {
    long told = syscall(SYS_clock_gettime, id, at);
    if (id == CLOCK_REALTIME || id == CLOCK_REALTIME_COARSE) at->tv_sec += ahead();
    return (int)told;
}
int gettimeofday(struct timeval *at, void *zone) {
    struct timespec now;
    (void)zone;
    clock_gettime(CLOCK_REALTIME, &now);
    at->tv_sec = now.tv_sec;
    at->tv_usec = now.tv_nsec / 1000;
    return 0;
}
time_t time(time_t *at) {
    struct timespec now;
    clock_gettime(CLOCK_REALTIME, &now);
    if (at) *at = now.tv_sec;
    return now.tv_sec;
}
