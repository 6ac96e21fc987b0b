// Ends the process before its N-th call that changes a file or a folder: STOP_AT is N. All else goes to the C library.
// office_kit/shim.h is its head, with REAL.
static void step(void) {
    static long left;
    if (!left) left = atol(getenv("STOP_AT"));
    if (!--left) kill(getpid(), SIGKILL);
}
int fsync(int fd) { REAL(int, "fsync", int); step(); return real(fd); }
int fdatasync(int fd) { REAL(int, "fdatasync", int); step(); return real(fd); }
int fchmod(int fd, mode_t mode) { REAL(int, "fchmod", int, mode_t); step(); return real(fd, mode); }
int fchown(int fd, uid_t user, gid_t group) { REAL(int, "fchown", int, uid_t, gid_t); step(); return real(fd, user, group); }
int ftruncate(int fd, off_t length) { REAL(int, "ftruncate", int, off_t); step(); return real(fd, length); }
int ftruncate64(int fd, off_t length) { return ftruncate(fd, length); }
int unlink(const char *path) { REAL(int, "unlink", const char *); step(); return real(path); }
int link(const char *from, const char *to) { REAL(int, "link", const char *, const char *); step(); return real(from, to); }
int rename(const char *from, const char *to) { REAL(int, "rename", const char *, const char *); step(); return real(from, to); }
ssize_t pwrite(int fd, const void *bytes, size_t size, off_t at) {
    REAL(ssize_t, "pwrite", int, const void *, size_t, off_t);
    step();
    return real(fd, bytes, size, at);
}
ssize_t pwrite64(int fd, const void *bytes, size_t size, off_t at) { return pwrite(fd, bytes, size, at); }
int open(const char *path, int flags, ...) {
    REAL(int, "open", const char *, int, ...);
    va_list rest;
    va_start(rest, flags);
    int mode = flags & O_CREAT ? va_arg(rest, int) : 0;
    va_end(rest);
    if (flags & O_CREAT) step();
    return real(path, flags, mode);
}
int open64(const char *path, int flags, ...) __attribute__((alias("open")));
