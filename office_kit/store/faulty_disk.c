// A disk that fails once, for office_kit/store/faulty_disk.py, which says what it does. office_kit/shim.h is its head, with REAL.

#include <sys/mman.h>
#include <sys/syscall.h>

enum { SECOND, FLUSHES, FAILING_FLUSH, LEFT, WRITES, FAILING_WRITE, FAILED, PLACE, FIELDS };
enum { ALL, NONE, ODD, EVEN };

// A write or a cut since the last good flush of its file: where, what stood there, what was put there (nothing by a cut), and how long the file was.
struct change { struct change *before; int fd, number; off_t at, length; size_t size, held; char *old, *new; };
static struct change *changes;
static volatile long *block;

__attribute__((constructor)) static void begin(void) {
    int fd = open(getenv("FAULTS"), O_RDWR);
    block = mmap(NULL, FIELDS * sizeof(long), PROT_READ | PROT_WRITE, MAP_SHARED, fd, 0);
    if (fd < 0 || block == MAP_FAILED) { fprintf(stderr, "the block of the faulty disk isn't there\n"); _exit(70); }
    close(fd);
}

static ssize_t put(int fd, const void *bytes, size_t size, off_t at) {
    REAL(ssize_t, "pwrite", int, const void *, size_t, off_t);
    return real(fd, bytes, size, at);
}
static int cut(int fd, off_t length) { REAL(int, "ftruncate", int, off_t); return real(fd, length); }

static int fail(int fd) {
    char name[64], path[4096];
    struct stat found;
    snprintf(name, sizeof name, "/proc/self/fd/%d", fd);
    ssize_t length = readlink(name, path, sizeof path - 1);
    int is_log = length > 4 && !memcmp(path + length - 4, "-wal", 4), is_folder = !fstat(fd, &found) && S_ISDIR(found.st_mode);
    block[FAILED]++;
    block[PLACE] = is_folder ? 3 : is_log ? 1 : 2;
    errno = EIO;
    return -1;
}

static void remember(int fd, const void *bytes, size_t size, off_t at, int is_cut) {
    struct stat found;
    fstat(fd, &found);
    if (is_cut) size = at < found.st_size ? found.st_size - at : 0;
    struct change *it = calloc(1, sizeof *it);
    *it = (struct change){ changes, fd, 0, at, found.st_size, size, 0, malloc(size + 1), is_cut ? NULL : malloc(size + 1) };
    for (struct change *other = changes; other && !it->number; other = other->before) if (other->fd == fd) it->number = other->number + 1;
    ssize_t held = pread(fd, it->old, size, at);
    it->held = held < 0 ? 0 : held;
    if (!is_cut) memcpy(it->new, bytes, size);
    changes = it;
}

static void forget(int fd) {
    for (struct change **place = &changes; *place;) {
        struct change *it = *place;
        if (it->fd != fd) { place = &it->before; continue; }
        *place = it->before;
        free(it->old), free(it->new), free(it);
    }
}

static void undo(int fd) {
    for (struct change *it = changes; it; it = it->before) if (it->fd == fd) {
        if (it->new) { put(fd, it->old, it->held, it->at); cut(fd, it->length); }
        else { cut(fd, it->length); put(fd, it->old, it->held, it->at); }
    }
}

static void redo(struct change *it, int fd, int rest) {
    if (!it) return;
    redo(it->before, fd, rest);
    if (it->fd != fd || it->number % 2 != rest) return;
    if (it->new) put(fd, it->new, it->size, it->at); else cut(fd, it->at);
}

static int flush(int fd, int (*real)(int)) {
    if (++block[FLUSHES] == block[FAILING_FLUSH]) {
        if (block[LEFT] != ALL) undo(fd);
        if (block[LEFT] > NONE) redo(changes, fd, block[LEFT] == ODD);
        real(fd);
        forget(fd);
        return fail(fd);
    }
    int status = real(fd);
    if (!status) forget(fd);
    return status;
}

int fdatasync(int fd) { REAL(int, "fdatasync", int); return flush(fd, real); }
int fsync(int fd) { REAL(int, "fsync", int); return flush(fd, real); }

ssize_t pwrite(int fd, const void *bytes, size_t size, off_t at) {
    if (++block[WRITES] == block[FAILING_WRITE]) return fail(fd);
    if (block[FAILING_FLUSH]) remember(fd, bytes, size, at, 0);
    return put(fd, bytes, size, at);
}
ssize_t pwrite64(int fd, const void *bytes, size_t size, off_t at) { return pwrite(fd, bytes, size, at); }

int ftruncate(int fd, off_t length) {
    if (block[FAILING_FLUSH]) remember(fd, NULL, 0, length, 1);
    return cut(fd, length);
}
int ftruncate64(int fd, off_t length) { return ftruncate(fd, length); }

int clock_gettime(clockid_t id, struct timespec *at) {
    if (id != CLOCK_REALTIME || !block || !block[SECOND]) return (int)syscall(SYS_clock_gettime, id, at);
    *at = (struct timespec){ block[SECOND], 0 };
    return 0;
}
