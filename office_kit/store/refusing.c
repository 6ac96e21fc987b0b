/* Refuses one allocation of a program, and no other. It is loaded before the C library. office_kit/shim.h is its head, with REAL.
 *
 * The number of the allocation is in REFUSED; 0 refuses none. Or lines on the standard error control it, and go no further: `refuse N` begins to count, and
 * `enough` ends that. It says at once that it refused one. At the end it says how many allocations it counted (by lines: those since the last `refuse 0`),
 * and how many it refused. */
static long count, wanted = -1, made, refused;
static int is_on;

static void begin(long number) { count = 0; wanted = number; is_on = 1; }

static void __attribute__((destructor)) tell(void) { dprintf(2, "%ld made, %ld refused\n", is_on ? count : made, refused); }

static int is_refused(void) {
    if (wanted < 0) {
        const char *number = getenv("REFUSED");
        wanted = 0;
        if (number) begin(atol(number));
    }
    if (!is_on || ++count != wanted) return 0;
    if (!refused++) dprintf(2, "allocation refused\n");
    return 1;
}

static int hears(const char *text, size_t n) {
    char line[64];
    long number;
    if (n >= sizeof line) return 0;
    memcpy(line, text, n);
    line[n] = 0;
    if (sscanf(line, "refuse %ld\n", &number) == 1) { begin(number); return 1; }
    if (strcmp(line, "enough\n") == 0) { is_on = 0; if (wanted == 0) made = count; return 1; }
    return 0;
}

ssize_t write(int fd, const void *text, size_t n) {
    REAL(ssize_t, "write", int, const void *, size_t);
    return fd == 2 && hears(text, n) ? (ssize_t)n : real(fd, text, n);
}

ssize_t writev(int fd, const struct iovec *parts, int count_of_parts) {
    REAL(ssize_t, "writev", int, const struct iovec *, int);
    if (fd == 2 && count_of_parts == 1 && hears(parts[0].iov_base, parts[0].iov_len)) return (ssize_t)parts[0].iov_len;
    return real(fd, parts, count_of_parts);
}

// The functions that allocate.
void *malloc(size_t n) { REAL(void *, "malloc", size_t); return is_refused() ? NULL : real(n); }
void *realloc(void *p, size_t n) { REAL(void *, "realloc", void *, size_t); return is_refused() ? NULL : real(p, n); }
int posix_memalign(void **p, size_t a, size_t n) { REAL(int, "posix_memalign", void **, size_t, size_t); return is_refused() ? 12 : real(p, a, n); }
void *aligned_alloc(size_t a, size_t n) { REAL(void *, "aligned_alloc", size_t, size_t); return is_refused() ? NULL : real(a, n); }
