/* Goes before the C library in a program (LD_PRELOAD), on Linux on x86-64. It writes into the file ASKED what the program asks the
 * system for: `look PATH`, `open PATH to read`, `open PATH to write` (and `, made` or `, cut` where it may be), `lock PATH`, `end PATH` (its
 * length), `place PATH N`, `read PATH N`, `write PATH N`, `sync PATH` and `print N`. With LOCK=E each lock fails with the error E, with
 * SYNC=N the Nth sync fails, and with INPUT=E each second read of the input fails, beginning with the first. With GIVES=N a read gives N
 * bytes at most. It stands without headers, which the kit's compiler lacks. */
typedef unsigned long size;
extern void *dlsym(void *, const char *);
extern int *__errno_location(void), dprintf(int, const char *, ...);
extern long atol(const char *);
extern char *getenv(const char *), *strncpy(char *, const char *, size);
#define NEXT(name) dlsym((void *)-1L, name)
#define NOTE(...) ((void)(asked >= 0 && dprintf(asked, __VA_ARGS__)))
enum { EIO = 5, WRITE = 1, TO_WRITE = 3, MADE = 0100, CUT = 01000, FROM_END = 2, FILES = 64 };

static int asked = -1;
static char paths[FILES][256];

__attribute__((constructor)) static void begin(void) {
    int (*next)(const char *, int, ...) = NEXT("open");
    if (getenv("ASKED")) asked = next(getenv("ASKED"), WRITE | MADE | CUT, 0644);
}

static const char *path_of(int fd) { return fd > 2 && fd < FILES && paths[fd][0] ? paths[fd] : 0; }

static int fails(long error) {
    if (error) *__errno_location() = error;
    return error != 0;
}

static long number(const char *name) { return getenv(name) ? atol(getenv(name)) : 0; }

int statx(int folder, const char *path, int flags, unsigned mask, void *found) {
    int (*next)(int, const char *, int, unsigned, void *) = NEXT("statx");
    NOTE("look %s\n", path);
    return next(folder, path, flags, mask, found);
}

int open(const char *path, int flags, ...) {
    int (*next)(const char *, int, ...) = NEXT("open");
    __builtin_va_list rest;
    __builtin_va_start(rest, flags);
    int fd = next(path, flags, flags & MADE ? __builtin_va_arg(rest, int) : 0);
    __builtin_va_end(rest);
    NOTE("open %s to %s%s%s\n", path, flags & TO_WRITE ? "write" : "read", flags & MADE ? ", made" : "", flags & CUT ? ", cut" : "");
    if (fd > 2 && fd < FILES) strncpy(paths[fd], path, 255);
    return fd;
}

int flock(int fd, int how) {
    int (*next)(int, int) = NEXT("flock");
    if (path_of(fd)) NOTE("lock %s\n", path_of(fd));
    return fails(number("LOCK")) ? -1 : next(fd, how);
}

int fsync(int fd) {
    int (*next)(int) = NEXT("fsync");
    static long syncs;
    if (path_of(fd)) NOTE("sync %s\n", path_of(fd));
    return fails(++syncs == number("SYNC") ? EIO : 0) ? -1 : next(fd);
}

long lseek(int fd, long place, int from) {
    long (*next)(int, long, int) = NEXT("lseek");
    if (path_of(fd) && from == FROM_END) NOTE("end %s\n", path_of(fd));
    if (path_of(fd) && from == 0) NOTE("place %s %ld\n", path_of(fd), place);
    return next(fd, place, from);
}

long read(int fd, void *into, size length) {
    long (*next)(int, void *, size) = NEXT("read");
    static unsigned inputs;
    if (fd == 0 && ++inputs % 2 && fails(number("INPUT"))) return -1;
    if (path_of(fd)) NOTE("read %s %lu\n", path_of(fd), length);
    size most = getenv("GIVES") ? number("GIVES") : length;
    return next(fd, into, length < most ? length : most);
}

long write(int fd, const void *bytes, size length) {
    long (*next)(int, const void *, size) = NEXT("write");
    if (path_of(fd)) NOTE("write %s %lu\n", path_of(fd), length);
    if (fd == 1) NOTE("print %lu\n", length);
    return next(fd, bytes, length);
}
