/* Fails the opening of a file, or the first read of it, as a system does that has no memory for it.
   LACKS_FILE is the file, LACKS_CALL is "open" or "read". It is loaded in front of the C library,
   and needs no header. */
typedef unsigned long size;
extern void *dlsym(void *, const char *);
extern char *getenv(const char *);
extern char *realpath(const char *, char *);
extern long readlink(const char *, char *, size);
extern int snprintf(char *, size, const char *, ...);
extern int strcmp(const char *, const char *);
extern int *__errno_location(void);

enum { NO_MEMORY = 12 };

/* Whether this call is the one that fails. */
static int fails(const char *call) {
    const char *wanted = getenv("LACKS_CALL");
    return wanted != 0 && strcmp(wanted, call) == 0;
}

/* Whether a name leads to the file. */
static int is_file(const char *name) {
    char own[4096], other[4096];
    const char *file = getenv("LACKS_FILE");
    return file != 0 && realpath(file, own) != 0 && realpath(name, other) != 0
        && strcmp(own, other) == 0;
}

static int lacks(void) {
    *__errno_location() = NO_MEMORY;
    return -1;
}

int openat(int folder, const char *name, int flags, int mode) {
    static int (*next)(int, const char *, int, int);
    if (next == 0)
        next = dlsym((void *) -1l, "openat");
    return fails("open") && is_file(name) ? lacks() : next(folder, name, flags, mode);
}

int openat64(int folder, const char *name, int flags, int mode) {
    return openat(folder, name, flags, mode);
}

int open(const char *name, int flags, int mode) {
    return openat(-100, name, flags, mode);
}

int open64(const char *name, int flags, int mode) {
    return openat(-100, name, flags, mode);
}

long read(int descriptor, void *bytes, size count) {
    static long (*next)(int, void *, size);
    char link[64], name[4096];
    long length;
    if (next == 0)
        next = dlsym((void *) -1l, "read");
    snprintf(link, sizeof link, "/proc/self/fd/%d", descriptor);
    length = fails("read") ? readlink(link, name, sizeof name - 1) : -1;
    if (length < 0)
        return next(descriptor, bytes, count);
    name[length] = 0;
    return is_file(name) ? lacks() : next(descriptor, bytes, count);
}
