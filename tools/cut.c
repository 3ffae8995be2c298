/* Cuts a file while a program reads it: before the read of it whose number, counted from 1, is
   CUT_AT, the file CUT_FILE gets CUT_TO bytes. At the end it prints how many reads there were. It
   is loaded in front of the C library, and needs no header. */
typedef unsigned long size;
extern void *dlsym(void *, const char *);
extern char *getenv(const char *);
extern long strtol(const char *, char **, int);
extern int truncate(const char *, long);
extern int dprintf(int, const char *, ...);
extern char *realpath(const char *, char *);
extern long readlink(const char *, char *, size);
extern int snprintf(char *, size, const char *, ...);
extern int strcmp(const char *, const char *);

static long reads;

/* Whether a descriptor is of the file, by its name. */
static int is_of_file(int descriptor, const char *file) {
    char link[64], name[4096], own[4096];
    long length;
    snprintf(link, sizeof link, "/proc/self/fd/%d", descriptor);
    length = readlink(link, name, sizeof name - 1);
    if (length < 0 || realpath(file, own) == 0)
        return 0;
    name[length] = 0;
    return strcmp(name, own) == 0;
}

/* Cuts the file where this read is the one to come after that. */
static void note(int descriptor) {
    const char *file = getenv("CUT_FILE"), *at = getenv("CUT_AT"), *to = getenv("CUT_TO");
    if (file == 0 || at == 0 || to == 0 || !is_of_file(descriptor, file))
        return;
    reads += 1;
    if (reads == strtol(at, 0, 10))
        truncate(file, strtol(to, 0, 10));
}

long read(int descriptor, void *bytes, size count) {
    static long (*next)(int, void *, size);
    if (next == 0)
        next = dlsym((void *) -1l, "read");
    note(descriptor);
    return next(descriptor, bytes, count);
}

__attribute__((destructor)) static void print(void) {
    if (getenv("CUT_FILE"))
        dprintf(2, "reads=%ld\n", reads);
}
