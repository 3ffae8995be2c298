/* Stops a program at one of the calls that give and take names: before the one whose number,
   counted from 1, is STOPS_AT, it is killed, or that call fails, where STOPS_HOW is "fails". At the
   end it prints how many there were. It is loaded in front of the C library, and needs no
   header. */
extern void *dlsym(void *, const char *);
extern char *getenv(const char *);
extern long strtol(const char *, char **, int);
extern int dprintf(int, const char *, ...);
extern int strcmp(const char *, const char *);
extern int kill(int, int);
extern int getpid(void);
extern int *__errno_location(void);

enum { KILLED = 9, NO_GOOD = 5, HERE = -100 };

static long calls;

/* Whether this call fails; where it is to kill the program, it does. */
static int fails(void) {
    const char *at = getenv("STOPS_AT"), *how = getenv("STOPS_HOW");
    calls += 1;
    if (at == 0 || how == 0 || calls != strtol(at, 0, 10))
        return 0;
    if (strcmp(how, "fails") != 0)
        kill(getpid(), KILLED);
    *__errno_location() = NO_GOOD;
    return 1;
}

int renameat(int folder, const char *from, int other, const char *to) {
    static int (*next)(int, const char *, int, const char *);
    if (next == 0)
        next = dlsym((void *) -1l, "renameat");
    return fails() ? -1 : next(folder, from, other, to);
}

int rename(const char *from, const char *to) {
    return renameat(HERE, from, HERE, to);
}

int linkat(int folder, const char *from, int other, const char *to, int flags) {
    static int (*next)(int, const char *, int, const char *, int);
    if (next == 0)
        next = dlsym((void *) -1l, "linkat");
    return fails() ? -1 : next(folder, from, other, to, flags);
}

int link(const char *from, const char *to) {
    return linkat(HERE, from, HERE, to, 0);
}

int unlinkat(int folder, const char *name, int flags) {
    static int (*next)(int, const char *, int);
    if (next == 0)
        next = dlsym((void *) -1l, "unlinkat");
    return fails() ? -1 : next(folder, name, flags);
}

int unlink(const char *name) {
    return unlinkat(HERE, name, 0);
}

__attribute__((destructor)) static void print(void) {
    if (getenv("STOPS_AT"))
        dprintf(2, "calls=%ld\n", calls);
}
