/* Refuses one growth of a program's memory: the one whose number, counted from 1, is
   REFUSE_AT. With REFUSE_COUNT it prints the number of all on standard error at the end. It is
   loaded in front of the C library, and needs no header. */
typedef unsigned long size;
extern void *dlsym(void *, const char *);
extern char *getenv(const char *);
extern long strtol(const char *, char **, int);
extern int dprintf(int, const char *, ...);

static void *(*next_malloc)(size);
static void *(*next_realloc)(void *, size);
static long growths, refused = -1;

/* Whether this growth is the one to refuse. */
static int is_refused(void) {
    if (refused < 0) {
        const char *number = getenv("REFUSE_AT");
        refused = number ? strtol(number, 0, 10) : 0;
        /* RTLD_NEXT */
        next_malloc = dlsym((void *) -1l, "malloc");
        next_realloc = dlsym((void *) -1l, "realloc");
    }
    growths += 1;
    return growths == refused;
}

void *malloc(size bytes) { return is_refused() ? 0 : next_malloc(bytes); }

void *realloc(void *block, size bytes) { return is_refused() ? 0 : next_realloc(block, bytes); }

__attribute__((destructor)) static void print(void) {
    if (getenv("REFUSE_COUNT"))
        dprintf(2, "growths=%ld\n", growths);
}
