// Refuses one request for memory of the program that it is loaded into: that of the number in REFUSED, counted from 1. Where
// the program ends, the count of its requests goes to the file that REQUESTS names. No header is needed to compile it.

typedef unsigned long size;

void *dlsym(void *from, const char *name);
char *getenv(const char *name);
long atol(const char *text);
int open(const char *path, int flags, ...);
long write(int file, const void *bytes, size count);

static long requests, refused;
static void *(*next_malloc)(size);
static void *(*next_realloc)(void *, size);

// The function of this name that the program would have called.
static void *next(const char *name) { return dlsym((void *)-1L, name); }

__attribute__((constructor)) static void begin(void) {
    const char *text = getenv("REFUSED");
    requests = 0;
    refused = text ? atol(text) : 0;
}

void *malloc(size bytes) {
    if (!next_malloc) next_malloc = (void *(*)(size))next("malloc");
    return ++requests == refused ? 0 : next_malloc(bytes);
}

void *realloc(void *block, size bytes) {
    if (!next_realloc) next_realloc = (void *(*)(void *, size))next("realloc");
    return ++requests == refused ? 0 : next_realloc(block, bytes);
}

__attribute__((destructor)) static void end(void) {
    const char *path = getenv("REQUESTS");
    int file = path ? open(path, 1) : -1;
    if (file >= 0) write(file, &requests, sizeof requests);
}
