// Refuses memory to a program that it is put in front of (LD_PRELOAD): the requests for memory are counted from 1, and those from number
// REFUSE_FIRST up to number REFUSE_LAST are refused. At the first refusal the file REFUSED is made, so that it can be told that there was
// one. A request is a call of malloc, or of realloc for more than no bytes; calloc, which the program does not call, passes.
typedef unsigned long size_t;

extern void *dlsym(void *, const char *);
extern char *getenv(const char *);
extern int creat(const char *, unsigned);
extern int close(int);

static void *(*given_malloc)(size_t);
static void *(*given_realloc)(void *, size_t);
static long requests, first, last;

static long number(const char *name)
{
    const char *digits = getenv(name);
    long value = 0;
    while (digits && *digits)
        value = 10 * value + *digits++ - '0';
    return value;
}

__attribute__((constructor)) static void begin(void)
{
    given_malloc = dlsym((void *)-1, "malloc");
    given_realloc = dlsym((void *)-1, "realloc");
    first = number("REFUSE_FIRST");
    last = number("REFUSE_LAST");
}

static int refuses(void)
{
    long request = __sync_add_and_fetch(&requests, 1);
    if (request < first || request > last)
        return 0;
    if (request == first)
        close(creat(getenv("REFUSED"), 0600));
    return 1;
}

void *malloc(size_t size)
{
    if (!given_malloc)
        begin();
    return first && refuses() ? 0 : given_malloc(size);
}

void *realloc(void *block, size_t size)
{
    if (!given_realloc)
        begin();
    return first && size && refuses() ? 0 : given_realloc(block, size);
}
