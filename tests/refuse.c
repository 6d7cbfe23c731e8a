/* Refuses one request for memory of a process, for tests: loaded before the C library by LD_PRELOAD.

   REFUSE=N   the Nth malloc or realloc is refused, the first being 1. 0, or no such word: none is.
   REFUSE_FD  a descriptor to which a byte is written where a request is refused, and at the end one for each request
              that was counted, as `.`; so a test knows how many there were.
   REFUSE_MARKED=1  only requests between two writes to standard error are counted, of which the first begins with
              `begin` and the second with `end`. These two writes are not passed on.

   It takes no memory itself, and names nothing of the C library's headers. */

typedef unsigned long size;

extern void *__libc_malloc(size);
extern void *__libc_realloc(void *, size);
extern char *getenv(const char *);
extern long syscall(long, ...);

enum { WRITE = 1, MOST = 1000000 };

static long wanted, made;
static int descriptor, marked, is_open, is_ready;

static long number(const char *text)
{
    long n = 0;
    while (text && *text >= '0' && *text <= '9' && n < MOST)
        n = 10 * n + (*text++ - '0');
    return n;
}

static void prepare(void)
{
    is_ready = 1;
    wanted = number(getenv("REFUSE"));
    descriptor = (int)number(getenv("REFUSE_FD"));
    marked = number(getenv("REFUSE_MARKED")) == 1;
    is_open = !marked;
}

static int is_refused(void)
{
    if (!is_ready)
        prepare();
    if (!is_open)
        return 0;
    made++;
    if (descriptor)
        syscall(WRITE, descriptor, made == wanted ? "x" : ".", (size)1);
    return made == wanted;
}

void *malloc(size n)
{
    return is_refused() ? 0 : __libc_malloc(n);
}

void *realloc(void *old, size n)
{
    return is_refused() ? 0 : __libc_realloc(old, n);
}

static int begins(const char *text, size n, const char *word)
{
    while (*word) {
        if (n == 0 || *text != *word)
            return 0;
        text++;
        word++;
        n--;
    }
    return 1;
}

long write(int to, const void *bytes, size n)
{
    if (!is_ready)
        prepare();
    if (marked && to == 2 && begins(bytes, n, "begin")) {
        is_open = 1;
        return (long)n;
    }
    if (marked && to == 2 && begins(bytes, n, "end")) {
        is_open = 0;
        return (long)n;
    }
    return syscall(WRITE, to, bytes, n);
}
