/* The heap of a program that bench/memory.py or bench/replica_memory.py builds, in place of the toolchain's: it counts the requests and
   refuses some of them.

   REFUSED is `N`, for the Nth request alone, or `N-`, for it and all later ones; without it none is refused. COUNTED is a file of 16 bytes,
   in which two words of 8 bytes count the requests and those that were refused, or of 24, with the word `phase_now` as it was at the last
   refusal. A request is one for a new piece, or for another size of one. */
typedef unsigned long size;

void *malloc(size);
void *realloc(void *, size);
void free(void *);
char *getenv(const char *);
long strtol(const char *, char **, int);
int open(const char *, int, ...);
void *mmap(void *, size, int, int, int, long);

enum { READ_AND_WRITE = 2, READABLE = 1, WRITABLE = 2, SHARED = 1 };

/* What a request comes to. */
struct tried {
    _Bool ok;
    void *at;
};

/* Where the program is. Only a build that marks its functions sets it. */
long phase_now;
static long first, uncounted[3], *counts = uncounted;
static _Bool and_later;
/* What is told where no piece was given. */
static char nothing[16] __attribute__((aligned(16)));

__attribute__((constructor)) static void begin(void)
{
    char *asked = getenv("REFUSED"), *name = getenv("COUNTED"), *rest;

    if (asked) {
        first = strtol(asked, &rest, 10);
        and_later = *rest == '-';
    }
    if (name) {
        void *file = mmap(0, sizeof uncounted, READABLE | WRITABLE, SHARED, open(name, READ_AND_WRITE), 0);

        counts = file == (void *)-1 ? uncounted : file;
    }
}

static _Bool is_refused(void)
{
    long number = __atomic_add_fetch(&counts[0], 1, __ATOMIC_SEQ_CST);
    _Bool is = first && (number == first || (and_later && number > first));

    if (is) {
        __atomic_add_fetch(&counts[1], 1, __ATOMIC_SEQ_CST);
        counts[2] = phase_now;
    }
    return is;
}

static struct tried told(void *at)
{
    return (struct tried){at != 0, at ? at : nothing};
}

/* A piece of no bytes is asked for as one of its alignment, as in the toolchain's heap. */
struct tried rattle_alloc(size bytes, size alignment)
{
    return told(is_refused() ? 0 : malloc(bytes ? bytes : alignment));
}

struct tried rattle_realloc(void *at, size kept, size bytes, size alignment)
{
    (void)kept;
    return told(is_refused() ? 0 : realloc(at, bytes ? bytes : alignment));
}

void rattle_dealloc(void *at)
{
    free(at);
}
