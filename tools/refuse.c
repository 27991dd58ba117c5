/* Refuses a program's requests for memory, where it is loaded before the C library (LD_PRELOAD).

   No block of 2^62 octets or more is ever to be had, so a program orders and asks by requests for one. With bit 62
   alone the low 32 bits are n, and the nth request from there on is refused (0: none); with bit 61 each from the nth
   on. With bit 60, 59 or 58 it asks, and gets a block for a yes: whether a request was refused since the last order,
   whether one was made, whether one was made for more than n octets. Before any order REFUSE=n and REFUSE_EACH=n in the
   environment hold. At its end each process appends the numbers of its requests and of its refusals to REFUSE_LOG.

   It includes no header, so that the toolchain's compiler alone builds it. */
typedef unsigned long size;
extern void *__libc_malloc(size);
extern void *__libc_calloc(size, size);
extern void *__libc_realloc(void *, size);
extern char *getenv(const char *);
extern int open(const char *, int, ...);
extern int dprintf(int, const char *, ...);

enum { WRITE_CREATE_APPEND = 02101, OWNER_ALONE = 0600 };

static size nth, each;               /* what is ordered: the requests that are still to come up to a refusal */
static size made, refused, largest;  /* since the last order */
static size all_made, all_refused;   /* since the start */
static int begun;

static size number(const char *text) {
    size n = 0;
    while (text && *text >= '0' && *text <= '9') n = n * 10 + (size)(*text++ - '0');
    return n;
}

static void begin(void) {
    begun = 1;
    nth = number(getenv("REFUSE"));
    each = number(getenv("REFUSE_EACH"));
}

static void order(size n, int is_each) {
    begun = 1;
    nth = is_each ? 0 : n;
    each = is_each ? n : 0;
    made = refused = largest = 0;
}

static int is_yes(size question) {
    if (question >> 60 & 1) return refused > 0;
    if (question >> 59 & 1) return made > 0;
    return largest > (question & 0xffffffff);
}

/* Whether a request for so many octets is an order or a question, and the block that answers it. */
static int is_for_us(size n, void **block) {
    if (n >> 62 != 1) return 0;
    if (n >> 58 & 7) {
        *block = is_yes(n) ? __libc_malloc(1) : 0;
    } else {
        order(n & 0xffffffff, n >> 61 & 1);
        *block = 0;
    }
    return 1;
}

static int is_refused(size n) {
    int now;
    if (!begun) begin();
    made++;
    all_made++;
    if (n > largest) largest = n;
    now = each == 1 || nth == 1;
    if (each > 1) each--;
    if (nth) nth--;
    if (now) {
        refused++;
        all_refused++;
    }
    return now;
}

void *malloc(size n) {
    void *block;
    if (is_for_us(n, &block)) return block;
    return is_refused(n) ? 0 : __libc_malloc(n);
}

void *calloc(size count, size width) {
    size n;
    void *block;
    /* (what no number holds isn't to be had either way) */
    if (__builtin_mul_overflow(count, width, &n)) return __libc_calloc(count, width);
    if (is_for_us(n, &block)) return block;
    return is_refused(n) ? 0 : __libc_calloc(count, width);
}

void *realloc(void *old, size n) {
    void *block;
    if (is_for_us(n, &block)) return block;
    return is_refused(n) ? 0 : __libc_realloc(old, n);
}

__attribute__((destructor)) static void tell(void) {
    const char *log = getenv("REFUSE_LOG");
    size requests = all_made, refusals = all_refused;
    int file = log ? open(log, WRITE_CREATE_APPEND, OWNER_ALONE) : -1;
    if (file >= 0) dprintf(file, "%lu %lu\n", requests, refusals);
}
