// Stands before the C library in a run of a program (LD_PRELOAD, x86-64 Linux), and refuses it one growth, one read or one write.
//
// REFUSING says which: `growth 7` the seventh allocation, `all 7` that and all behind it, `read 2` the second read and `write 2` the second
// write to standard output (as one that a signal broke off) or to a file (as if the disk was full); `take 2` has the second such write take
// nothing. With the last three, and with `short 0`, each read and write moves one byte.
// REFUSING_TO is a file descriptor: `r` goes there when something was refused, and at the end `left N`, the blocks not given back.
// It uses no header, so that the compiler of the kit is enough.

typedef unsigned long size;

extern void *__libc_malloc(size);
extern void *__libc_calloc(size, size);
extern void *__libc_realloc(void *, size);
extern void *__libc_memalign(size, size);
extern void __libc_free(void *);
extern long syscall(long, ...);
extern int *__errno_location(void);
extern char *getenv(const char *);

enum { READ = 0, WRITE = 1, EXIT = 231 }; // the numbers of the system's calls
enum { OUT = 1, ERR = 2 };               // standard output and standard error
enum { EINTR = 4, ENOMEM = 12, ENOSPC = 28 };

static char kind;                        // the first letter of what is refused; 0 before the program begins and after it ended
static long when;
static int to = -1;
static long growths, reads, writes, blocks;

static long number(const char *text) {
    long n = 0;
    for (; *text >= '0' && *text <= '9'; text++) n = 10 * n + (*text - '0');
    return n;
}

// Whether this is what is refused; then it is told.
static int is_refused(char of, long turn) {
    if (kind != of || turn != when) return 0;
    syscall(WRITE, to, "r", 1);
    return 1;
}

__attribute__((constructor)) static void begin(void) {
    const char *what = getenv("REFUSING"), *where = getenv("REFUSING_TO");
    if (!what || !where) return;
    const char *digits = what;
    while (*digits && *digits != ' ') digits++;
    when = *digits ? number(digits + 1) : 0;
    to = (int)number(where);
    growths = blocks = 0;
    kind = *what;
}

__attribute__((destructor)) static void end(void) {
    if (!kind) return;
    kind = 0;
    char digits[20];
    int first = sizeof digits;
    long n = blocks;
    do { digits[--first] = (char)('0' + n % 10); n /= 10; } while (n > 0);
    syscall(WRITE, to, "left ", 5);
    syscall(WRITE, to, digits + first, sizeof digits - first);
}

// A program that may start threads ends here, without the destructors.
__attribute__((noreturn)) void _exit(int status) {
    end();
    for (;;) syscall(EXIT, status);
}

static void *grown(void *block) {
    if (block) __atomic_add_fetch(&blocks, 1, __ATOMIC_SEQ_CST);
    return block;
}

static int refuses(void) {
    long turn = __atomic_add_fetch(&growths, 1, __ATOMIC_SEQ_CST);
    if (!is_refused('g', turn) && !is_refused('a', turn < when ? turn : when)) return 0;
    *__errno_location() = ENOMEM;
    return 1;
}

void *malloc(size n) { return refuses() ? 0 : grown(__libc_malloc(n)); }
void *calloc(size n, size each) { return refuses() ? 0 : grown(__libc_calloc(n, each)); }
void *memalign(size to_what, size n) { return refuses() ? 0 : grown(__libc_memalign(to_what, n)); }
void *aligned_alloc(size to_what, size n) { return memalign(to_what, n); }

int posix_memalign(void **block, size to_what, size n) {
    *block = memalign(to_what, n);
    return *block ? 0 : ENOMEM;
}

void *realloc(void *block, size n) {
    if (refuses()) return 0;
    void *moved = __libc_realloc(block, n);
    return block ? moved : grown(moved);
}

void free(void *block) {
    if (block) __atomic_add_fetch(&blocks, -1, __ATOMIC_SEQ_CST);
    __libc_free(block);
}

static long failed(int why) {
    *__errno_location() = why;
    return -1;
}

// How many bytes are moved at once.
static size moved(size n) { return n && kind && kind != 'g' && kind != 'a' ? 1 : n; }

long read(int file, void *bytes, size n) {
    if (is_refused('r', __atomic_add_fetch(&reads, 1, __ATOMIC_SEQ_CST))) return failed(EINTR);
    return syscall(READ, file, bytes, moved(n));
}

long write(int file, const void *bytes, size n) {
    if (file != ERR) {
        long turn = __atomic_add_fetch(&writes, 1, __ATOMIC_SEQ_CST);
        if (is_refused('w', turn)) return failed(file == OUT ? EINTR : ENOSPC);
        if (is_refused('t', turn)) return 0;
    }
    return syscall(WRITE, file, bytes, moved(n));
}

long __read(int file, void *bytes, size n) { return read(file, bytes, n); }
long __write(int file, const void *bytes, size n) { return write(file, bytes, n); }
