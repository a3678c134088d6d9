// A library to preload under the program: it makes one allocation, one read of standard input or of a file, one write to
// standard output, or the start of one thread fail, as if the system had refused it.
//
// FAIL_ALLOC, FAIL_READ, FAIL_FILE_READ, FAIL_WRITE, FAIL_THREAD: the number of the call that fails, from 1.
// FAIL_ALLOCS: how many allocations fail from that one on; one where it is not set. FAIL_ALLOC_AGAIN: one more that fails.
// FAIL_EVERY_THREAD: no thread starts. EMPTY_WRITE: the number of the write that takes no byte. SHORT: reads and writes of
// several bytes move one. SHRINK, SHRINK_TO: a file, and the size to which it is cut before the second read of a file.
// COUNTS: a file that gets the numbers of these calls at the end.
//
// It stands on no header, so that the toolchain's own compiler is enough: the numbers are those of Linux on
// x86-64.

typedef __SIZE_TYPE__ size_t;
typedef long ssize_t;

enum { CALL_READ = 0, CALL_WRITE = 1, CALL_EXIT_GROUP = 231, TRY_AGAIN = 11, NO_MEMORY = 12, INPUT_OUTPUT = 5, WRITE_CREATE_EMPTY = 01 | 0100 | 01000 };

extern char *getenv(const char *name);
extern long atol(const char *text);
extern int snprintf(char *line, size_t size, const char *format, ...);
extern int open(const char *path, int flags, ...);
extern int truncate(const char *path, long size);
extern long syscall(long number, ...);
extern void *dlsym(void *library, const char *name);
extern int *__errno_location(void);

extern void *__libc_malloc(size_t size);
extern void *__libc_calloc(size_t count, size_t size);
extern void *__libc_realloc(void *block, size_t size);
extern void *__libc_memalign(size_t align, size_t size);

static long allocs, reads, file_reads, writes, threads;

static long number(const char *name) {
    const char *text = getenv(name);
    return text ? atol(text) : 0;
}

// Several threads count at once.
static int refused(long *calls, const char *name) {
    return __atomic_add_fetch(calls, 1, __ATOMIC_RELAXED) == number(name);
}

// The C library, which makes the stacks of threads, wants the reason of a refusal.
static int no_memory(void) {
    long call = __atomic_add_fetch(&allocs, 1, __ATOMIC_RELAXED), first = number("FAIL_ALLOC"), more = number("FAIL_ALLOCS");
    int fails = first && call >= first && call < first + (more ? more : 1);
    if (!fails && call != number("FAIL_ALLOC_AGAIN")) return 0;
    *__errno_location() = NO_MEMORY;
    return 1;
}

void *malloc(size_t size) { return no_memory() ? 0 : __libc_malloc(size); }

void *calloc(size_t count, size_t size) { return no_memory() ? 0 : __libc_calloc(count, size); }

void *realloc(void *block, size_t size) { return no_memory() ? 0 : __libc_realloc(block, size); }

void *aligned_alloc(size_t align, size_t size) {
    return no_memory() ? 0 : __libc_memalign(align, size);
}

int posix_memalign(void **block, size_t align, size_t size) {
    if (no_memory()) return NO_MEMORY;
    *block = __libc_memalign(align, size);
    return *block ? 0 : NO_MEMORY;
}

static size_t moved(size_t size) { return number("SHORT") && size > 1 ? 1 : size; }

static void shrink(void) {
    const char *path = getenv("SHRINK");
    if (path) truncate(path, number("SHRINK_TO"));
}

ssize_t read(int file, void *bytes, size_t size) {
    if (file == 0 ? refused(&reads, "FAIL_READ") : refused(&file_reads, "FAIL_FILE_READ")) {
        *__errno_location() = INPUT_OUTPUT;
        return -1;
    }
    if (file != 0 && file_reads == 2) shrink();
    return syscall(CALL_READ, file, bytes, moved(size));
}

ssize_t write(int file, const void *bytes, size_t size) {
    if (file == 1 && refused(&writes, "FAIL_WRITE")) {
        *__errno_location() = INPUT_OUTPUT;
        return -1;
    }
    if (file == 1 && writes == number("EMPTY_WRITE")) return 0;
    return syscall(CALL_WRITE, file, bytes, file == 1 ? moved(size) : size);
}

typedef int start(void *thread, const void *settings, void *(*work)(void *), void *given);

int pthread_create(void *thread, const void *settings, void *(*work)(void *), void *given) {
    if (refused(&threads, "FAIL_THREAD") || number("FAIL_EVERY_THREAD")) return TRY_AGAIN;
    void *next = (void *)-1L;
    return ((start *)dlsym(next, "pthread_create"))(thread, settings, work, given);
}

__attribute__((destructor)) static void count(void) {
    const char *path = getenv("COUNTS");
    if (!path) return;
    char line[100];
    int length = snprintf(line, sizeof line, "%ld %ld %ld %ld %ld\n", allocs, reads, file_reads, writes, threads);
    int file = open(path, WRITE_CREATE_EMPTY, 0600);
    if (file >= 0) syscall(CALL_WRITE, file, line, (size_t)length);
}

// A program with threads ends by this call, which runs no destructor.
void _exit(int status) {
    count();
    for (;;) syscall(CALL_EXIT_GROUP, status);
}
