// The calls of the C library that give memory, of which one is refused: that whose number, counted
// from 1, the variable REFUSE_AT has. A byte is then written to the file descriptor REFUSE_TELL.
// Preloaded into a program; it needs no header, so that the kit's clang builds it anywhere.
typedef unsigned long size;

extern void *__libc_malloc(size bytes);
extern void *__libc_calloc(size count, size bytes);
extern void *__libc_realloc(void *old, size bytes);
extern void *__libc_memalign(size align, size bytes);
extern int *__errno_location(void);
extern char *getenv(const char *name);
extern long atol(const char *text);
extern long write(int to, const void *from, size bytes);

enum { OUT_OF_MEMORY = 12 };

static long asked, refused_at, tell_to = -1;

// Read when the library is loaded, before any thread.
__attribute__((constructor)) static void read_environment(void) {
    const char *text = getenv("REFUSE_AT");
    refused_at = text ? atol(text) : 0;
    text = getenv("REFUSE_TELL");
    tell_to = text ? atol(text) : -1;
}

static int is_refused(void) {
    if (__atomic_add_fetch(&asked, 1, __ATOMIC_SEQ_CST) != refused_at) return 0;
    write((int)tell_to, "x", 1);
    *__errno_location() = OUT_OF_MEMORY; // which the start of a thread looks for
    return 1;
}

void *malloc(size bytes) { return is_refused() ? 0 : __libc_malloc(bytes); }

// The C library makes a thread's own data by this.
void *calloc(size count, size bytes) { return is_refused() ? 0 : __libc_calloc(count, bytes); }

void *realloc(void *old, size bytes) { return is_refused() ? 0 : __libc_realloc(old, bytes); }

void *aligned_alloc(size align, size bytes) {
    return is_refused() ? 0 : __libc_memalign(align, bytes);
}

int posix_memalign(void **to, size align, size bytes) {
    void *block = is_refused() ? 0 : __libc_memalign(align, bytes);
    if (!block) return OUT_OF_MEMORY;
    *to = block;
    return 0;
}
