/*
 * The heap of the library in WebAssembly: rattle_alloc, rattle_realloc and rattle_dealloc, which the
 * toolchain otherwise implements over malloc.
 *
 * The memory of the module has, from below: the stack, the data, the caller's buffers (from
 * __heap_base on), and the heap. Blocks lie one above another, each after a head of 16 bytes. A freed
 * block is reclaimed when all blocks above it are free. A call of the library frees all that it has
 * allocated, so the heap is empty after each call, except for open unpackers.
 *
 * No proof covers this file: bindings/wasm/tests/heap_test.c tests it.
 */
typedef unsigned long size;
_Static_assert(sizeof(size) == 8, "addresses have 64 bits");

/* The result of a request, as the compiled library passes it: two words. */
typedef struct {
    size ok;
    void *p;
} tried;

typedef struct {
    size before; /* the head of the block below, or 0 */
    size is_free;
} head;

enum { HEAD = sizeof(head), PAGE = 65536 };
_Static_assert(HEAD == 16, "blocks have the alignment of malloc");

#ifdef __wasm__
#define EXPORT(name) __attribute__((export_name(name)))
#else
#define EXPORT(name)
#endif

extern unsigned char __heap_base[];
static size base, top, last; /* the first byte of the heap, its first free byte, the topmost head */
static size granted = -1ul;  /* the requests that are still granted, for tests */
static char nothing;

static size rounded(size n) { return (n + 15) & ~(size)15; }

static _Bool has_memory(size end) {
    size now = __builtin_wasm_memory_size(0) * PAGE;
    return end <= now || __builtin_wasm_memory_grow(0, (end - now + PAGE - 1) / PAGE) != -1ul;
}

static _Bool is_granted(size n) {
    if (n >> 40 != 0 || granted == 0)
        return 0;
    granted -= granted != -1ul;
    if (base == 0)
        base = top = rounded((size)__heap_base);
    return 1;
}

static tried result(void *p) { return (tried){p != 0, p != 0 ? p : &nothing}; }

static void *push(size n) {
    size at = top, end = at + HEAD + rounded(n);
    if (!has_memory(end))
        return 0;
    *(head *)at = (head){last, 0};
    last = at;
    top = end;
    return (void *)(at + HEAD);
}

static void release(void *p) {
    ((head *)p - 1)->is_free = 1;
    while (last != 0 && ((head *)last)->is_free) {
        top = last;
        last = ((head *)last)->before;
    }
}

tried rattle_alloc(size n, size align) {
    (void)align;
    return result(is_granted(n) ? push(n) : 0);
}

void rattle_dealloc(void *p) { release(p); }

tried rattle_realloc(void *p, size used, size n, size align) {
    (void)align;
    if (!is_granted(n))
        return result(0);
    if ((size)p - HEAD == last) {
        size end = (size)p + rounded(n);
        if (!has_memory(end))
            return result(0);
        top = end;
        return result(p);
    }
    void *to = push(n);
    if (to != 0) {
        __builtin_memcpy(to, p, used);
        release(p);
    }
    return result(to);
}

/* Moves the begin of the empty heap to an address. Returns false if a block is allocated, or if there
 * is no memory up to that address. */
EXPORT("iim_heap_from") _Bool iim_heap_from(size at) {
    if (last != 0 || at < (size)__heap_base || !has_memory(at))
        return 0;
    base = top = rounded(at);
    return 1;
}

/* For tests: grants this number of requests, and fails those after them. */
EXPORT("iim_heap_grants") void iim_heap_grants(size requests) { granted = requests; }

/* Returns the number of bytes that are allocated. */
EXPORT("iim_heap_out") size iim_heap_out(void) { return top - base; }
