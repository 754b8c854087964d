/*
 * Tests runtime/heap.c over a memory that is an array here: blocks do not overlap, keep their bytes,
 * move with them, and are reclaimed; a request that is not granted changes nothing.
 */
#include <stdio.h>
#include <stdlib.h>
#include <string.h>

enum { SPACE = 1 << 22, STEPS = 20000, BLOCKS = 24 };
static unsigned long memory_size(void);
static unsigned long memory_grow(unsigned long pages);
#define __builtin_wasm_memory_size(nth) memory_size()
#define __builtin_wasm_memory_grow(nth, pages) memory_grow(pages)
#define __heap_base space
#include "../runtime/heap.c"

_Alignas(65536) unsigned char space[SPACE];
static size pages = 2, most = SPACE / PAGE;

static unsigned long memory_size(void) { return (size)space / PAGE + pages; }

static unsigned long memory_grow(unsigned long more) {
    if (more > most - pages)
        return -1ul;
    pages += more;
    return memory_size() - more;
}

typedef struct {
    unsigned char *p, fill;
    size n;
} block;
static block blocks[BLOCKS];
static int moved, failed;

#define CHECK(what)                                                                                \
    do {                                                                                           \
        if (!(what)) {                                                                             \
            printf("line %d: %s\n", __LINE__, #what);                                              \
            exit(1);                                                                               \
        }                                                                                          \
    } while (0)

static void check_contents(const block *b) {
    for (size k = 0; k < b->n; k++)
        CHECK(b->p[k] == b->fill);
}

static void check_all(void) {
    for (block *b = blocks; b < blocks + BLOCKS; b++) {
        if (!b->p)
            continue;
        CHECK((size)b->p % 16 == 0 && b->p >= space && b->p + b->n <= space + pages * PAGE);
        check_contents(b);
        for (block *c = blocks; c < b; c++)
            CHECK(!c->p || c->p + c->n <= b->p || b->p + b->n <= c->p);
    }
}

static void fill(block *b, size n) {
    b->n = n;
    b->fill = (unsigned char)rand();
    memset(b->p, b->fill, n);
}

static void allocate(block *b) {
    size n = (size)rand() % 5000;
    tried got = rattle_alloc(n, 8);
    CHECK(got.p != 0);
    if (got.ok) {
        b->p = got.p;
        fill(b, n);
    }
    failed += !got.ok;
}

static void reallocate(block *b) {
    size n = (size)rand() % 9000, used = b->n < n ? b->n : n;
    unsigned char *before = b->p;
    tried got = rattle_realloc(b->p, used, n, 8);
    if (!got.ok) {
        failed++;
        check_contents(b);
        return;
    }
    b->p = got.p;
    moved += b->p != before && used > 0;
    b->n = used;
    check_contents(b);
    fill(b, n);
}

static void step(block *b) {
    if (!b->p)
        allocate(b);
    else if (rand() % 2)
        reallocate(b);
    else {
        check_contents(b);
        rattle_dealloc(b->p);
        b->p = 0;
    }
}

int main(void) {
    srand(1);
    for (int n = 0; n < STEPS; n++) {
        iim_heap_grants(rand() % 50 ? -1ul : 0);
        step(&blocks[rand() % BLOCKS]);
        if (n % 8 == 0)
            check_all();
        if (n % 500 == 499) {
            for (block *b = blocks; b < blocks + BLOCKS; b++)
                if (b->p)
                    rattle_dealloc(b->p), b->p = 0;
            CHECK(iim_heap_out() == 0);
            size at = (size)space + (size)(rand() % 100000);
            CHECK(iim_heap_from(at) && iim_heap_out() == 0);
            iim_heap_grants(-1ul);
            tried got = rattle_alloc(1, 8);
            CHECK(got.ok && (size)got.p >= at && !iim_heap_from(at));
            rattle_dealloc(got.p);
        }
    }
    CHECK(!iim_heap_from((size)space - 1) && !iim_heap_from((size)space + 2 * SPACE));
    most = pages;
    iim_heap_grants(-1ul);
    CHECK(!rattle_alloc(SPACE, 8).ok && !rattle_alloc((size)1 << 40, 8).ok);
    CHECK(iim_heap_out() == 0 && moved > 1000 && failed > 100);
    printf("%d steps, %d blocks moved, %d requests failed\n", STEPS, moved, failed);
    return 0;
}
