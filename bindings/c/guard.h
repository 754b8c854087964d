/*
 * Allocates buffers between inaccessible pages.
 *
 * The library is not compiled with a sanitizer, so AddressSanitizer does not see its loads and
 * stores. A buffer of guarded_room has exactly the requested number of bytes, and ends at a page
 * that can neither be read nor written (GUARD_AFTER), or begins after one (GUARD_BEFORE): a load
 * or a store that is off by one there ends the program. At the other end there are bytes with a
 * known value, which guarded_free checks.
 */
#ifndef GUARD_H
#define GUARD_H

#include <stdbool.h>
#include <stdint.h>
#include <stdio.h>
#include <stdlib.h>
#include <string.h>
#include <sys/mman.h>

enum { GUARD_PAGE = 4096, GUARD_ROOM = 32 * GUARD_PAGE, GUARD_SLOT = GUARD_ROOM + GUARD_PAGE, GUARD_SLOTS = 2048, GUARD_SLACK = 64, GUARD_BYTE = 0xA5 };

/* The end of a buffer that is next to the inaccessible page. */
typedef enum { GUARD_AFTER, GUARD_BEFORE } guard_end;

static struct {
    uint8_t *base;              /* an inaccessible page, then the slots, each with one after it */
    uint8_t *at[GUARD_SLOTS];   /* the buffer in each slot, or null */
    size_t count[GUARD_SLOTS];  /* its length in bytes */
    bool is_open[GUARD_SLOTS];  /* whether the pages of the slot are accessible */
    size_t next;                /* the slot to try first */
    guard_end end;              /* which end of the next buffer is next to the page */
} guarded;

/* Returns the first byte of a slot. */
static uint8_t *guard_slot(size_t slot) { return guarded.base + GUARD_PAGE + slot * GUARD_SLOT; }

/* Returns a free slot, and makes its pages accessible. */
static size_t guard_free_slot(void) {
    if (guarded.base == NULL) {
        size_t size = GUARD_PAGE + (size_t)GUARD_SLOT * GUARD_SLOTS;
        void *base = mmap(NULL, size, PROT_NONE, MAP_PRIVATE | MAP_ANONYMOUS | MAP_NORESERVE, -1, 0);
        if (base == MAP_FAILED)
            exit(3);
        guarded.base = base;
    }
    for (size_t tried = 0; guarded.at[guarded.next] != NULL; tried++) {
        if (tried == GUARD_SLOTS)
            exit(3);
        guarded.next = (guarded.next + 1) % GUARD_SLOTS;
    }
    if (!guarded.is_open[guarded.next] && mprotect(guard_slot(guarded.next), GUARD_ROOM, PROT_READ | PROT_WRITE) != 0)
        exit(3);
    guarded.is_open[guarded.next] = true;
    return guarded.next;
}

/* Returns a buffer of `count` bytes, or null if a slot is too short for it. */
static void *guarded_room(size_t count) {
    if (count > GUARD_ROOM - GUARD_SLACK)
        return NULL;
    size_t slot = guard_free_slot();
    uint8_t *first = guard_slot(slot);
    bool is_before = guarded.end == GUARD_BEFORE;
    uint8_t *at = is_before ? first : first + GUARD_ROOM - count;
    memset(is_before ? at + count : at - GUARD_SLACK, GUARD_BYTE, GUARD_SLACK);
    guarded.at[slot] = at;
    guarded.count[slot] = count;
    return at;
}

/* Frees a buffer of guarded_room, and returns false for any other pointer. Ends the program if
 * bytes next to the buffer were written. */
static bool guarded_free(const void *buffer) {
    const uint8_t *at = buffer, *begin = guarded.base;
    if (begin == NULL || at < begin || at >= begin + GUARD_PAGE + (size_t)GUARD_SLOT * GUARD_SLOTS)
        return false;
    size_t slot = (size_t)(at - begin - GUARD_PAGE) / GUARD_SLOT;
    /* (an empty buffer may be at the end of its slot, which is the page after it) */
    const uint8_t *first = guard_slot(slot);
    const uint8_t *slack = at == first && guarded.count[slot] < GUARD_ROOM ? at + guarded.count[slot] : at - GUARD_SLACK;
    for (size_t i = 0; guarded.at[slot] == at && i < GUARD_SLACK; i++) {
        if (slack[i] != GUARD_BYTE) {
            fprintf(stderr, "FAILED: a byte beside a buffer of %zu bytes was written\n", guarded.count[slot]);
            abort();
        }
    }
    guarded.at[slot] = NULL;
    return true;
}

#endif
