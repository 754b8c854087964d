/*
 * What all targets share: the bytes of a test case, exact buffers, what must hold, and coverage.
 *
 * The library is compiled by the toolchain without coverage, so libFuzzer sees branches of the
 * targets alone. The targets therefore report what the library answers as coverage themselves,
 * by libFuzzer's extra counters: status, layer, cause and dataset of each answer, how far a test
 * case gets, and the state after it. A test case that gets a new answer is kept and mutated.
 */
#ifndef FUZZ_H
#define FUZZ_H

#include "../../bindings/c/guard.h"
#include "../../bindings/c/iim.h"

#include <inttypes.h>

int LLVMFuzzerTestOneInput(const uint8_t *data, size_t size);

/* The limits of a test case, and the greatest ticket under each. */
enum { LIMITS_OF_COPY, LIMITS_OF_FEW_OCTETS, LIMITS_OF_FEW_FIELDS, ALL_LIMITS };
static const iim_limits LIMITS[ALL_LIMITS] = {{0, 0}, {64, 512}, {65536, 8}};
enum { TICKET = 65536 + 6 * 512 + 256 };

/* ---- What must hold */

static inline void must_hold(bool holds, const char *what, const iim_answer *a) {
    if (holds)
        return;
    fprintf(stderr, "FAILED: %s\n", what);
    if (a != NULL)
        fprintf(stderr, "answer: status %d layer %d cause %d on %d:%d octet %" PRIu64 " used %zu written %zu ticket %zu\n", a->status,
                a->layer, a->cause, a->rec, a->set, a->octet, a->used, a->written, a->ticket);
    abort();
}

/* ---- Coverage */

enum { ANSWERS = 16 * 8 * 128, DATASETS = 16 * 256, OFFSETS = 512, STATES = 4 * 16 * 16 * 256 };

__attribute__((used, section("__libfuzzer_extra_counters"))) static uint8_t counters[ANSWERS + DATASETS + OFFSETS + STATES];

/* Returns a number that grows by 1 as others double, or nearly. */
static inline size_t size_class(uint64_t number) { return number < 128 ? (size_t)number / 2 : 64 + (size_t)(63 - __builtin_clzll(number)); }

/* Reports an answer as coverage. */
static inline void report(const iim_answer *a) {
    counters[((a->status & 15) * 8 + (a->layer & 7)) * 128 + (a->cause & 127)] = 1;
    counters[ANSWERS + (a->rec & 15) * 256 + a->set] = 1;
    counters[ANSWERS + DATASETS + size_class(a->octet) % OFFSETS] = 1;
}

/* Reports the state that a ticket encodes as coverage. */
static inline void report_state(const uint8_t *ticket, size_t len, uint64_t at) {
    iim_begun b;
    iim_answer a;
    iim_place(ticket, len, at, &b, &a);
    report(&a);
    size_t state = ((size_t)(b.kind & 3) * 16 + (b.rec & 15)) * 16 + (b.part & 15);
    counters[ANSWERS + DATASETS + OFFSETS + state * 256 + b.set] = 1;
}

/* ---- Buffers */

/* Returns a buffer of this many bytes, between pages that may not be touched. */
static inline uint8_t *room(size_t count) {
    uint8_t *at = guarded_room(count);
    if (at == NULL && (at = malloc(count)) == NULL)
        exit(3);
    return at;
}

/* Returns a copy in such a buffer. */
static inline uint8_t *copy_of(const uint8_t *bytes, size_t count) {
    uint8_t *at = room(count);
    if (count > 0)
        memcpy(at, bytes, count);
    return at;
}

static inline void give_back(void *at) {
    if (!guarded_free(at))
        free(at);
}

/* Checks whether two buffers have the same bytes. */
static inline bool is_same(const uint8_t *one, size_t one_len, const uint8_t *other, size_t other_len) {
    return one_len == other_len && (one_len == 0 || memcmp(one, other, one_len) == 0);
}

/* ---- Test cases */

/* A number that a seed makes, one after another: the same for the same seed. */
static inline uint32_t next_number(uint32_t *seed) {
    *seed = *seed * 1664525u + 1013904223u;
    return *seed >> 8;
}

/* Takes the seed from the end of a test case, so that its beginning is what the library reads. */
static inline uint32_t take_seed(const uint8_t *data, size_t *size) {
    uint32_t seed = 0;
    for (int i = 0; i < 2 && *size > 0; i++)
        seed = seed << 8 | data[--*size];
    seed = seed * 2654435761u + 1;
    guarded.end = seed >> 20 & 1 ? GUARD_BEFORE : GUARD_AFTER;
    return seed;
}

/* Checks whether a span lies inside a ticket. */
static inline bool is_inside(iim_span span, size_t len) { return span.count == 0 || (span.offset <= len && span.count <= len - span.offset); }

/* Asks a ticket for all that it encodes: each span must lie inside it. Returns the number of datasets. */
static inline size_t ask_all(const uint8_t *ticket, size_t len) {
    iim_dataset d;
    iim_message m;
    iim_object o;
    iim_answer a;
    size_t n = 0;
    for (; iim_field(ticket, len, n, &d, &a), a.status == IIM_DONE; n++)
        must_hold(is_inside(d.data, len), "the data of a dataset lie inside the ticket", &a);
    must_hold(a.status == IIM_NONE || (a.status == IIM_BAD_TICKET && n == 0), "datasets end with IIM_NONE, or the ticket is invalid", &a);
    bool is_bad = a.status == IIM_BAD_TICKET;
    iim_header(ticket, len, &m, &a);
    must_hold(a.status == (is_bad ? IIM_BAD_TICKET : IIM_DONE), "iim_header agrees with iim_field", &a);
    const iim_span spans[] = {m.source, m.number, m.priority, m.category, m.words, m.info, m.trailer};
    for (size_t i = 0; i < sizeof spans / sizeof *spans; i++)
        must_hold(is_inside(spans[i], len), "the header lies inside the ticket", &a);
    iim_sizes(ticket, len, &o, &a);
    must_hold(a.status == (is_bad ? IIM_BAD_TICKET : IIM_DONE), "iim_sizes agrees with iim_field", &a);
    report(&a);
    return n;
}

#endif
