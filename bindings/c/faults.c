/*
 * Planted faults: wrappers of library calls that do something wrong, selected by the number FAULT.
 *
 * Link a program with -Wl,--wrap=iim_feed,--wrap=iim_audit,--wrap=iim_pack,--wrap=iim_field, and
 * compile this file without a sanitizer, as the library is. tests/fuzz/run and bindings/test use it
 * to show that their checks find such faults.
 */
#include "iim.h"

#include <string.h>

enum {
    WRITES_PAST_TEXT = 1,    /* iim_feed writes the byte after text_out */
    READS_BEFORE_PIECE = 2,  /* iim_feed reads the byte before the piece */
    READS_PAST_TICKET = 3,   /* iim_feed reads the byte after the ticket */
    WRITES_PAST_TICKET = 4,  /* iim_feed writes the byte after ticket_out */
    WRITES_PAST_ROWS = 5,    /* iim_audit writes the byte after the rows */
    WRITES_PAST_PACKED = 6,  /* iim_pack writes the byte after out */
    LAST_OF_MEMORY_FAULTS = WRITES_PAST_PACKED,
    USES_TOO_MUCH = 7,       /* iim_feed counts a byte after the envelope as consumed */
    DEPENDS_ON_SPLITS = 8,   /* iim_feed returns another offset if a chunk begins inside 2:105 */
    LOSES_A_ROW = 9,         /* iim_audit returns one row fewer if an envelope ends in a second chunk */
    PACKS_WRONG = 10,        /* iim_pack writes a wrong last byte if there are by-lines */
    SPAN_OUTSIDE = 11,       /* iim_field returns a span that ends after the ticket, for an eighth dataset */
    CRASHES_AT_A_DATASET = 12 /* iim_feed crashes on a chunk that has the tag of 2:120 */
};

void __real_iim_feed(iim_limits, const uint8_t *, size_t, uint64_t, const uint8_t *, size_t, uint8_t *, size_t, uint8_t *, size_t, iim_answer *);
void __wrap_iim_feed(iim_limits, const uint8_t *, size_t, uint64_t, const uint8_t *, size_t, uint8_t *, size_t, uint8_t *, size_t, iim_answer *);
void __real_iim_audit(iim_limits, const uint8_t *, size_t, iim_so_far *, const uint8_t *, size_t, iim_instant, iim_audit_row *, size_t, uint8_t *, size_t, iim_answer *);
void __wrap_iim_audit(iim_limits, const uint8_t *, size_t, iim_so_far *, const uint8_t *, size_t, iim_instant, iim_audit_row *, size_t, uint8_t *, size_t, iim_answer *);
void __real_iim_pack(iim_packing, const uint8_t *, size_t, uint8_t *, size_t, iim_answer *);
void __wrap_iim_pack(iim_packing, const uint8_t *, size_t, uint8_t *, size_t, iim_answer *);
void __real_iim_field(const uint8_t *, size_t, size_t, iim_dataset *, iim_answer *);
void __wrap_iim_field(const uint8_t *, size_t, size_t, iim_dataset *, iim_answer *);

static volatile uint8_t seen;

/* Checks whether `octets` contain the bytes `others`. */
static bool contains(const uint8_t *octets, size_t len, const char *others, size_t count) {
    for (size_t i = 0; i + count <= len; i++) {
        if (memcmp(octets + i, others, count) == 0)
            return true;
    }
    return false;
}

void __wrap_iim_feed(iim_limits limits, const uint8_t *ticket, size_t ticket_len, uint64_t at, const uint8_t *piece, size_t piece_len,
                     uint8_t *text_out, size_t text_len, uint8_t *ticket_out, size_t ticket_out_len, iim_answer *answer) {
    if (FAULT == READS_BEFORE_PIECE && piece_len > 0)
        seen = piece[-1];
    if (FAULT == READS_PAST_TICKET && ticket_len > 0)
        seen = ticket[ticket_len];
    if (FAULT == CRASHES_AT_A_DATASET && contains(piece, piece_len, "\x1c\x02\x78", 3))
        __builtin_trap();
    __real_iim_feed(limits, ticket, ticket_len, at, piece, piece_len, text_out, text_len, ticket_out, ticket_out_len, answer);
    if (FAULT == WRITES_PAST_TEXT && answer->written > 0 && answer->written == text_len)
        text_out[text_len] = 0;
    if (FAULT == WRITES_PAST_TICKET && answer->ticket > 0 && answer->ticket == ticket_out_len)
        ticket_out[ticket_out_len] = 0;
    if (FAULT == USES_TOO_MUCH && answer->status == IIM_DONE && answer->used < piece_len)
        answer->used++;
    if (FAULT == DEPENDS_ON_SPLITS && answer->status == IIM_REFUSED && at > 0 && answer->rec == 2 && answer->set == 105)
        answer->octet++;
}

void __wrap_iim_audit(iim_limits limits, const uint8_t *ticket, size_t ticket_len, iim_so_far *so_far, const uint8_t *piece,
                      size_t piece_len, iim_instant now, iim_audit_row *rows, size_t rows_len, uint8_t *ticket_out, size_t ticket_out_len,
                      iim_answer *answer) {
    __real_iim_audit(limits, ticket, ticket_len, so_far, piece, piece_len, now, rows, rows_len, ticket_out, ticket_out_len, answer);
    if (FAULT == WRITES_PAST_ROWS && answer->written > 0 && answer->written == rows_len)
        memset(rows + rows_len, 0, 1);
    if (FAULT == LOSES_A_ROW && answer->status == IIM_MORE && ticket_len > 0 && answer->written > 0)
        answer->written--;
}

void __wrap_iim_pack(iim_packing packing, const uint8_t *script, size_t script_len, uint8_t *out, size_t out_len, iim_answer *answer) {
    __real_iim_pack(packing, script, script_len, out, out_len, answer);
    if (FAULT == WRITES_PAST_PACKED && answer->status == IIM_DONE && answer->written == out_len)
        out[out_len] = 0;
    if (FAULT == PACKS_WRONG && answer->status == IIM_DONE && contains(script, script_len, "\n2:80 ", 6))
        out[answer->written - 1] ^= 1;
}

void __wrap_iim_field(const uint8_t *ticket, size_t ticket_len, size_t n, iim_dataset *dataset, iim_answer *answer) {
    __real_iim_field(ticket, ticket_len, n, dataset, answer);
    if (FAULT == SPAN_OUTSIDE && answer->status == IIM_DONE && n == 7)
        dataset->data.count = ticket_len;
}
