/* Audits a test case in pieces of random sizes, with room for few rows: the rows must be those of one piece, and of iim_check. */
#include "fuzz.h"

enum { ROWS = 64 };

/* An audit, with the rows so far. */
typedef struct {
    uint8_t ticket[TICKET];
    size_t ticket_len;
    iim_so_far so_far;
    iim_audit_row rows[ROWS];
    size_t count;
    uint64_t used;
    iim_answer answer;
} auditor;

/* Checks an answer of iim_audit against the lengths of its arguments. */
static void check_lengths(const iim_answer *a, const iim_so_far *s, size_t piece_len, size_t rows_len) {
    must_hold(a->status == IIM_MORE || a->status == IIM_DONE || a->status == IIM_REFUSED, "an audit is done, goes on, or is refused", a);
    must_hold(a->used <= piece_len && a->written <= rows_len && a->ticket <= TICKET, "no more is used or written than there is", a);
    must_hold(a->status != IIM_MORE || (a->used == piece_len && a->written < rows_len && a->octet == s->octets), "all of the piece is used", a);
    /* (with no room for a row nothing is used, and the envelope that was in hand still is) */
    must_hold(a->status != IIM_DONE || (a->written == rows_len && (rows_len == 0 ? a->used == 0 : s->octets == 0)), "the rows are full", a);
}

/* Audits a piece with room for some rows, and moves the auditor. */
static void audit(auditor *r, iim_limits limits, iim_instant now, const uint8_t *piece, size_t len, size_t rows_len) {
    uint8_t *ticket = copy_of(r->ticket, r->ticket_len), *fed = copy_of(piece, len), *next = room(TICKET);
    iim_audit_row *rows = (iim_audit_row *)(void *)room(rows_len * sizeof *rows);
    iim_so_far before = r->so_far;
    iim_answer a;
    iim_audit(limits, ticket, r->ticket_len, &r->so_far, fed, len, now, rows, rows_len, next, TICKET, &a);
    report(&a);
    check_lengths(&a, &r->so_far, len, rows_len);
    for (size_t i = 0; i < a.written && r->count < ROWS; i++)
        r->rows[r->count++] = rows[i];
    if (a.status != IIM_REFUSED) {
        memcpy(r->ticket, next, a.ticket);
        r->ticket_len = a.ticket;
        report_state(r->ticket, r->ticket_len, r->so_far.octets);
        must_hold(r->so_far.at >= before.at && r->so_far.octets <= r->used + a.used, "the offset does not go back", &a);
    }
    r->used += a.used;
    r->answer = a;
    give_back(ticket), give_back(fed), give_back(next), give_back(rows);
}

/* Audits a test case in pieces of the sizes that a seed makes: 0 for one piece. */
static void audit_all(auditor *r, iim_limits limits, iim_instant now, const uint8_t *data, size_t size, uint32_t seed) {
    uint32_t greatest = seed == 0 ? 0 : 1 + next_number(&seed) % 256;
    for (size_t at = 0; at < size && r->count < ROWS; at = (size_t)r->used) {
        size_t len = greatest == 0 ? size : next_number(&seed) % (greatest + 1);
        len = len < size - at ? len : size - at;
        audit(r, limits, now, data + at, len, greatest == 0 ? ROWS : next_number(&seed) % 4);
        if (r->answer.status == IIM_REFUSED)
            return;
    }
}

/* Checks that two audits came to the same rows and the same end. */
static void compare(const auditor *one, const auditor *other) {
    must_hold(one->count == other->count, "pieces give as many rows", &other->answer);
    for (size_t i = 0; i < one->count; i++) {
        const iim_audit_row *a = &one->rows[i], *b = &other->rows[i];
        bool is_equal = a->at == b->at && a->octets == b->octets && a->size == b->size && a->subfiles == b->subfiles && a->announced == b->announced
                        && a->counted == b->counted && a->age == b->age && a->copy == b->copy && a->priority == b->priority
                        && a->release.second == b->release.second && a->expires.second == b->expires.second && a->has_age == b->has_age
                        && memcmp(a->number, b->number, sizeof a->number) == 0 && memcmp(a->date_sent, b->date_sent, sizeof a->date_sent) == 0;
        must_hold(is_equal, "pieces give the same rows", &other->answer);
    }
    must_hold(one->so_far.at == other->so_far.at && one->so_far.octets == other->so_far.octets && one->so_far.words == other->so_far.words
                  && one->so_far.inside == other->so_far.inside,
              "pieces end at the same place", &other->answer);
    bool is_refused = one->answer.status == IIM_REFUSED;
    must_hold(is_refused == (other->answer.status == IIM_REFUSED), "pieces are refused alike", &other->answer);
    must_hold(!is_refused || (one->answer.octet == other->answer.octet && one->answer.cause == other->answer.cause), "by the same octet and cause",
              &other->answer);
}

/* Checks the rows against iim_check, an envelope after the other. */
static void compare_with_check(const auditor *r, iim_limits limits, const uint8_t *data, size_t size) {
    size_t at = 0;
    for (size_t i = 0; i < r->count; i++) {
        iim_answer a;
        iim_check(limits, data + at, size - at, &a);
        must_hold(a.status == IIM_DONE && r->rows[i].at == at && r->rows[i].octets == a.octet, "a row for each envelope that is accepted", &a);
        at += (size_t)a.octet;
    }
    if (r->count == ROWS || at == size)
        return;
    iim_answer a;
    iim_check(limits, data + at, size - at, &a);
    must_hold(a.status == (r->answer.status == IIM_REFUSED ? IIM_REFUSED : IIM_TRUNCATED), "what follows the rows is refused or truncated", &a);
    must_hold(r->answer.status != IIM_REFUSED || (a.octet == r->answer.octet && a.cause == r->answer.cause && r->so_far.at == at), "at the same octet", &a);
    must_hold(r->answer.status == IIM_REFUSED || r->so_far.octets == size - at, "all of it is in hand", &a);
}

int LLVMFuzzerTestOneInput(const uint8_t *data, size_t size) {
    uint32_t seed = take_seed(data, &size);
    iim_limits limits = LIMITS[next_number(&seed) % 8 < 6 ? LIMITS_OF_COPY : 1 + seed % 2];
    iim_instant now = {1709294400 + (int64_t)(next_number(&seed) % 4) * 40000000 - 80000000, 0};
    static auditor whole, split;
    for (int i = 0; i < 2; i++) {
        auditor *r = i == 0 ? &whole : &split;
        r->ticket_len = r->count = 0;
        r->used = 0;
        r->so_far = (iim_so_far){0};
        r->answer = (iim_answer){.status = IIM_MORE};
    }
    uint8_t *octets = copy_of(data, size);
    audit_all(&whole, limits, now, octets, size, 0);
    audit_all(&split, limits, now, octets, size, seed | 1);
    if (whole.count < ROWS)
        compare(&whole, &split);
    compare_with_check(&whole, limits, octets, size);
    give_back(octets);
    return 0;
}
