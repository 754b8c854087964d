/* Hands arbitrary bytes in as a ticket, and others as a piece: no call may do more with it than with a ticket that iim_feed wrote. */
#include "fuzz.h"

/* Feeds a piece from a ticket. */
static iim_answer feed(const uint8_t *ticket, size_t len, uint64_t at, const uint8_t *piece, size_t piece_len, uint8_t *next) {
    uint8_t *text = room(piece_len);
    iim_answer a;
    iim_feed(LIMITS[LIMITS_OF_COPY], ticket, len, at, piece, piece_len, text, piece_len, next, TICKET, &a);
    report(&a);
    must_hold(a.status != IIM_SHORT && a.status != IIM_NO_MEMORY && a.status != IIM_TRUNCATED, "feeding from a ticket has room", &a);
    must_hold(a.used <= piece_len && a.written <= piece_len && a.ticket <= TICKET, "no more is used or written than there is", &a);
    give_back(text);
    return a;
}

/* Checks a ticket from which feeding goes on: no octets lead to the same state, whose ticket is the ticket itself. */
static void check_round_trip(const uint8_t *ticket, size_t len, uint64_t at) {
    uint8_t *next = room(TICKET), *after = room(TICKET);
    iim_answer a = feed(ticket, len, at, NULL, 0, next);
    must_hold(a.status == IIM_MORE || a.status == IIM_DONE, "no octets are accepted from a valid ticket", &a);
    must_hold(ticket[4] != 2 || is_same(next, a.ticket, ticket, len), "a ticket of this version is written as it was read", &a);
    uint8_t *copy = copy_of(next, a.ticket);
    iim_answer b = feed(copy, a.ticket, at, NULL, 0, after);
    must_hold(b.status == a.status && is_same(after, b.ticket, copy, a.ticket), "and is valid again", &b);
    must_hold(ask_all(copy, a.ticket) == ask_all(ticket, len), "with as many datasets", &b);
    give_back(next), give_back(after), give_back(copy);
}

/* Checks iim_next against iim_feed, for each octet. */
static void check_next(const uint8_t *ticket, size_t len, uint64_t at) {
    uint8_t *next = room(TICKET);
    iim_octet_set set;
    iim_answer asked;
    iim_next(LIMITS[LIMITS_OF_COPY], ticket, len, &set, &asked);
    for (int o = 0; o < 256 && asked.status == IIM_MORE; o++) {
        uint8_t octet = (uint8_t)o;
        iim_answer a = feed(ticket, len, at, &octet, 1, next);
        must_hold((set.bits[o / 8] >> o % 8 & 1) == (a.status != IIM_REFUSED), "iim_next has the octets that are not refused", &a);
    }
    give_back(next);
}

/* Audits a piece from a ticket. */
static void audit(const uint8_t *ticket, size_t len, const uint8_t *piece, size_t piece_len) {
    uint8_t *next = room(TICKET);
    iim_audit_row *rows = (iim_audit_row *)(void *)room(2 * sizeof *rows);
    iim_so_far so_far = {7, 100, 3, false};
    iim_answer a;
    iim_audit(LIMITS[LIMITS_OF_COPY], ticket, len, &so_far, piece, piece_len, (iim_instant){0, 0}, rows, 2, next, TICKET, &a);
    report(&a);
    must_hold(a.used <= piece_len && a.written <= 2 && a.ticket <= TICKET, "an audit stays inside its buffers", &a);
    give_back(next), give_back(rows);
}

int LLVMFuzzerTestOneInput(const uint8_t *data, size_t size) {
    uint32_t seed = take_seed(data, &size);
    size_t piece_len = size > 0 ? data[size - 1] % 32 : 0;
    size -= size > 0;
    piece_len = piece_len < size ? piece_len : size;
    size_t len = size - piece_len;
    uint64_t at = next_number(&seed) % 4 == 0 ? UINT64_MAX - next_number(&seed) % 64 : next_number(&seed) % 100000;
    uint8_t *ticket = copy_of(data, len), *piece = copy_of(data + len, piece_len), *next = room(TICKET);
    iim_answer ended, fed;
    ask_all(ticket, len);
    report_state(ticket, len, at);
    iim_end(LIMITS[LIMITS_OF_COPY], ticket, len, at, &ended);
    report(&ended);
    fed = feed(ticket, len, at, piece, piece_len, next);
    must_hold((ended.status == IIM_BAD_TICKET) == (fed.status == IIM_BAD_TICKET) && (fed.status != IIM_BAD_TICKET || fed.cause == ended.cause),
              "iim_feed and iim_end judge a ticket alike", &fed);
    audit(ticket, len, piece, piece_len);
    if (fed.status != IIM_BAD_TICKET && len > 0) {
        check_round_trip(ticket, len, at % 100000);
        if (next_number(&seed) % 32 == 0)
            check_next(ticket, len, at % 100000);
    }
    give_back(ticket), give_back(piece), give_back(next);
    return 0;
}
