/* Feeds a test case in pieces of random sizes: the answer, the text and the ticket must be those of one piece, and of iim_check. */
#include "fuzz.h"

/* A receiver in an envelope, with the text so far. */
typedef struct {
    uint8_t ticket[TICKET];
    size_t ticket_len;
    uint64_t at;
    uint8_t *text;
    size_t text_len;
    iim_answer answer;
} receiver;

/* Checks an answer of iim_feed against the lengths of its arguments. */
static void check_lengths(const iim_answer *a, uint64_t at, size_t piece_len, size_t text_room, size_t ticket_room) {
    must_hold(a->status == IIM_MORE || a->status == IIM_DONE || a->status == IIM_REFUSED, "feeding is done, goes on, or is refused", a);
    must_hold(a->used <= piece_len, "no more is used than the piece has", a);
    must_hold(a->written <= text_room && a->written <= piece_len, "no more text is written than the piece has", a);
    must_hold(a->ticket <= ticket_room && a->ticket <= TICKET, "the ticket has room", a);
    must_hold(a->status != IIM_MORE || (a->used == piece_len && a->octet == at + piece_len), "all of the piece is used", a);
    must_hold(a->status != IIM_DONE || a->octet == at + a->used, "the envelope ends with what was used", a);
    must_hold(a->status != IIM_REFUSED || (a->octet >= at && a->octet < at + piece_len), "the refused octet is in the piece", a);
}

/* Feeds a piece with buffers of exactly these sizes. The buffers are the caller's. */
static iim_answer call(const receiver *r, iim_limits limits, const uint8_t *piece, size_t len, uint8_t *text, size_t text_room, uint8_t *next,
                       size_t next_room) {
    uint8_t *ticket = copy_of(r->ticket, r->ticket_len), *fed = copy_of(piece, len);
    iim_answer *a = (iim_answer *)(void *)room(sizeof *a);
    memset(a, 0xAA, sizeof *a);
    iim_feed(limits, ticket, r->ticket_len, r->at, fed, len, text, text_room, next, next_room, a);
    iim_answer answer = *a;
    must_hold(is_same(ticket, r->ticket_len, r->ticket, r->ticket_len) && is_same(fed, len, piece, len), "nothing is written to what is read", a);
    give_back(ticket), give_back(fed), give_back(a);
    report(&answer);
    return answer;
}

/* Makes the same call with buffers of just the lengths that are needed, and with one byte less. */
static void call_with_exact_rooms(const receiver *r, iim_limits limits, const uint8_t *piece, size_t len, const uint8_t *text, const uint8_t *next,
                                  const iim_answer *full) {
    uint8_t *exact_text = room(full->written), *exact_next = room(full->ticket);
    iim_answer a = call(r, limits, piece, len, exact_text, full->written, exact_next, full->ticket);
    must_hold(memcmp(&a, full, sizeof a) == 0, "exact buffers give the same answer", &a);
    must_hold(is_same(exact_text, a.written, text, full->written) && is_same(exact_next, a.ticket, next, full->ticket), "and the same bytes", &a);
    if (full->ticket > 0) {
        a = call(r, limits, piece, len, exact_text, full->written, exact_next, full->ticket - 1);
        must_hold(a.status == IIM_SHORT && a.ticket == full->ticket && a.written == full->written, "a short ticket buffer", &a);
    }
    if (full->written > 0) {
        a = call(r, limits, piece, len, exact_text, full->written - 1, exact_next, full->ticket);
        must_hold(a.status == IIM_SHORT && a.ticket == full->ticket && a.written == full->written, "a short text buffer", &a);
    }
    give_back(exact_text), give_back(exact_next);
}

/* Feeds a piece, and moves the receiver. */
static void feed(receiver *r, iim_limits limits, const uint8_t *piece, size_t len, bool is_tried_again) {
    uint8_t *text = room(len), *next = room(TICKET);
    iim_answer a = call(r, limits, piece, len, text, len, next, TICKET);
    check_lengths(&a, r->at, len, len, TICKET);
    if (is_tried_again)
        call_with_exact_rooms(r, limits, piece, len, text, next, &a);
    if (a.written > 0)
        memcpy(r->text + r->text_len, text, a.written);
    r->text_len += a.written;
    if (a.status != IIM_REFUSED) {
        memcpy(r->ticket, next, a.ticket);
        r->ticket_len = a.ticket;
        r->at = a.octet;
        report_state(r->ticket, r->ticket_len, r->at);
    }
    r->answer = a;
    give_back(text), give_back(next);
}

/* Checks what iim_next answers before an octet against what iim_feed does with it. */
static void check_next(receiver *r, iim_limits limits, const uint8_t *piece) {
    iim_octet_set set;
    iim_answer a;
    iim_next(limits, r->ticket, r->ticket_len, &set, &a);
    must_hold(a.status == IIM_MORE, "an octet can come next", &a);
    bool is_in = set.bits[piece[0] / 8] >> piece[0] % 8 & 1;
    feed(r, limits, piece, 1, false);
    must_hold(is_in == (r->answer.status != IIM_REFUSED), "iim_next has the octets that are not refused", &r->answer);
}

/* Feeds a test case in pieces of the sizes that a seed makes: 0 for one piece. */
static void feed_all(receiver *r, iim_limits limits, const uint8_t *data, size_t size, uint32_t seed) {
    uint32_t greatest = seed == 0 ? 0 : 1 + next_number(&seed) % 64, asked = next_number(&seed) % 512;
    r->answer.status = IIM_MORE;
    for (size_t at = 0; r->answer.status == IIM_MORE && (at < size || at == 0); at = (size_t)r->at) {
        size_t len = greatest == 0 ? size : next_number(&seed) % (greatest + 1);
        len = len < size - at ? len : size - at;
        if (greatest > 0 && at == asked && at > 0 && at < size)
            check_next(r, limits, data + at);
        else
            feed(r, limits, data + at, len, greatest > 0 && next_number(&seed) % 8 == 0);
        if (at == size)
            break;
    }
    if (r->answer.status == IIM_MORE) {
        iim_end(limits, r->ticket, r->ticket_len, r->at, &r->answer);
        report(&r->answer);
    }
}

/* Checks the ticket of an ended envelope: it can be asked, and feeding it again uses nothing and gives the same ticket. */
static void check_ended(receiver *r, iim_limits limits, const uint8_t *data, size_t size) {
    uint8_t *ticket = copy_of(r->ticket, r->ticket_len);
    must_hold(ask_all(ticket, r->ticket_len) >= 7, "an envelope has the mandatory datasets", NULL);
    uint8_t *next = room(r->ticket_len);
    iim_answer a = call(r, limits, data, size, NULL, 0, next, r->ticket_len);
    must_hold(a.status == IIM_DONE && a.used == 0 && is_same(next, a.ticket, ticket, r->ticket_len), "an ended envelope uses no octet", &a);
    give_back(ticket), give_back(next);
}

int LLVMFuzzerTestOneInput(const uint8_t *data, size_t size) {
    uint32_t seed = take_seed(data, &size);
    iim_limits limits = LIMITS[next_number(&seed) % 8 < 6 ? LIMITS_OF_COPY : 1 + seed % 2];
    static receiver whole, split;
    whole.ticket_len = split.ticket_len = whole.text_len = split.text_len = 0;
    whole.at = split.at = 0;
    whole.text = room(size), split.text = room(size);
    uint8_t *octets = copy_of(data, size);
    iim_answer checked;
    iim_check(limits, octets, size, &checked);
    report(&checked);
    feed_all(&whole, limits, octets, size, 0);
    feed_all(&split, limits, octets, size, seed | 1);
    for (int i = 0; i < 2; i++) {
        const iim_answer *a = i == 0 ? &whole.answer : &split.answer;
        must_hold(a->status == checked.status && a->octet == checked.octet && a->layer == checked.layer && a->cause == checked.cause
                      && a->rec == checked.rec && a->set == checked.set,
                  "pieces give the answer of iim_check", a);
    }
    must_hold(is_same(split.text, split.text_len, whole.text, whole.text_len), "pieces give the same text", &split.answer);
    if (checked.status == IIM_DONE) {
        must_hold(is_same(split.ticket, split.ticket_len, whole.ticket, whole.ticket_len), "pieces give the same ticket", &split.answer);
        check_ended(&split, limits, octets, size);
    }
    give_back(whole.text), give_back(split.text), give_back(octets);
    return 0;
}
