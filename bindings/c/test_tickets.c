/*
 * Buffers that are too short, tickets that are invalid, and the places of an envelope.
 */
#include "test.h"

/* Each buffer is one byte too short: the answer has the length that is needed, and the same call
 * with that length returns the usual result. */
void try_short_buffers(octets file, size_t first) {
    receiver *r = new_receiver();
    feed(r, DEFAULTS, file.octets, first, NULL);
    const uint8_t *rest = file.octets + first;
    size_t count = file.count - first;
    octets text = room_for(count), next = room_for(TICKET), ticket = room_for(r->ticket);
    memcpy(ticket.octets, r->tickets[r->now], r->ticket);
    iim_answer full, answer;
    iim_feed(DEFAULTS, ticket.octets, ticket.count, r->at, rest, count, text.octets, count, next.octets, TICKET, &full);
    expect(full.status == IIM_DONE && full.octet == file.count && full.used == count, "the rest ends the envelope");
    octets short_text = room_for(full.written > 0 ? full.written - 1 : 0), short_next = room_for(full.ticket - 1);
    if (full.written > 0) {
        iim_feed(DEFAULTS, ticket.octets, ticket.count, r->at, rest, count, short_text.octets, short_text.count, next.octets, TICKET,
                 &answer);
        expect(is_plain(&answer, IIM_SHORT, 0) && answer.written == full.written && answer.ticket == full.ticket,
               "a text buffer that is one octet too short");
    }
    iim_feed(DEFAULTS, ticket.octets, ticket.count, r->at, rest, count, text.octets, count, short_next.octets, short_next.count, &answer);
    expect(is_plain(&answer, IIM_SHORT, 0) && answer.written == full.written && answer.ticket == full.ticket,
           "a ticket buffer that is one octet too short");
    iim_feed(DEFAULTS, ticket.octets, ticket.count, r->at, rest, count, NULL, 0, NULL, 0, &answer);
    expect(is_plain(&answer, IIM_SHORT, 0) && answer.written == full.written && answer.ticket == full.ticket, "no buffers");
    octets exact_text = room_for(full.written), exact_next = room_for(full.ticket);
    iim_feed(DEFAULTS, ticket.octets, ticket.count, r->at, rest, count, exact_text.octets, exact_text.count, exact_next.octets,
             exact_next.count, &answer);
    expect(memcmp(&answer, &full, sizeof full) == 0 && memcmp(exact_text.octets, text.octets, full.written) == 0
               && memcmp(exact_next.octets, next.octets, full.ticket) == 0,
           "buffers of just the length that is needed");
    free(exact_text.octets), free(exact_next.octets), free(short_text.octets), free(short_next.octets);
    free(text.octets), free(next.octets), free(ticket.octets), free(r);
}

/* Text before a rejected byte: if its buffer is too short, the text is not lost. */
void try_short_refusal(octets file) {
    octets bad = room_for(file.count), text = room_for(file.count), next = room_for(TICKET);
    memcpy(bad.octets, file.octets, file.count);
    size_t etx = file.count;
    while (etx > 0 && bad.octets[etx - 1] != 3)
        etx--;
    bad.octets[etx - 1] = 4;
    iim_answer full, answer;
    iim_feed(DEFAULTS, NULL, 0, 0, bad.octets, bad.count, text.octets, text.count, next.octets, TICKET, &full);
    expect(full.status == IIM_REFUSED && full.octet == etx - 1 && full.cause == 41 && full.layer == IIM_LAYER_STORY && full.rec == 8
               && full.set == 10 && full.ticket == 0,
           "EOT in the text is refused");
    if (full.written > 0) {
        octets little = room_for(full.written - 1);
        iim_feed(DEFAULTS, NULL, 0, 0, bad.octets, bad.count, little.octets, little.count, next.octets, TICKET, &answer);
        expect(is_plain(&answer, IIM_SHORT, 0) && answer.written == full.written && answer.ticket == 0, "text before a refusal has no room");
        free(little.octets);
    }
    free(bad.octets), free(text.octets), free(next.octets);
}

/* The ticket of a complete envelope, bytes that are no ticket, and tickets of another version and
 * of a state that no envelope reaches. */
void try_tickets(octets file) {
    receiver *r = new_receiver();
    iim_answer answer = feed(r, DEFAULTS, file.octets, file.count, NULL);
    octets ended = room_for(r->ticket), next = room_for(TICKET);
    memcpy(ended.octets, r->tickets[r->now], r->ticket);
    iim_feed(DEFAULTS, ended.octets, ended.count, r->at, file.octets, file.count, NULL, 0, next.octets, TICKET, &answer);
    expect(answer.status == IIM_DONE && answer.used == 0 && answer.octet == file.count && answer.ticket == ended.count
               && memcmp(next.octets, ended.octets, ended.count) == 0,
           "an ended envelope uses no octet");
    iim_end(DEFAULTS, ended.octets, ended.count, r->at, &answer);
    expect(answer.status == IIM_DONE && answer.octet == file.count && answer.cause == 0, "the end after an envelope");
    iim_end(DEFAULTS, NULL, 0, 7, &answer);
    expect(answer.status == IIM_TRUNCATED && answer.cause == 3 && answer.layer == IIM_LAYER_DATASET && answer.octet == 0, "the end of nothing");
    iim_limits few = {1, 512}, none = {65536, 1};
    iim_feed(few, ended.octets, ended.count, r->at, NULL, 0, NULL, 0, next.octets, TICKET, &answer);
    expect(is_plain(&answer, IIM_BAD_TICKET, 50), "a ticket that passes the limit on octets");
    iim_end(none, ended.octets, ended.count, r->at, &answer);
    expect(is_plain(&answer, IIM_BAD_TICKET, 51), "a ticket that passes the limit on datasets");
    iim_dataset d;
    iim_message m;
    iim_object o;
    iim_field(ended.octets, ended.count, 100000, &d, &answer);
    expect(is_plain(&answer, IIM_NONE, 0) && d.rec == 0 && d.set == 0 && d.data.count == 0 && d.data.offset == 0, "no more datasets");
    for (size_t count = 0; count < ended.count; count++) {
        octets front = room_for(count);
        memcpy(front.octets, ended.octets, count);
        iim_field(front.octets, count, 0, &d, &answer);
        bool bad = is_plain(&answer, IIM_BAD_TICKET, 100) && d.rec == 0;
        iim_header(front.octets, count, &m, &answer);
        bad = bad && is_plain(&answer, IIM_BAD_TICKET, 100) && m.part == 0 && m.trailer.offset == 0;
        iim_sizes(front.octets, count, &o, &answer);
        bad = bad && is_plain(&answer, IIM_BAD_TICKET, 100) && !o.has_mode && o.octets == 0;
        if (count > 0) {
            iim_end(DEFAULTS, front.octets, count, 0, &answer);
            bad = bad && is_plain(&answer, IIM_BAD_TICKET, 100);
            iim_feed(DEFAULTS, front.octets, count, 0, NULL, 0, NULL, 0, NULL, 0, &answer);
            bad = bad && is_plain(&answer, IIM_BAD_TICKET, 100);
        }
        expect(bad, "a ticket that is cut short");
        free(front.octets);
    }
    ended.octets[4] = 9;
    iim_field(ended.octets, ended.count, 0, &d, &answer);
    expect(is_plain(&answer, IIM_BAD_TICKET, 101), "a ticket of another version");
    ended.octets[4] = 2;
    ended.octets[5] = 7;
    iim_end(DEFAULTS, ended.octets, ended.count, r->at, &answer);
    expect(is_plain(&answer, IIM_BAD_TICKET, 102), "a ticket of a place where no envelope can be");
    free(ended.octets), free(next.octets), free(r);
}

/* Returns the set of bytes that iim_feed accepts next from a ticket, by trying each of them. */
static iim_octet_set tried(octets ticket, uint64_t at, octets next) {
    iim_octet_set set = {{0}};
    for (int o = 0; o < 256; o++) {
        uint8_t octet = (uint8_t)o, text;
        iim_answer answer;
        iim_feed(DEFAULTS, ticket.octets, ticket.count, at, &octet, 1, &text, 1, next.octets, next.count, &answer);
        if (answer.status == IIM_MORE || (answer.status == IIM_DONE && answer.used == 1))
            set.bits[o / 8] |= (uint8_t)(1 << o % 8);
    }
    return set;
}

/* Prints a line about the state after each prefix of an envelope, with the set of accepted bytes in
 * hexadecimal. */
int print_places(const char *path) {
    octets file = file_of(path), text = room_for(file.count), ticket = room_for(TICKET), next = room_for(TICKET);
    for (size_t count = 0; count <= file.count; count++) {
        iim_answer fed, placed, asked;
        iim_begun b;
        iim_octet_set set, none;
        iim_feed(DEFAULTS, NULL, 0, 0, file.octets, count, text.octets, text.count, ticket.octets, TICKET, &fed);
        octets there = {ticket.octets, fed.ticket};
        iim_place(there.octets, there.count, count, &b, &placed);
        iim_next(DEFAULTS, there.octets, there.count, &set, &asked);
        iim_octet_set feeds = tried(there, count, next);
        if (count == 0) {
            iim_next(DEFAULTS, NULL, 0, &none, &asked);
            if (memcmp(&none, &set, sizeof set) != 0)
                return 1;
        }
        if (memcmp(&feeds, &set, sizeof set) != 0 || placed.status != IIM_DONE)
            return 1;
        printf("%zu %d %d %d %d %d %d %d %" PRIu64 " %" PRIu64 " %" PRIu64 " %" PRIu64 " %" PRIu64 " %d ", count, b.kind, b.section, b.rec, b.set, b.part,
               b.counter, b.flag, b.count, b.came, b.left, b.first, b.token, asked.status);
        for (size_t i = 0; i < sizeof set.bits; i++)
            printf("%02x", set.bits[i]);
        putchar(' ');
        for (size_t i = 0; i < b.octets.count; i++)
            printf("%02x", there.octets[b.octets.offset + i]);
        putchar('\n');
    }
    free(file.octets), free(text.octets), free(ticket.octets), free(next.octets);
    return 0;
}

/* States of invalid tickets, with other limits, and with failed allocations. */
void try_places(octets file) {
    octets text = room_for(file.count), ticket = room_for(TICKET);
    iim_answer answer;
    iim_begun b;
    iim_octet_set set;
    iim_feed(DEFAULTS, NULL, 0, 0, file.octets, file.count, text.octets, text.count, ticket.octets, TICKET, &answer);
    size_t ended = answer.ticket;
    iim_next(DEFAULTS, ticket.octets, ended, &set, &answer);
    expect(is_plain(&answer, IIM_DONE, 0) && is_all(set.bits, sizeof set.bits, 0), "an ended envelope takes no octet");
    iim_next((iim_limits){1, 512}, ticket.octets, ended, &set, &answer);
    expect(is_plain(&answer, IIM_BAD_TICKET, 50) && is_all(set.bits, sizeof set.bits, 0), "a ticket that passes the limit on octets takes none");
    iim_next((iim_limits){65536, 1}, ticket.octets, ended, &set, &answer);
    expect(is_plain(&answer, IIM_BAD_TICKET, 51) && is_all(set.bits, sizeof set.bits, 0), "a ticket that passes the limit on datasets takes none");
    iim_place(NULL, 0, 7, &b, &answer);
    expect(is_plain(&answer, IIM_BAD_TICKET, 100) && is_all((uint8_t *)&b.count, sizeof b - offsetof(iim_begun, count), 0), "no ticket has no place");
    for (size_t count = 1; count < ended; count++) {
        octets front = room_for(count);
        memcpy(front.octets, ticket.octets, count);
        iim_place(front.octets, count, 7, &b, &answer);
        bool bad = is_plain(&answer, IIM_BAD_TICKET, 100) && b.kind == 0 && b.first == 0 && b.token == 0;
        iim_next(DEFAULTS, front.octets, count, &set, &answer);
        expect(bad && is_plain(&answer, IIM_BAD_TICKET, 100) && is_all(set.bits, sizeof set.bits, 0), "a ticket that is cut short has no place");
        free(front.octets);
    }
    ticket.octets[4] = 9;
    iim_place(ticket.octets, ended, 7, &b, &answer);
    expect(is_plain(&answer, IIM_BAD_TICKET, 101) && b.kind == 0, "a ticket of another version has no place");
    ticket.octets[4] = 2;
    ticket.octets[5] = 7;
    iim_next(DEFAULTS, ticket.octets, ended, &set, &answer);
    expect(is_plain(&answer, IIM_BAD_TICKET, 102) && is_all(set.bits, sizeof set.bits, 0), "a place where no envelope can be takes none");
    long refused = 0;
    for (long n = 0;; n += 1 + n / 8) {
        allowed = n;
        iim_next(DEFAULTS, NULL, 0, &set, &answer);
        allowed = -1;
        if (answer.status != IIM_NO_MEMORY)
            break;
        refused++;
        expect(is_plain(&answer, IIM_NO_MEMORY, 0) && is_all(set.bits, sizeof set.bits, 0), "memory is refused to the octets that come next");
    }
    expect(answer.status == IIM_MORE && refused > 0 && set.bits[3] == 1 << 4, "with all memory they are told");
    free(text.octets), free(ticket.octets);
}
