/*
 * The command `audit`, and audits with arrays that are too short, invalid instants and failed
 * allocations.
 */
#include "test.h"

static void print_row(const iim_audit_row *r) {
    printf("%" PRIu64 " %" PRIu64 " ", r->at, r->octets);
    print_shown(stdout, r->service, r->service_octets);
    putchar(' ');
    print_shown(stdout, r->number, sizeof r->number);
    putchar(' ');
    print_shown(stdout, r->date_sent, sizeof r->date_sent);
    printf(" %d %" PRIu64 " %" PRIu64 " %" PRIu64 " %" PRIu64 " %d %" PRId64 " %d %d %" PRId64 " %" PRIu32 " %d %" PRId64 " %" PRIu32 "\n", r->priority, r->size,
           r->subfiles, r->announced, r->counted, r->has_age, r->age, r->copy, r->has_release, r->release.second, r->release.nanosecond, r->has_expires,
           r->expires.second, r->expires.nanosecond);
}

/* The state of an audit between two calls. */
typedef struct {
    uint8_t tickets[2][TICKET];
    int now;
    size_t ticket;
    iim_so_far so_far;
} auditor;

static auditor *new_auditor(void) {
    auditor *a = malloc(sizeof *a);
    if (a == NULL)
        exit(3);
    memset(a, 0, sizeof *a);
    return a;
}

/* Audits a chunk. The ticket, the chunk and the rows have exactly the capacity that they need, or
 * that is requested. */
static iim_answer audit(auditor *a, iim_instant now, const uint8_t *piece, size_t count, iim_audit_row *rows, size_t room) {
    octets before = room_for(a->ticket), fed = room_for(count);
    iim_audit_row *there = (iim_audit_row *)(void *)room_for(room * sizeof *there).octets;
    iim_answer answer;
    memcpy(before.octets, a->tickets[a->now], a->ticket);
    if (count > 0)
        memcpy(fed.octets, piece, count);
    if (room > 0)
        memcpy(there, rows, room * sizeof *rows);
    memset(&answer, 0xAA, sizeof answer);
    iim_audit(DEFAULTS, before.octets, before.count, &a->so_far, fed.octets, fed.count, now, there, room, a->tickets[!a->now], TICKET, &answer);
    if (room > 0)
        memcpy(rows, there, room * sizeof *rows);
    if (answer.status == IIM_MORE || answer.status == IIM_DONE) {
        a->now = !a->now;
        a->ticket = answer.ticket;
    }
    free(before.octets), free(fed.octets), free(there);
    return answer;
}

/* Prints the rows of a file, and how it ends. */
static int print_audit(size_t piece, size_t room, int64_t second, const char *path) {
    octets file = file_of(path);
    auditor *a = new_auditor();
    iim_audit_row *rows = calloc(room, sizeof *rows);
    iim_answer answer = {0};
    size_t at = 0;
    if (rows == NULL)
        exit(3);
    while (at < file.count) {
        size_t count = file.count - at < piece ? file.count - at : piece;
        answer = audit(a, (iim_instant){second, 0}, file.octets + at, count, rows, room);
        for (size_t i = 0; i < answer.written; i++)
            print_row(&rows[i]);
        if (answer.status != IIM_MORE && answer.status != IIM_DONE)
            break;
        if ((answer.status == IIM_DONE) != (answer.written == room) || answer.octet != a->so_far.octets || (answer.status == IIM_MORE && answer.used != count))
            return 3;
        at += answer.used;
    }
    if ((answer.status == IIM_MORE || answer.status == IIM_DONE) && a->so_far.octets > 0)
        iim_end(DEFAULTS, a->tickets[a->now], a->ticket, a->so_far.octets, &answer);
    if (answer.status == IIM_REFUSED || answer.status == IIM_TRUNCATED)
        printf("at %" PRIu64 ": %d %d %d %d %d %" PRIu64 "\n", a->so_far.at, answer.status, answer.layer, answer.cause, answer.rec, answer.set, answer.octet);
    free(a), free(rows), free(file.octets);
    return answer.status == IIM_DONE || answer.status == IIM_MORE ? 0 : 1;
}

/* Prints the rows of a file by chunks of each size. */
int print_audits(size_t first, size_t last, char **words) {
    int status = 0;
    for (size_t piece = first; piece <= last; piece++)
        status = end_size(piece, first, status, print_audit(piece, (size_t)atol(words[0]), atoll(words[1]), words[2]));
    return status;
}

/* 14:00 on 2024-03-01, at offset zero. */
static const iim_instant LATER = {1709301600, 0};

/* Checks whether the stored state is this one. */
static bool is_kept(const iim_so_far *s, uint64_t at, uint64_t octets, uint64_t words, bool inside) {
    return s->at == at && s->octets == octets && s->words == words && s->inside == inside;
}

/* The two example envelopes one after the other, split inside the word "change" of the story, with
 * arrays that are too short. */
void try_audit_rooms(octets smallest, octets story) {
    size_t count = smallest.count + story.count, cut = count - 15;
    octets both = room_for(count);
    memcpy(both.octets, smallest.octets, smallest.count);
    memcpy(both.octets + smallest.count, story.octets, story.count);
    auditor *a = new_auditor();
    iim_audit_row rows[3];
    memset(rows, 0xAA, sizeof rows);
    iim_answer answer = audit(a, NOON, both.octets, count, rows, 0);
    expect(is_plain(&answer, IIM_DONE, 0) && answer.written == 0 && answer.ticket > 0 && is_kept(&a->so_far, 0, 0, 0, false), "no room for a row");
    answer = audit(a, NOON, both.octets, cut, rows, 1);
    expect(answer.status == IIM_DONE && answer.used == smallest.count && answer.written == 1 && answer.octet == 0 && rows[0].at == 0
               && rows[0].octets == smallest.count && is_all((uint8_t *)&rows[1], 2 * sizeof *rows, 0xAA) && is_kept(&a->so_far, smallest.count, 0, 0, false),
           "room for one row");
    answer = audit(a, NOON, both.octets + smallest.count, cut - smallest.count, rows, 3);
    expect(answer.status == IIM_MORE && answer.used == cut - smallest.count && answer.written == 0 && answer.octet == cut - smallest.count
               && is_kept(&a->so_far, smallest.count, cut - smallest.count, 4, true),
           "a piece that ends in a word");
    answer = audit(a, NOON, both.octets + cut, 15, rows, 3);
    expect(answer.status == IIM_MORE && answer.used == 15 && answer.written == 1 && answer.octet == 0 && rows[0].at == smallest.count
               && rows[0].octets == story.count && rows[0].counted == 4 && is_all((uint8_t *)&rows[1], 2 * sizeof *rows, 0xAA)
               && is_kept(&a->so_far, count, 0, 0, false),
           "a word that goes on in the next piece");
    free(both.octets), free(a);
}

/* A refusal after an envelope, a buffer too short for the ticket, invalid instants and invalid
 * tickets. */
void try_audit_answers(octets file) {
    octets bad = room_for(2 * file.count), next = room_for(TICKET);
    memcpy(bad.octets, file.octets, file.count);
    memcpy(bad.octets + file.count, file.octets, file.count);
    bad.octets[file.count + 7] = 0x1D;
    auditor *a = new_auditor();
    iim_audit_row rows[2];
    memset(rows, 0xAA, sizeof rows);
    iim_answer answer = audit(a, NOON, bad.octets, bad.count, rows, 2);
    expect(answer.status == IIM_REFUSED && answer.layer == IIM_LAYER_DATASET && answer.cause == 1 && answer.octet == 7 && answer.written == 1
               && answer.used == file.count && answer.ticket == 0 && rows[0].octets == file.count && is_all((uint8_t *)&rows[1], sizeof *rows, 0xAA)
               && is_kept(&a->so_far, file.count, 0, 0, false),
           "a refusal after a row");
    iim_so_far so_far = {5, 0, 0, false};
    iim_audit(DEFAULTS, NULL, 0, &so_far, file.octets, 27, NOON, NULL, 0, next.octets, next.count, &answer);
    size_t some = answer.ticket;
    expect(answer.status == IIM_DONE && answer.used == 0 && some > 0, "no array");
    octets little = room_for(some - 1);
    iim_audit(DEFAULTS, NULL, 0, &so_far, file.octets, 27, NOON, NULL, 0, little.octets, little.count, &answer);
    expect(is_plain(&answer, IIM_SHORT, 0) && answer.ticket == some && answer.written == 0 && is_kept(&so_far, 5, 0, 0, false), "a ticket that has no room");
    octets just = room_for(some);
    iim_audit(DEFAULTS, NULL, 0, &so_far, file.octets, file.count, NOON, NULL, 0, just.octets, just.count, &answer);
    expect(answer.status == IIM_DONE && answer.ticket == some && memcmp(just.octets, next.octets, some) == 0, "a ticket of just the length that is needed");
    free(just.octets);
    iim_audit(DEFAULTS, NULL, 0, &so_far, file.octets, file.count, NOON, rows, 2, NULL, 0, &answer);
    expect(is_plain(&answer, IIM_SHORT, 0) && answer.ticket == some && answer.written == 1 && is_kept(&so_far, 5, 0, 0, false), "no room for a ticket");
    /* the first instant, -009999-01-02T01:59:59Z, the last one, 9999-12-30T22:00:00.999999999Z, and
     * invalid ones next to them */
    const iim_instant edges[2] = {{-377705023201, 0}, {253402207200, 999999999}};
    const iim_instant none[5] = {{0, 1000000000}, {INT64_MAX, 0}, {INT64_MIN, 0}, {253402207201, 0}, {-377705023202, 999999999}};
    for (int i = 0; i < 2; i++) {
        iim_so_far unread = {5, 0, 0, false};
        iim_audit(DEFAULTS, NULL, 0, &unread, NULL, 0, edges[i], rows, 2, next.octets, next.count, &answer);
        expect(is_plain(&answer, IIM_MORE, 0) && answer.written == 0 && is_kept(&unread, 5, 0, 0, false), "the first and the last instant");
    }
    for (int i = 0; i < 5; i++) {
        memset(rows, 0xAA, sizeof rows);
        iim_audit(DEFAULTS, NULL, 0, &so_far, file.octets, file.count, none[i], rows, 2, next.octets, next.count, &answer);
        expect(is_plain(&answer, IIM_BAD_INSTANT, 0) && answer.ticket == 0 && is_all((uint8_t *)rows, sizeof rows, 0xAA) && is_kept(&so_far, 5, 0, 0, false),
               "an instant that is none");
    }
    iim_audit(DEFAULTS, (const uint8_t *)"no ticket", 9, &so_far, file.octets, file.count, NOON, rows, 2, next.octets, next.count, &answer);
    expect(is_plain(&answer, IIM_BAD_TICKET, 100) && is_all((uint8_t *)rows, sizeof rows, 0xAA) && is_kept(&so_far, 5, 0, 0, false), "no ticket of an audit");
    octets text = room_for(file.count), ended = room_for(TICKET);
    iim_feed(DEFAULTS, NULL, 0, 0, file.octets, file.count, text.octets, text.count, ended.octets, ended.count, &answer);
    iim_audit(DEFAULTS, ended.octets, answer.ticket, &so_far, NULL, 0, NOON, rows, 2, next.octets, next.count, &answer);
    expect(is_plain(&answer, IIM_BAD_TICKET, 0) && is_kept(&so_far, 5, 0, 0, false), "a ticket of an ended envelope");
    free(bad.octets), free(next.octets), free(little.octets), free(text.octets), free(ended.octets), free(a);
}

/* The copy of an envelope that expires at 13:00, before and after that. */
void try_audit_copies(octets release) {
    octets file = room_for(release.count);
    memcpy(file.octets, release.octets, release.count);
    file.octets[64] = 37, file.octets[77] = 38;
    auditor *a = new_auditor();
    iim_audit_row rows[2];
    iim_answer answer = audit(a, NOON, file.octets, file.count, rows, 2);
    expect(answer.status == IIM_MORE && answer.written == 1 && rows[0].copy == IIM_COPY_FREE && rows[0].has_expires && !rows[0].has_release
               && rows[0].expires.second == 1709298000 && rows[0].expires.nanosecond == 0 && rows[0].release.second == 0,
           "a copy that is to expire");
    answer = audit(a, LATER, file.octets, file.count, rows, 2);
    expect(answer.status == IIM_MORE && answer.written == 1 && rows[0].copy == IIM_COPY_EXPIRED && rows[0].at == file.count, "a copy that has expired");
    answer = audit(a, NOON, release.octets, release.count, rows, 2);
    expect(rows[0].copy == IIM_COPY_HELD && rows[0].has_release && rows[0].release.second == 1709298000 && !rows[0].has_expires, "a copy that is held");
    answer = audit(a, LATER, release.octets, release.count, rows, 2);
    expect(rows[0].copy == IIM_COPY_FREE && rows[0].has_release, "a copy that was held");
    free(file.octets), free(a);
}

/* Each allocation fails in turn: an audit of many envelopes makes as many allocations as one of a
 * few. */
void try_audit_memory(octets file) {
    octets many = room_for(100 * file.count), next = room_for(TICKET);
    for (int i = 0; i < 100; i++)
        memcpy(many.octets + i * file.count, file.octets, file.count);
    static iim_audit_row rows[101];
    long refused[2] = {0, 0};
    for (int call = 0; call < 2; call++) {
        for (long n = 0;; n++) {
            iim_so_far so_far = {3, 0, 0, false};
            iim_answer answer;
            allowed = n;
            iim_audit(DEFAULTS, NULL, 0, &so_far, many.octets, call ? many.count : file.count, NOON, rows, 101, next.octets, next.count, &answer);
            allowed = -1;
            if (answer.status != IIM_NO_MEMORY) {
                expect(answer.status == IIM_MORE && answer.written == (call ? 100 : 1) && so_far.at == 3 + answer.used, "with all memory it is audited");
                break;
            }
            refused[call]++;
            expect(is_plain(&answer, IIM_NO_MEMORY, 0) && answer.ticket == 0 && is_kept(&so_far, 3, 0, 0, false), "memory is refused to an audit");
        }
    }
    expect(refused[0] > 0 && refused[0] == refused[1], "many envelopes take the memory of one");
    free(many.octets), free(next.octets);
}
