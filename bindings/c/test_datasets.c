/*
 * Limits on datasets, all datasets of a ticket in one call, and how much memory calls allocate.
 */
#include "test.h"

#include <time.h>

/* Each allocation fails in turn: the call returns a status, and the same call then returns the
 * usual result. */
void try_memory(octets file) {
    octets text = room_for(file.count), next = room_for(TICKET);
    iim_answer answer;
    long refused[3] = {0, 0, 0};
    for (int call = 0; call < 3; call++) {
        for (long n = 0;; n++) {
            allowed = n;
            if (call == 0)
                iim_check(DEFAULTS, file.octets, file.count, &answer);
            else if (call == 1)
                iim_feed(DEFAULTS, NULL, 0, 0, file.octets, file.count, text.octets, text.count, next.octets, TICKET, &answer);
            else
                iim_end(DEFAULTS, next.octets, answer.ticket, file.count, &answer);
            allowed = -1;
            if (answer.status != IIM_NO_MEMORY)
                break;
            refused[call]++;
            expect(is_plain(&answer, IIM_NO_MEMORY, 0) && answer.written == 0 && answer.ticket == 0, "memory is refused");
            if (call == 2)
                iim_feed(DEFAULTS, NULL, 0, 0, file.octets, file.count, text.octets, text.count, next.octets, TICKET, &answer);
        }
        expect(answer.status == IIM_DONE && answer.octet == file.count && refused[call] > 0, "with all memory the call is done");
    }
    free(text.octets), free(next.octets);
}

/* The largest limits: the call allocates memory for them, and the results are the usual ones. */
void try_great_limits(octets file) {
    const iim_limits greatest[3] = {{UINT32_MAX, 0}, {0, UINT32_MAX}, {UINT32_MAX, UINT32_MAX}};
    octets text = room_for(file.count), next = room_for(TICKET);
    for (int i = 0; i < 3; i++) {
        iim_answer answer;
        iim_check(greatest[i], file.octets, file.count, &answer);
        expect(answer.status == IIM_DONE && answer.octet == file.count, "octets under the greatest limits");
        iim_feed(greatest[i], NULL, 0, 0, file.octets, file.count, text.octets, text.count, next.octets, TICKET, &answer);
        expect(answer.status == IIM_DONE && answer.used == file.count, "a piece under the greatest limits");
        iim_end(greatest[i], next.octets, answer.ticket, file.count, &answer);
        expect(answer.status == IIM_DONE && answer.octet == file.count, "a ticket under the greatest limits");
    }
    free(text.octets), free(next.octets);
}

/* ---- Many datasets */

/* The smallest envelope up to its object: 7 datasets, with 27 bytes of data together. */
enum { FRONT = 62, FRONT_FIELDS = 7, FRONT_DATA = 27 };

static const struct {
    uint8_t rec, set, count;
    const char *data;
} FRONT_DATASETS[FRONT_FIELDS] = {{1, 0, 2, "\0\4"}, {1, 20, 2, "\0\2"}, {1, 22, 2, "\0\1"}, {1, 30, 3, "TST"},
                                  {1, 40, 8, "00000001"}, {1, 70, 8, "20240301"}, {2, 0, 2, "\0\4"}};

/* Adds a dataset of record 2 whose data are copies of one byte. */
static void add_dataset(octets *made, uint8_t set, size_t count) {
    uint8_t *at = made->octets + made->count;
    const uint8_t tag[5] = {0x1C, 2, set, (uint8_t)(count >> 8), (uint8_t)count};
    memcpy(at, tag, 5);
    memset(at + 5, 'k', count);
    made->count += 5 + count;
}

/* Returns the first FRONT bytes of the smallest envelope, with capacity for `more` bytes after
 * them. */
static octets begun_with(octets smallest, size_t more) {
    octets made = room_for(FRONT + more);
    memcpy(made.octets, smallest.octets, FRONT);
    made.count = FRONT;
    return made;
}

/* Feeds bytes as one chunk of a new envelope. A ticket has the capacity that the limits require. */
static octets fed(iim_limits limits, octets piece, iim_answer *answer) {
    octets text = room_for(piece.count), ticket = room_for(limits.octets + 6 * (size_t)limits.fields + 256);
    iim_feed(limits, NULL, 0, 0, piece.octets, piece.count, text.octets, text.count, ticket.octets, ticket.count, answer);
    free(text.octets);
    ticket.count = answer->ticket;
    return ticket;
}

/* Expects that the bytes are accepted, and that with one more dataset its tag is rejected at its
 * end. */
static void try_edge(octets piece, size_t count, uint8_t cause) {
    const iim_limits wire = {65536, 512}, zero = {0, 0};
    for (int i = 0; i < 2; i++) {
        const iim_limits limits = i == 0 ? wire : zero;
        octets text = room_for(piece.count + 5 + count), ticket = room_for(TICKET);
        iim_answer answer;
        iim_feed(limits, NULL, 0, 0, piece.octets, piece.count, text.octets, text.count, ticket.octets, TICKET, &answer);
        expect(answer.status == IIM_MORE && answer.used == piece.count && answer.octet == piece.count, "as much as the default limits allow");
        octets more = piece;
        add_dataset(&more, 250, count);
        iim_feed(limits, NULL, 0, 0, more.octets, more.count, text.octets, text.count, ticket.octets, TICKET, &answer);
        expect(answer.status == IIM_REFUSED && answer.layer == IIM_LAYER_LIMITS && answer.cause == cause && answer.rec == 2 && answer.set == 250
                   && answer.octet == piece.count + 4,
               "one more than the default limits allow");
        free(text.octets), free(ticket.octets);
    }
}

/* Writes a dataset, whose data are as many bytes as the count, and returns what comes after it. */
static uint8_t *put_dataset(uint8_t *at, uint8_t rec, uint8_t set, const char *octets, size_t count) {
    const uint8_t head[] = {0x1c, rec, set, (uint8_t)(count >> 8), (uint8_t)count};
    memcpy(at, head, sizeof head);
    if (octets != NULL)
        memcpy(at + sizeof head, octets, count);
    else
        memset(at + sizeof head, 'x', count);
    return at + sizeof head + count;
}

/* Writes the datasets that every envelope has: 7 of them, with 27 bytes of data. */
static uint8_t *put_mandatory(uint8_t *at) {
    at = put_dataset(at, 1, 0, "\0\4", 2);
    at = put_dataset(at, 1, 20, "\0\2", 2);
    at = put_dataset(at, 1, 22, "\0\1", 2);
    at = put_dataset(at, 1, 30, "TST", 3);
    at = put_dataset(at, 1, 40, "00000002", 8);
    at = put_dataset(at, 1, 70, "20240301", 8);
    return put_dataset(at, 2, 0, "\0\4", 2);
}

/* The ticket of as much data in as many datasets as the limits of wire copy allow: IIM_TICKET_SIZE is
 * enough for it, and at most 256 bytes too much. Then one more byte or dataset exceeds a limit. */
void try_greatest_ticket(void) {
    enum { EACH = 129, REST = 65536 - 27 - 504 * EACH };
    octets all = room_for(65536 + 5 * 513), text = room_for(all.count), ticket = room_for(TICKET);
    uint8_t *at = put_mandatory(all.octets);
    for (int n = 0; n < 504; n++)
        at = put_dataset(at, 2, 250, NULL, EACH);
    uint8_t *last = at;
    at = put_dataset(last, 2, 250, NULL, REST);
    size_t count = (size_t)(at - all.octets);
    iim_answer answer;
    iim_feed(DEFAULTS, NULL, 0, 0, all.octets, count, text.octets, text.count, ticket.octets, TICKET, &answer);
    expect(answer.status == IIM_MORE && answer.octet == count, "the limits of wire copy are reached");
    expect(answer.ticket <= IIM_TICKET_SIZE && answer.ticket > IIM_TICKET_SIZE - 256, "the length of the greatest ticket");
    expect(IIM_TICKET_MAX(DEFAULTS) == IIM_TICKET_SIZE, "the macro of the default limits");
    expect(IIM_TICKET_MAX(((iim_limits){1000, 10})) == 1000 + 60 + 256, "the macro of other limits");
    at = put_dataset(at, 2, 250, NULL, 0);
    iim_feed(DEFAULTS, NULL, 0, 0, all.octets, (size_t)(at - all.octets), text.octets, text.count, ticket.octets, TICKET, &answer);
    expect(answer.status == IIM_REFUSED && answer.cause == 51, "one dataset more");
    put_dataset(last, 2, 250, NULL, REST + 1);
    iim_feed(DEFAULTS, NULL, 0, 0, all.octets, count, text.octets, text.count, ticket.octets, TICKET, &answer);
    expect(answer.status == IIM_REFUSED && answer.cause == 50, "one byte more");
    free(all.octets), free(text.octets), free(ticket.octets);
}

/* The default limits are 65,536 bytes and 512 datasets. */
void try_default_limits(octets smallest) {
    octets many = begun_with(smallest, 512 * 6), full = begun_with(smallest, 65536 + 16 * 5);
    for (int i = FRONT_FIELDS; i < 512; i++)
        add_dataset(&many, 250, 1);
    try_edge(many, 1, 51);
    for (int i = 0; i < 7; i++)
        add_dataset(&full, 250, 8192);
    add_dataset(&full, 250, 65536 - FRONT_DATA - 7 * 8192);
    try_edge(full, 1, 50);
    free(many.octets), free(full.octets);
}

static bool is_same_dataset(const iim_dataset *a, const iim_dataset *b) {
    return a->rec == b->rec && a->set == b->set && a->data.offset == b->data.offset && a->data.count == b->data.count;
}

/* Returns an array of exactly `count` datasets, with 0xAA in each byte: a sanitizer reports a write
 * beyond its end. */
static iim_dataset *array_of(size_t count) {
    octets made = room_for(count * sizeof(iim_dataset));
    memset(made.octets, 0xAA, made.count);
    return (iim_dataset *)made.octets;
}

/* Checks one call of iim_fields against the datasets that iim_field returned. */
static void try_fields_at(octets ticket, const iim_dataset *want, size_t all, size_t from, size_t room) {
    iim_dataset *array = array_of(room);
    size_t there = from < all ? all - from : 0, written = there < room ? there : room;
    iim_answer answer;
    memset(&answer, 0xAA, sizeof answer);
    iim_fields(ticket.octets, ticket.count, from, array, room, &answer);
    bool holds = is_plain(&answer, there <= room ? IIM_DONE : IIM_SHORT, 0) && answer.written == there && answer.ticket == 0;
    for (size_t k = 0; k < written; k++)
        holds = holds && is_same_dataset(&array[k], &want[from + k]);
    expect(holds && is_all((uint8_t *)(array + written), (room - written) * sizeof *array, 0xAA), "the datasets from an index on");
    free(array);
}

/* Bytes that are not a ticket, or a ticket of another version: the array is unchanged. */
static void try_fields_of_none(octets ticket, size_t count, uint8_t cause) {
    octets front = room_for(count);
    memcpy(front.octets, ticket.octets, count);
    iim_dataset *array = array_of(3);
    iim_answer answer;
    iim_fields(front.octets, count, 0, array, 3, &answer);
    expect(is_plain(&answer, IIM_BAD_TICKET, cause) && answer.written == 0 && is_all((uint8_t *)array, 3 * sizeof *array, 0xAA),
           "the datasets of no ticket");
    free(front.octets), free(array);
}

/* Reads all datasets in one call: from each ticket of an envelope, from each index, into arrays of
 * each length. */
void try_fields(octets file) {
    for (size_t first = 0; first <= file.count; first++) {
        octets piece = {file.octets, first};
        iim_answer answer;
        octets ticket = fed((iim_limits){65536, 512}, piece, &answer);
        iim_dataset want[64];
        size_t all = 0;
        while (all < 64 && (iim_field(ticket.octets, ticket.count, all, &want[all], &answer), answer.status == IIM_DONE))
            all++;
        for (size_t from = 0; from <= all + 1; from++)
            for (size_t room = 0; room <= all + 1; room++)
                try_fields_at(ticket, want, all, from, room);
        try_fields_at(ticket, want, all, SIZE_MAX, 2);
        iim_fields(ticket.octets, ticket.count, 0, NULL, 0, &answer);
        expect(is_plain(&answer, all > 0 ? IIM_SHORT : IIM_DONE, 0) && answer.written == all, "how many datasets there are");
        if (first == file.count) {
            for (size_t count = 0; count < ticket.count; count++)
                try_fields_of_none(ticket, count, 100);
            ticket.octets[4] = 9;
            try_fields_of_none(ticket, ticket.count, 101);
        }
        free(ticket.octets);
    }
}

/* The datasets of the smallest envelope, as in docs/reference/format.md. */
void try_known_fields(octets smallest) {
    iim_answer answer;
    iim_dataset array[FRONT_FIELDS];
    octets ticket = fed((iim_limits){65536, 512}, smallest, &answer);
    expect(answer.status == IIM_DONE, "the smallest envelope is whole");
    iim_fields(ticket.octets, ticket.count, 0, array, FRONT_FIELDS, &answer);
    expect(answer.status == IIM_DONE && answer.written == FRONT_FIELDS, "how many datasets the smallest envelope has");
    for (size_t k = 0; k < FRONT_FIELDS; k++)
        expect(array[k].rec == FRONT_DATASETS[k].rec && array[k].set == FRONT_DATASETS[k].set && array[k].data.count == FRONT_DATASETS[k].count
                   && memcmp(ticket.octets + array[k].data.offset, FRONT_DATASETS[k].data, FRONT_DATASETS[k].count) == 0,
               "a dataset of the smallest envelope");
    free(ticket.octets);
}

/* The least processor time of five calls that read a chunk, and of five that write all datasets of
 * its ticket. */
void try_time(octets smallest) {
    enum { MORE = 16000, ALL = FRONT_FIELDS + MORE };
    const iim_limits limits = {200000, 20000};
    octets piece = begun_with(smallest, MORE * 13);
    for (int i = 0; i < MORE; i++)
        add_dataset(&piece, 25, 8);
    clock_t reading = 0, writing = 0;
    for (int turn = 0; turn < 5; turn++) {
        iim_answer answer;
        clock_t began = clock();
        octets ticket = fed(limits, piece, &answer);
        clock_t read = clock() - began;
        iim_dataset *array = array_of(ALL);
        expect(answer.status == IIM_MORE, "16,007 datasets are read");
        began = clock();
        iim_fields(ticket.octets, ticket.count, 0, array, ALL, &answer);
        clock_t wrote = clock() - began;
        expect(answer.status == IIM_DONE && answer.written == ALL && array[ALL - 1].set == 25
                   && array[ALL - 1].data.offset == array[FRONT_FIELDS].data.offset + (size_t)(MORE - 1) * 14,
               "16,007 datasets in one call");
        reading = turn == 0 || read < reading ? read : reading;
        writing = turn == 0 || wrote < writing ? wrote : writing;
        free(array), free(ticket.octets);
    }
    expect(writing <= 5 * reading + CLOCKS_PER_SEC / 1000, "16,007 datasets in at most five times the time of reading them");
    free(piece.octets);
}

/* ---- Number of allocations */

/* Returns the number of requests since the last call. */
static long asked_for(void) {
    long asked = requests;
    requests = 0;
    return asked;
}

/* A call that continues an envelope allocates twice, for the bytes and the datasets that the limits
 * allow, whether or not its buffers are long enough. A call that only reads a ticket does not
 * allocate. */
void try_requests_at(octets file, size_t first) {
    octets piece = {file.octets, first}, rest = {file.octets + first, file.count - first};
    iim_answer answer;
    octets ticket = fed((iim_limits){65536, 512}, piece, &answer), text = room_for(rest.count), next = room_for(TICKET);
    iim_so_far so_far = {0, first, 0, false}, kept = so_far;
    iim_audit_row row;
    iim_dataset dataset;
    iim_message message;
    iim_object object;
    iim_begun begun;
    asked_for();
    iim_feed(DEFAULTS, ticket.octets, ticket.count, first, rest.octets, rest.count, text.octets, text.count, next.octets, TICKET, &answer);
    expect(answer.status == IIM_DONE && asked_for() == 2, "requests for memory of a piece");
    iim_feed(DEFAULTS, ticket.octets, ticket.count, first, rest.octets, rest.count, NULL, 0, NULL, 0, &answer);
    expect(answer.status == IIM_SHORT && asked_for() == 2, "requests for memory of a piece without buffers");
    iim_end(DEFAULTS, ticket.octets, ticket.count, first, &answer);
    expect(answer.status == (first == file.count ? IIM_DONE : IIM_TRUNCATED) && asked_for() == 2, "requests for memory at the end");
    if (first < file.count) {
        iim_audit(DEFAULTS, ticket.octets, ticket.count, &so_far, rest.octets, rest.count, NOON, &row, 1, next.octets, TICKET, &answer);
        expect(answer.status == IIM_DONE && answer.written == 1 && asked_for() == 2, "requests for memory of an audit");
        iim_audit(DEFAULTS, ticket.octets, ticket.count, &kept, rest.octets, rest.count, NOON, &row, 1, NULL, 0, &answer);
        expect(answer.status == IIM_SHORT && asked_for() == 2, "requests for memory of an audit without buffers");
    }
    iim_fields(ticket.octets, ticket.count, 0, &dataset, 1, &answer);
    iim_field(ticket.octets, ticket.count, 0, &dataset, &answer);
    iim_header(ticket.octets, ticket.count, &message, &answer);
    iim_sizes(ticket.octets, ticket.count, &object, &answer);
    iim_place(ticket.octets, ticket.count, first, &begun, &answer);
    expect(asked_for() == 0, "requests for memory of what a ticket tells");
    free(ticket.octets), free(text.octets), free(next.octets);
}
