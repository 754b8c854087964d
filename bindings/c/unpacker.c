/*
 * Tests the calls over an iim_unpacker: compares them with the calls over tickets, which the other
 * tests check, and counts their allocations.
 *
 *   unpacker FILE ..      prints each difference, and then 'N passed, M failed'
 *
 * Each file is read in chunks of several sizes, by iim_feed() and by iim_unpacker_feed(): status,
 * layer, cause, dataset, offset, used bytes and text must be equal after each chunk, and so must
 * the ticket that iim_unpacker_save() writes and the ticket of iim_feed(). The readers of an
 * unpacker must return what the readers of that ticket return.
 */
#include "iim.h"

#include <inttypes.h>
#include <stdio.h>
#include <stdlib.h>
#include <string.h>

enum { TICKET = IIM_TICKET_SIZE, PIECE = 4096, FIELDS = 512 };

static const iim_limits DEFAULTS = {0, 0};

static unsigned long passed, failed;

static void check(bool holds, const char *what, const char *where) {
    if (holds) {
        passed++;
    } else {
        failed++;
        printf("FAILED: %s: %s\n", where, what);
    }
}

/* ---- Memory: the library calls these instead of malloc and realloc */

static bool refuses;
static unsigned long requests;

void *__real_malloc(size_t size);
void *__wrap_malloc(size_t size);
void *__real_realloc(void *old, size_t size);
void *__wrap_realloc(void *old, size_t size);

void *__wrap_malloc(size_t size) {
    requests++;
    return refuses ? NULL : __real_malloc(size);
}

void *__wrap_realloc(void *old, size_t size) {
    requests++;
    return refuses ? NULL : __real_realloc(old, size);
}

/* ---- Comparing with tickets */

/* The state of a comparison: the ticket of one side, the unpacker of the other. */
static struct {
    uint8_t tickets[2][TICKET];
    size_t ticket_len;
    int which;
    uint64_t at;
    iim_unpacker unpacker;
} both;

static bool is_same_result(const iim_answer *one, const iim_answer *other) {
    return one->status == other->status && one->layer == other->layer && one->cause == other->cause &&
           one->rec == other->rec && one->set == other->set && one->octet == other->octet &&
           one->used == other->used && one->written == other->written;
}

/* Begins an envelope on both sides. */
static void begin(void) {
    both.ticket_len = 0;
    both.at = 0;
    check(iim_unpacker_reset(&both.unpacker) == IIM_DONE, "reset", "begin");
}

/* Compares the saved state with the ticket. */
static void compare_tickets(const char *where) {
    static uint8_t saved[TICKET];
    iim_answer answer;
    iim_unpacker_save(&both.unpacker, saved, sizeof saved, &answer);
    check(answer.status == IIM_DONE && answer.ticket == both.ticket_len && answer.octet == both.at,
          "answer of save", where);
    check(memcmp(saved, both.tickets[both.which], both.ticket_len) == 0, "saved ticket", where);
    if (both.ticket_len > 0) {
        iim_unpacker_save(&both.unpacker, saved, both.ticket_len - 1, &answer);
        check(answer.status == IIM_SHORT && answer.ticket == both.ticket_len, "short save", where);
    }
}

/* ---- Comparing the readers */

/* Checks the answer of a reader that wrote the ticket, and the ticket. */
static bool has_ticket(int status, const iim_answer *answer, const uint8_t *ticket) {
    return status == IIM_OK && answer->status == IIM_OK && answer->ticket == both.ticket_len &&
           answer->octet == both.at && memcmp(ticket, both.tickets[both.which], both.ticket_len) == 0;
}

/* Checks the answer of a reader whose buffer is a byte shorter than the ticket. */
static bool lacks_room(int status, const iim_answer *answer) {
    return status == IIM_SHORT && answer->status == IIM_SHORT && answer->ticket == both.ticket_len &&
           answer->written == 0;
}

static bool is_same_dataset(const iim_dataset *one, const iim_dataset *other) {
    return one->rec == other->rec && one->set == other->set && one->data.offset == other->data.offset &&
           one->data.count == other->data.count;
}

/* Returns the number of datasets, which are in `datasets`. */
static size_t compare_fields(iim_dataset *datasets, const char *where) {
    static iim_dataset found[FIELDS];
    static uint8_t ticket[TICKET];
    iim_answer of_ticket, answer;
    iim_fields(both.tickets[both.which], both.ticket_len, 0, datasets, FIELDS, &of_ticket);
    int status = iim_unpacker_fields(&both.unpacker, ticket, sizeof ticket, found, FIELDS, &answer);
    check(has_ticket(status, &answer, ticket) && answer.written == of_ticket.written, "answer of fields", where);
    for (size_t n = 0; n < of_ticket.written; n++)
        check(is_same_dataset(&datasets[n], &found[n]), "dataset", where);
    memset(found, 7, sizeof found);
    if (of_ticket.written > 0) {
        size_t most = of_ticket.written - 1;
        status = iim_unpacker_fields(&both.unpacker, ticket, sizeof ticket, found, most, &answer);
        check(status == IIM_SHORT && answer.written == of_ticket.written && answer.ticket == both.ticket_len &&
                  found[most].rec == 7 && (most == 0 || is_same_dataset(&datasets[0], &found[0])),
              "fields in a short array", where);
        memset(found, 7, sizeof found);
    }
    status = iim_unpacker_fields(&both.unpacker, ticket, both.ticket_len - 1, found, FIELDS, &answer);
    check(lacks_room(status, &answer) && found[0].rec == 7, "fields in a short buffer", where);
    return of_ticket.written;
}

static void compare_header(const char *where) {
    static uint8_t ticket[TICKET];
    iim_message of_ticket, found;
    iim_answer answer;
    memset(&of_ticket, 7, sizeof of_ticket);
    memset(&found, 7, sizeof found);
    int status = iim_unpacker_header(&both.unpacker, ticket, both.ticket_len - 1, &found, &answer);
    check(lacks_room(status, &answer) && memcmp(&of_ticket, &found, sizeof found) == 0, "header in a short buffer",
          where);
    iim_header(both.tickets[both.which], both.ticket_len, &of_ticket, &answer);
    status = iim_unpacker_header(&both.unpacker, ticket, sizeof ticket, &found, &answer);
    check(has_ticket(status, &answer, ticket) && memcmp(&of_ticket, &found, sizeof found) == 0, "header", where);
}

static void compare_sizes(const char *where) {
    static uint8_t ticket[TICKET];
    iim_object of_ticket, found;
    iim_answer answer;
    memset(&of_ticket, 1, sizeof of_ticket);
    memset(&found, 1, sizeof found);
    int status = iim_unpacker_sizes(&both.unpacker, ticket, both.ticket_len - 1, &found, &answer);
    check(lacks_room(status, &answer) && memcmp(&of_ticket, &found, sizeof found) == 0, "sizes in a short buffer",
          where);
    iim_sizes(both.tickets[both.which], both.ticket_len, &of_ticket, &answer);
    status = iim_unpacker_sizes(&both.unpacker, ticket, sizeof ticket, &found, &answer);
    check(has_ticket(status, &answer, ticket) && memcmp(&of_ticket, &found, sizeof found) == 0, "sizes", where);
}

/* Compares a dataset of a complete envelope, the one with the index n of those with its numbers. */
static void compare_data(const iim_dataset *dataset, size_t n, const char *where) {
    static uint8_t data[TICKET];
    size_t count = dataset->data.count;
    const uint8_t *want = both.tickets[both.which] + dataset->data.offset;
    iim_answer answer;
    memset(data, 7, count + 1);
    int status = iim_unpacker_field(&both.unpacker, dataset->rec, dataset->set, n, data, count, &answer);
    check(status == IIM_OK && answer.status == IIM_OK && answer.written == count && memcmp(data, want, count) == 0 &&
              data[count] == 7,
          "data of a dataset", where);
    if (count > 0) {
        memset(data, 7, count);
        status = iim_unpacker_field(&both.unpacker, dataset->rec, dataset->set, n, data, count - 1, &answer);
        check(status == IIM_SHORT && answer.status == IIM_SHORT && answer.written == count && data[0] == 7,
              "data in a short buffer", where);
    }
}

/* Compares each dataset of a complete envelope, by record and number. */
static void compare_values(const iim_dataset *datasets, size_t count, const char *where) {
    uint8_t byte = 7;
    iim_answer answer;
    for (size_t i = 0; i < count; i++) {
        size_t before = 0, all = 0;
        for (size_t j = 0; j < count; j++)
            if (datasets[j].rec == datasets[i].rec && datasets[j].set == datasets[i].set) {
                all++;
                before += j < i;
            }
        compare_data(&datasets[i], before, where);
        check(iim_unpacker_count(&both.unpacker, datasets[i].rec, datasets[i].set, &answer) == IIM_OK &&
                  answer.status == IIM_OK && answer.written == all,
              "count", where);
        check(iim_unpacker_field(&both.unpacker, datasets[i].rec, datasets[i].set, all, &byte, 1, &answer) == IIM_NONE &&
                  answer.status == IIM_NONE && byte == 7,
              "index past the last", where);
    }
    check(iim_unpacker_count(&both.unpacker, 2, 255, &answer) == IIM_OK && answer.written == 0, "count of none", where);
}

/* Compares every reader. Those of a complete envelope return IIM_MORE before its end. */
static void compare_readers(bool is_done, const char *where) {
    static iim_dataset datasets[FIELDS];
    uint8_t byte = 7;
    iim_answer answer;
    unsigned long before = requests;
    size_t count = compare_fields(datasets, where);
    compare_header(where);
    compare_sizes(where);
    if (is_done) {
        compare_values(datasets, count, where);
    } else {
        check(iim_unpacker_field(&both.unpacker, 1, 0, 0, &byte, 1, &answer) == IIM_MORE &&
                  answer.status == IIM_MORE && byte == 7,
              "field of an incomplete envelope", where);
        check(iim_unpacker_count(&both.unpacker, 1, 0, &answer) == IIM_MORE && answer.status == IIM_MORE,
              "count of an incomplete envelope", where);
    }
    check(requests == before, "readers allocate nothing", where);
}

/* Checks that no reader returns anything but this status, nor writes anything. */
static void try_unread(iim_unpacker *unpacker, int status, const char *where) {
    uint8_t ticket[TICKET];
    iim_dataset dataset = {7, 7, {7, 7}};
    iim_message message = {.part = 7};
    iim_object object = {.mode = 7};
    iim_answer answer;
    ticket[0] = 7;
    check(iim_unpacker_fields(unpacker, ticket, sizeof ticket, &dataset, 1, &answer) == status && dataset.rec == 7,
          "fields", where);
    check(iim_unpacker_header(unpacker, ticket, sizeof ticket, &message, &answer) == status && message.part == 7,
          "header", where);
    check(iim_unpacker_sizes(unpacker, ticket, sizeof ticket, &object, &answer) == status && object.mode == 7,
          "sizes", where);
    check(iim_unpacker_field(unpacker, 1, 0, 0, ticket, 2, &answer) == status && answer.status == status, "field",
          where);
    check(iim_unpacker_count(unpacker, 1, 0, &answer) == status && answer.status == status, "count", where);
    check(status != IIM_BAD_HANDLE || ticket[0] == 7, "buffer", where);
}

/* Replaces the unpacker by one that is restored from the ticket. */
static void restore(const char *where) {
    iim_answer answer;
    iim_unpacker_close(&both.unpacker);
    iim_unpacker_restore(DEFAULTS, &both.unpacker, both.tickets[both.which], both.ticket_len, both.at, &answer);
    check(answer.status == IIM_DONE, "restore", where);
}

/* Feeds a chunk to both sides. Returns the number of bytes used, or -1 after a rejection. */
static long feed_both(const uint8_t *piece, size_t count, const char *where) {
    static uint8_t text[2][PIECE];
    iim_answer by_ticket, by_handle;
    iim_feed(DEFAULTS, both.tickets[both.which], both.ticket_len, both.at, piece, count, text[0], count,
             both.tickets[1 - both.which], TICKET, &by_ticket);
    unsigned long before = requests;
    iim_unpacker_feed(&both.unpacker, piece, count, text[1], count, &by_handle);
    check(requests == before, "feed allocates nothing", where);
    check(is_same_result(&by_ticket, &by_handle), "result of feed", where);
    check(memcmp(text[0], text[1], by_ticket.written) == 0, "text", where);
    if (by_ticket.status != IIM_MORE && by_ticket.status != IIM_DONE)
        return -1;
    both.which = 1 - both.which;
    both.ticket_len = by_ticket.ticket;
    both.at = by_ticket.octet;
    compare_tickets(where);
    if (both.at % 5 == 0 || by_ticket.status == IIM_DONE)
        compare_readers(by_ticket.status == IIM_DONE, where);
    return by_ticket.status == IIM_DONE ? (long)by_ticket.used : (long)count;
}

/* Compares what the end of the input means. */
static void end_both(const char *where) {
    iim_answer by_ticket, by_handle;
    iim_end(DEFAULTS, both.tickets[both.which], both.ticket_len, both.at, &by_ticket);
    iim_unpacker_end(&both.unpacker, &by_handle);
    check(is_same_result(&by_ticket, &by_handle), "result of end", where);
}

/* After a rejection every call fails, until the next envelope begins. */
static void try_failed(const char *where) {
    uint8_t text[1], ticket[TICKET];
    iim_answer answer;
    iim_unpacker_feed(&both.unpacker, (const uint8_t *)"x", 1, text, 1, &answer);
    check(answer.status == IIM_REFUSED && answer.cause == 61, "feed after a rejection", where);
    iim_unpacker_end(&both.unpacker, &answer);
    check(answer.status == IIM_REFUSED && answer.cause == 61, "end after a rejection", where);
    iim_unpacker_save(&both.unpacker, ticket, sizeof ticket, &answer);
    check(answer.status == IIM_FAILED && answer.cause == 0, "save after a rejection", where);
    try_unread(&both.unpacker, IIM_FAILED, "readers after a rejection");
}

static void compare_file(const uint8_t *octets, size_t count, size_t size, const char *where) {
    size_t calls = 0;
    begin();
    for (size_t at = 0; at < count;) {
        size_t most = count - at < size ? count - at : size;
        long used = feed_both(octets + at, most, where);
        if (used < 0) {
            try_failed(where);
            begin();
            return;
        }
        at += (size_t)used;
        end_both(where);
        if (++calls % 7 == 0)
            restore(where);
        iim_answer answer;
        iim_unpacker_end(&both.unpacker, &answer);
        if (answer.status == IIM_DONE)
            begin();
    }
}

/* ---- Handles that are closed, and memory */

static void try_closed(iim_unpacker *closed, const char *where) {
    uint8_t octets[2] = {7, 7};
    iim_answer answer;
    check(!closed->is_open && closed->state == NULL, "members of a closed one", where);
    iim_unpacker_feed(closed, octets, 1, octets + 1, 1, &answer);
    check(answer.status == IIM_BAD_HANDLE && octets[1] == 7, "feed", where);
    iim_unpacker_end(closed, &answer);
    check(answer.status == IIM_BAD_HANDLE, "end", where);
    iim_unpacker_save(closed, octets, 2, &answer);
    check(answer.status == IIM_BAD_HANDLE && octets[0] == 7, "save", where);
    check(iim_unpacker_reset(closed) == IIM_BAD_HANDLE, "reset", where);
    try_unread(closed, IIM_BAD_HANDLE, where);
    iim_unpacker_close(closed);
    iim_unpacker_close(closed);
}

static void try_memory(void) {
    iim_unpacker unpacker = IIM_UNPACKER_INIT;
    iim_answer answer;
    uint8_t text[4] = {9, 9, 9, 9};
    refuses = true;
    check(iim_unpacker_open(DEFAULTS, &unpacker) == IIM_NO_MEMORY, "open", "without memory");
    try_closed(&unpacker, "without memory");
    refuses = false;
    check(iim_unpacker_open(DEFAULTS, &unpacker) == IIM_DONE, "open", "with memory");
    check(iim_unpacker_open(DEFAULTS, &unpacker) == IIM_BAD_HANDLE, "open twice", "with memory");
    refuses = true;
    iim_unpacker_feed(&unpacker, (const uint8_t *)"\x1c\x01", 2, text, 2, &answer);
    check(answer.status == IIM_MORE && answer.octet == 2, "feed", "while malloc fails");
    iim_unpacker_feed(&unpacker, (const uint8_t *)"\0\0\0\0", 4, text, 3, &answer);
    check(answer.status == IIM_SHORT && answer.written == 4 && text[0] == 9, "short text", "while malloc fails");
    uint8_t ticket[TICKET];
    iim_unpacker_save(&unpacker, ticket, sizeof ticket, &answer);
    check(answer.status == IIM_DONE && answer.octet == 2, "save", "while malloc fails");
    size_t ticket_len = answer.ticket;
    check(iim_unpacker_count(&unpacker, 1, 0, &answer) == IIM_MORE, "count", "while malloc fails");
    check(iim_unpacker_fields(&unpacker, ticket, sizeof ticket, NULL, 0, &answer) == IIM_OK && answer.written == 0,
          "fields", "while malloc fails");
    check(iim_unpacker_reset(&unpacker) == IIM_DONE, "reset", "while malloc fails");
    iim_unpacker_restore(DEFAULTS, &unpacker, ticket, ticket_len, 2, &answer);
    check(answer.status == IIM_BAD_HANDLE, "restore an open one", "while malloc fails");
    iim_unpacker_close(&unpacker);
    iim_unpacker_restore(DEFAULTS, &unpacker, ticket, ticket_len, 2, &answer);
    check(answer.status == IIM_NO_MEMORY && !unpacker.is_open, "restore", "while malloc fails");
    refuses = false;
    iim_unpacker_restore(DEFAULTS, &unpacker, ticket, ticket_len - 1, 2, &answer);
    check(answer.status == IIM_BAD_TICKET && answer.cause == 100 && !unpacker.is_open, "restore a bad ticket", "memory");
    iim_unpacker_restore(DEFAULTS, &unpacker, ticket, ticket_len, 2, &answer);
    check(answer.status == IIM_DONE && unpacker.is_open, "restore", "memory");
    iim_unpacker_end(&unpacker, &answer);
    check(answer.status == IIM_TRUNCATED && answer.octet == 2, "end", "memory");
    iim_unpacker_close(&unpacker);
    try_closed(&unpacker, "after close");
}

static size_t read_file(const char *path, uint8_t **octets) {
    FILE *file = fopen(path, "rb");
    if (file == NULL || fseek(file, 0, SEEK_END) != 0) {
        perror(path);
        exit(3);
    }
    long count = ftell(file);
    rewind(file);
    *octets = malloc((size_t)count + 1);
    if (*octets == NULL || fread(*octets, 1, (size_t)count, file) != (size_t)count)
        exit(3);
    fclose(file);
    return (size_t)count;
}

int main(int count, char **paths) {
    static const size_t sizes[] = {1, 2, 3, 7, 64, 130, PIECE};
    try_memory();
    check(iim_unpacker_open(DEFAULTS, &both.unpacker) == IIM_DONE, "open", "main");
    for (int i = 1; i < count; i++) {
        uint8_t *octets;
        size_t len = read_file(paths[i], &octets);
        for (size_t j = 0; j < sizeof sizes / sizeof sizes[0]; j++)
            compare_file(octets, len, sizes[j], paths[i]);
        free(octets);
    }
    iim_unpacker_close(&both.unpacker);
    printf("%lu passed, %lu failed\n", passed, failed);
    return failed != 0;
}
