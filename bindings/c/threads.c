/*
 * Calls the library from several threads at once.
 *
 *   threads FILE            prints 'N passed, M failed'
 *   threads FILE unordered  reads by one unpacker in two threads that nothing orders: a fault, which
 *                           a tool that finds races must report
 *
 * Each thread has its own unpacker, buffers and answers. All of them read one file, and one script;
 * each must find what the first call found: the envelopes, the text, a headline, the rows, the
 * tickets, what can come next, and the packed form. One unpacker is also passed on from thread to
 * thread.
 */
#define _POSIX_C_SOURCE 200809L
#include "iim.h"
#include "races.h"

#include <pthread.h>
#include <stdio.h>
#include <stdlib.h>
#include <string.h>
#include <time.h>

enum { FILE_MOST = 65536, THREADS = 4, TURNS = 25, ROWS = 64 };

static uint8_t octets[FILE_MOST];
static size_t length;

static const iim_limits DEFAULTS = {0, 0};
static const iim_instant NOON = {1709294400, 0};

/* A script that every thread packs. */
static const char SCRIPT[] =
    "1:00 \\x00\\x04\n1:20 \\x00\\x02\n1:22 \\x00\\x01\n1:30 TST\n1:40 00000001\n1:70 20240301\n"
    "2:00 \\x00\\x04\n2:105 Rates held\nmessage TST 1 5 N 2\ntext\nRates held\n";

/* What was read so far, and by which handles. */
typedef struct {
    iim_unpacker unpacker;
    size_t from, to, envelopes, text;
    char headline[256];
    uint64_t sum;
    bool failed;
} reading;

/* ---- What a thread found, as one number */

static void add(reading *r, uint64_t number) { r->sum = (r->sum ^ number) * 1099511628211u; }

static void add_bytes(reading *r, const void *at, size_t count) {
    for (size_t i = 0; i < count; i++)
        add(r, ((const uint8_t *)at)[i]);
}

static void add_answer(reading *r, const iim_answer *a) {
    add(r, a->status), add(r, a->layer), add(r, a->cause), add(r, a->rec), add(r, a->set);
    add(r, a->octet), add(r, a->used), add(r, a->written), add(r, a->ticket);
}

static void add_row(reading *r, const iim_audit_row *row) {
    add(r, row->at), add(r, row->octets), add(r, row->size), add(r, row->subfiles), add(r, row->announced);
    add(r, row->counted), add(r, (uint64_t)row->age), add(r, row->copy);
    add_bytes(r, row->service, sizeof row->service);
    add_bytes(r, row->number, sizeof row->number);
}

/* ---- An unpacker */

/* Reads the bytes from `from` to `to` of the file. */
static void *read_part(void *argument) {
    reading *r = argument;
    uint8_t text[64];
    iim_answer answer;
    while (r->from < r->to && !r->failed) {
        size_t count = r->to - r->from < sizeof text ? r->to - r->from : sizeof text;
        reads(octets + r->from, count), writes(&r->unpacker, sizeof r->unpacker);
        iim_unpacker_feed(&r->unpacker, octets + r->from, count, text, sizeof text, &answer);
        r->text += answer.written;
        r->from += answer.used;
        if (answer.status == IIM_DONE) {
            r->envelopes++;
            writes(&r->unpacker, sizeof r->unpacker), writes(r->headline, sizeof r->headline);
            iim_unpacker_field(&r->unpacker, 2, 105, 0, (uint8_t *)r->headline, sizeof r->headline, &answer);
            iim_unpacker_reset(&r->unpacker);
        } else if (answer.status != IIM_MORE) {
            r->failed = true;
        }
    }
    return NULL;
}

/* ---- The calls without a handle */

/* Reads the first half of the file's first envelope by a ticket, and looks into the ticket. */
static void read_ticket(reading *r, size_t count) {
    iim_dataset datasets[64];
    iim_message message;
    iim_object object;
    iim_begun begun;
    iim_octet_set next;
    iim_answer answer, found;
    uint8_t *ticket = malloc(IIM_TICKET_SIZE), *text = malloc(count + 1);
    if (ticket == NULL || text == NULL)
        exit(3);
    reads(octets, count), writes(ticket, IIM_TICKET_SIZE), writes(text, count);
    iim_feed(DEFAULTS, NULL, 0, 0, octets, count, text, count, ticket, IIM_TICKET_SIZE, &answer);
    add_answer(r, &answer), add_bytes(r, ticket, answer.ticket);
    reads(ticket, answer.ticket);
    iim_fields(ticket, answer.ticket, 0, datasets, 64, &found), add_answer(r, &found);
    iim_field(ticket, answer.ticket, 0, datasets, &found), add(r, datasets[0].data.count);
    iim_header(ticket, answer.ticket, &message, &found), add(r, message.part);
    iim_sizes(ticket, answer.ticket, &object, &found), add(r, object.octets);
    iim_place(ticket, answer.ticket, answer.octet, &begun, &found), add(r, begun.first);
    iim_next(DEFAULTS, ticket, answer.ticket, &next, &found), add_bytes(r, next.bits, sizeof next.bits);
    iim_end(DEFAULTS, ticket, answer.ticket, answer.octet, &found), add_answer(r, &found);
    char line[128];
    add(r, iim_error_text(1, &found, line, sizeof line)), add_bytes(r, line, strlen(line));
    free(ticket), free(text);
}

static void read_tables(reading *r) {
    char name[128];
    iim_rule rule;
    add(r, iim_version());
    for (int n = 0; n < 256; n++) {
        add(r, iim_row(2, (uint8_t)n, &rule)), add(r, rule.max);
        add(r, iim_admits(2, (uint8_t)n, (const uint8_t *)"1", 1));
        add(r, iim_dataset_name(2, (uint8_t)n, name, sizeof name)), add(r, (uint64_t)name[0]);
        add(r, iim_cause_name((uint8_t)n, name, sizeof name)), add(r, (uint64_t)name[0]);
        add(r, iim_cause_text((uint8_t)n, name, sizeof name)), add(r, (uint64_t)name[0]);
        add(r, iim_layer_name((uint8_t)n, name, sizeof name));
    }
}

static void call_all(reading *r) {
    uint8_t packed[1024];
    iim_so_far so_far = {0};
    iim_audit_row rows[ROWS];
    iim_answer answer;
    reads(octets, length), reads(SCRIPT, sizeof SCRIPT);
    iim_check(DEFAULTS, octets, length, &answer), add_answer(r, &answer);
    r->failed |= answer.status != IIM_DONE;
    read_ticket(r, answer.used / 2);
    uint8_t *ticket = malloc(IIM_TICKET_SIZE);
    iim_audit(DEFAULTS, NULL, 0, &so_far, octets, length, NOON, rows, ROWS, ticket, IIM_TICKET_SIZE, &answer);
    add_answer(r, &answer), add(r, so_far.at);
    for (size_t n = 0; n < answer.written; n++)
        add_row(r, &rows[n]);
    free(ticket);
    iim_pack((iim_packing){0}, (const uint8_t *)SCRIPT, sizeof SCRIPT - 1, packed, sizeof packed, &answer);
    add_answer(r, &answer), add_bytes(r, packed, answer.written);
    r->failed |= answer.status != IIM_DONE;
    iim_pack_size((iim_packing){0}, (const uint8_t *)SCRIPT, sizeof SCRIPT - 1, &answer), add_answer(r, &answer);
    read_tables(r);
}

/* ---- Threads */

/* Opens an unpacker, reads the whole file several times, closes it, and calls all other functions. */
static void *read_all(void *argument) {
    reading *r = argument;
    for (int turn = 0; turn < TURNS && !r->failed; turn++) {
        *r = (reading){.unpacker = IIM_UNPACKER_INIT, .to = length};
        r->failed = iim_unpacker_open(DEFAULTS, &r->unpacker) != IIM_OK;
        read_part(r);
        iim_unpacker_close(&r->unpacker);
    }
    call_all(r);
    return NULL;
}

static bool is_same(const reading *one, const reading *other) {
    return !one->failed && one->envelopes == other->envelopes && one->text == other->text &&
           strcmp(one->headline, other->headline) == 0;
}

/* Reads the file by one unpacker, each part in a thread that begins when the last has ended. */
static void pass_on(reading *r) {
    *r = (reading){.unpacker = IIM_UNPACKER_INIT};
    r->failed = iim_unpacker_open(DEFAULTS, &r->unpacker) != IIM_OK;
    while (r->to < length && !r->failed) {
        pthread_t thread;
        r->to += length / 16 + 1 < length - r->to ? length / 16 + 1 : length - r->to;
        r->failed = pthread_create(&thread, NULL, read_part, r) != 0 || pthread_join(thread, NULL) != 0 || r->failed;
    }
    iim_unpacker_close(&r->unpacker);
}

/* Feeds a byte to an unpacker, the second of two threads later than the first, but not ordered. */
static void *feed_one(void *argument) {
    uint8_t text[1];
    iim_answer answer;
    iim_unpacker *unpacker = argument;
    writes(unpacker, sizeof *unpacker);
    iim_unpacker_feed(unpacker, octets, 1, text, sizeof text, &answer);
    return NULL;
}

static void *feed_one_later(void *argument) {
    nanosleep(&(struct timespec){0, 300 * 1000 * 1000}, NULL);
    return feed_one(argument);
}

static int race(void) {
    iim_unpacker unpacker = IIM_UNPACKER_INIT;
    pthread_t threads[2];
    if (iim_unpacker_open(DEFAULTS, &unpacker) != IIM_OK || pthread_create(&threads[0], NULL, feed_one, &unpacker) != 0 ||
        pthread_create(&threads[1], NULL, feed_one_later, &unpacker) != 0)
        return 3;
    pthread_join(threads[0], NULL), pthread_join(threads[1], NULL);
    iim_unpacker_close(&unpacker);
    return 0;
}

int main(int count, char **words) {
    FILE *file = count >= 2 ? fopen(words[1], "rb") : NULL;
    if (file == NULL)
        return 2;
    length = fread(octets, 1, sizeof octets, file);
    fclose(file);
    if (count == 3)
        return race();
    static reading alone, passed_on, each[THREADS];
    read_all(&alone);
    pass_on(&passed_on);
    pthread_t threads[THREADS];
    for (int n = 0; n < THREADS; n++)
        if (pthread_create(&threads[n], NULL, read_all, &each[n]) != 0)
            return 3;
    int passed = alone.envelopes > 0 && is_same(&passed_on, &alone);
    for (int n = 0; n < THREADS; n++) {
        pthread_join(threads[n], NULL);
        passed += is_same(&each[n], &alone) && each[n].sum == alone.sum;
    }
    printf("%d passed, %d failed\n", passed, THREADS + 1 - passed);
    return passed != THREADS + 1;
}
