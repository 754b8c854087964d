/*
 * What the parts of the program test.c share. Each part is described at the beginning of its file.
 */
#ifndef TEST_H
#define TEST_H

#define _DEFAULT_SOURCE
#include "iim.h"

#include <inttypes.h>
#include <stdio.h>
#include <stdlib.h>
#include <string.h>

enum { TICKET = IIM_TICKET_SIZE };

static const iim_limits DEFAULTS = {0, 0};

/* 12:00 on 2024-03-01, at offset zero. */
static const iim_instant NOON = {1709294400, 0};

/* ---- test.c */

void expect(bool holds, const char *what);
bool is_all(const uint8_t *octets, size_t count, uint8_t octet);
/* Checks whether the answer has this status and this cause, and 0 in every other member that is not
 * skipped. */
bool is_plain(const iim_answer *a, uint8_t status, uint8_t cause);

/* ---- test_memory.c */

/* Number of requests that are allowed before one fails; -1 if none fails. */
extern long allowed;

/* Number of requests since it was last set to 0. */
extern long requests;

/* Selects which end of the next buffers is next to a page that must not be accessed. */
void guard_buffers(void);

typedef struct {
    uint8_t *octets;
    size_t count;
} octets;

/* Bytes in a buffer of exactly their number: a sanitizer reports every read beyond its end. */
octets room_for(size_t count);
octets file_of(const char *path);
bool next_batch(octets *batch);
void print_answer(const iim_answer *a);
void print_refusal(FILE *to, long number, const iim_answer *a);

/* ---- test_streams.c */

typedef struct {
    uint8_t tickets[2][TICKET];
    int now;
    size_t ticket;
    uint64_t at;
    uint64_t text;
} receiver;

receiver *new_receiver(void);

/* Feeds a chunk, and writes its text to `to` unless that is null. Buffers have exactly the capacity
 * that they need. */
iim_answer feed(receiver *r, iim_limits limits, const uint8_t *piece, size_t count, FILE *to);
void print_shown(FILE *to, const uint8_t *octets, size_t count);

/* Reads a file by chunks of each size. */
int streams(size_t first, size_t last, const char *path);

/* Ends the output for chunks of a size, and returns the status of this size and those before it. */
int end_size(size_t piece, size_t first, int before, int status);
int check_batches(iim_limits limits);

/* Prints the same results for bytes that are fed one by one. The prefix that a batch has in common
 * with the one before it is not fed again: the calls would be the same. */
int feed_batches(iim_limits limits);
int admit_batches(void);

/* ---- test_values.c */

int print_tables(void);
int pack(char **words);
int tell_values(char **words);

/* Prints the meaning of each cause. */
int print_texts(void);

/* ---- test_tickets.c */

/* Each buffer is one byte too short: the answer has the length that is needed, and the same call
 * with that length returns the usual result. */
void try_short_buffers(octets file, size_t first);

/* Text before a rejected byte: if its buffer is too short, the text is not lost. */
void try_short_refusal(octets file);

/* The ticket of a complete envelope, bytes that are no ticket, and tickets of another version and
 * of a state that no envelope reaches. */
void try_tickets(octets file);

/* Prints a line about the state after each prefix of an envelope, with the set of accepted bytes in
 * hexadecimal. */
int print_places(const char *path);

/* States of invalid tickets, with other limits, and with failed allocations. */
void try_places(octets file);

/* ---- test_audits.c */

/* Prints the rows of a file by chunks of each size. */
int print_audits(size_t first, size_t last, char **words);

/* The two example envelopes one after the other, split inside the word "change" of the story, with
 * arrays that are too short. */
void try_audit_rooms(octets smallest, octets story);

/* A refusal after an envelope, a buffer too short for the ticket, invalid instants and invalid
 * tickets. */
void try_audit_answers(octets file);

/* The copy of an envelope that expires at 13:00, before and after that. */
void try_audit_copies(octets release);

/* Each allocation fails in turn: an audit of many envelopes makes as many allocations as one of a
 * few. */
void try_audit_memory(octets file);

/* ---- test_datasets.c */

/* Each allocation fails in turn: the call returns a status, and the same call then returns the
 * usual result. */
void try_memory(octets file);

/* The largest limits: the call allocates memory for them, and the results are the usual ones. */
void try_great_limits(octets file);

/* The default limits are 65,536 bytes and 512 datasets. */
void try_greatest_ticket(void);
void try_default_limits(octets smallest);

/* Reads all datasets in one call: from each ticket of an envelope, from each index, into arrays of
 * each length. */
void try_fields(octets file);

/* The datasets of the smallest envelope, as in docs/reference/format.md. */
void try_known_fields(octets smallest);

/* The least processor time of five calls that read a chunk, and of five that write all datasets of
 * its ticket. */
void try_time(octets smallest);

/* A call that continues an envelope allocates twice, for the bytes and the datasets that the limits
 * allow, whether or not its buffers are long enough. A call that only reads a ticket does not
 * allocate. */
void try_requests_at(octets file, size_t first);

/* ---- test_names.c */

/* Names in buffers of each length. */
void try_names(void);

/* Each cause has the meaning in docs/reference/causes.md, and no other number has one. */
void try_sentences(void);
void try_error_texts(void);
void try_statuses(void);

/* The script, packed into buffers that are too short and with failed allocations. */
void try_packing(octets script, octets packed);

#endif
