/*
 * The C half of bindings/test: calls every function of iim.h.
 *
 *   test check OCTETS FIELDS     results of iim_check for the batches on standard input, see below
 *   test feed OCTETS FIELDS      the same with iim_feed, byte by byte, and iim_end
 *   test streams FIRST LAST FILE   what `iimwire` prints for FILE, by chunks of each size from
 *                                FIRST to LAST bytes, see below
 *   test pack S U H M FILE       what `iimwire pack` writes, with these members of an iim_packing
 *   test places FILE             results of iim_place and iim_next after each prefix of FILE, which
 *                                is an envelope
 *   test audit FIRST LAST ROOM SECOND FILE   the rows of FILE at the instant SECOND, by chunks of
 *                                these sizes, with capacity for ROOM rows
 *   test texts                   the causes, each with its meaning
 *   test admits                  results of iim_admits for batches: record, number and bytes
 *   test tables                  rows and names by their numbers
 *   test values FILE SCRIPT      results of each kind, as numbers: FILE is the smallest envelope,
 *                                SCRIPT its script
 *   test buffers FILE ..         tries buffers that are too short, invalid tickets and failed
 *                                allocations
 *
 * A batch is a count of four bytes, low byte first, and that many bytes. `streams` prints a line
 * for each size, with the size, the status and the number of bytes that `check`, `show` and `story`
 * print, and then these bytes. `audit` prints RS and the size after the rows of each size; the
 * status is that of every size, or 3 if they differ.
 *
 * Compiled with GUARDED, each buffer that is passed to the library lies between pages that must not
 * be accessed (guard.h): before the page after it or, with GUARD_BEFORE in the environment, after
 * the page before it.
 */

#include "test.h"

static int passed, failed;

void expect(bool holds, const char *what) {
    if (holds) {
        passed++;
    } else {
        failed++;
        printf("FAILED %s\n", what);
    }
}

bool is_all(const uint8_t *octets, size_t count, uint8_t octet) {
    for (size_t i = 0; i < count; i++)
        if (octets[i] != octet)
            return false;
    return true;
}

/* Checks whether the answer has this status and this cause, and 0 in every other member that is not
 * skipped. */
bool is_plain(const iim_answer *a, uint8_t status, uint8_t cause) {
    return a->status == status && a->cause == cause && a->layer == 0 && a->rec == 0 && a->set == 0 && a->octet == 0 && a->used == 0;
}

static int try_buffers(char **words) {
    octets smallest = file_of(words[0]), story = file_of(words[1]), script = file_of(words[2]), packed = file_of(words[3]), release = file_of(words[4]);
    for (size_t first = 0; first < story.count; first++)
        try_short_buffers(story, first);
    for (size_t first = 0; first < smallest.count; first++)
        try_short_buffers(smallest, first);
    try_short_refusal(story);
    try_tickets(smallest);
    try_tickets(story);
    try_places(smallest);
    try_places(story);
    try_audit_rooms(smallest, story);
    try_audit_answers(smallest);
    try_audit_copies(release);
    try_audit_memory(story);
    try_memory(story);
    try_great_limits(story);
    try_names();
    try_sentences();
    try_error_texts();
    try_statuses();
    try_greatest_ticket();
    try_default_limits(smallest);
    try_fields(smallest);
    try_fields(story);
    try_known_fields(smallest);
    try_time(smallest);
    for (size_t first = 0; first <= story.count; first++)
        try_requests_at(story, first);
    try_packing(script, packed);
    free(smallest.octets), free(story.octets), free(script.octets), free(packed.octets), free(release.octets);
    printf("%d passed, %d failed\n", passed, failed);
    return failed > 0;
}

int main(int count, char **words) {
    guard_buffers();
    if (count == 4 && strcmp(words[1], "check") == 0)
        return check_batches((iim_limits){(uint32_t)atol(words[2]), (uint32_t)atol(words[3])});
    if (count == 4 && strcmp(words[1], "feed") == 0)
        return feed_batches((iim_limits){(uint32_t)atol(words[2]), (uint32_t)atol(words[3])});
    if (count == 5 && strcmp(words[1], "streams") == 0)
        return streams((size_t)atol(words[2]), (size_t)atol(words[3]), words[4]);
    if (count == 7 && strcmp(words[1], "pack") == 0)
        return pack(words + 2);
    if (count == 3 && strcmp(words[1], "places") == 0)
        return print_places(words[2]);
    if (count == 7 && strcmp(words[1], "audit") == 0)
        return print_audits((size_t)atol(words[2]), (size_t)atol(words[3]), words + 4);
    if (count == 2 && strcmp(words[1], "texts") == 0)
        return print_texts();
    if (count == 2 && strcmp(words[1], "admits") == 0)
        return admit_batches();
    if (count == 2 && strcmp(words[1], "tables") == 0)
        return print_tables();
    if (count == 4 && strcmp(words[1], "values") == 0)
        return tell_values(words + 2);
    if (count == 7 && strcmp(words[1], "buffers") == 0)
        return try_buffers(words + 2);
    return 2;
}
