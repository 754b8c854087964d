/*
 * The commands `tables`, `texts`, `pack` and `values`: rows, names, packed envelopes, and
 * results of each kind as numbers.
 */
#include "test.h"

int print_tables(void) {
    char name[64];
    for (int rec = 0; rec < 256; rec++) {
        for (int set = 0; set < 256; set++) {
            iim_rule rule;
            memset(&rule, 0xAA, sizeof rule);
            if (!iim_row((uint8_t)rec, (uint8_t)set, &rule))
                continue;
            iim_dataset_name((uint8_t)rec, (uint8_t)set, name, sizeof name);
            printf("row %d:%02d %" PRIu64 " %" PRIu64 " %d %d %d %s\n", rec, set, rule.min, rule.max, rule.kind, rule.duty,
                   rule.repeats, name);
        }
    }
    for (int number = 0; number < 256; number++) {
        if (iim_cause_name((uint8_t)number, name, sizeof name) > 0)
            printf("cause %d %s\n", number, name);
        if (iim_layer_name((uint8_t)number, name, sizeof name) > 0)
            printf("layer %d %s\n", number, name);
    }
    printf("version %" PRIu32 " %d\n", iim_version(), IIM_VERSION);
    return 0;
}

/* ---- Packing */

int pack(char **words) {
    iim_packing packing = {strtoull(words[0], NULL, 10), words[1][0] == '1', words[2][0] == '1', strtoull(words[3], NULL, 10)};
    octets script = file_of(words[4]);
    iim_answer size, answer;
    iim_pack_size(packing, script.octets, script.count, &size);
    octets out = room_for(size.status == IIM_DONE ? size.written : 0);
    iim_pack(packing, script.octets, script.count, out.octets, out.count, &answer);
    if (answer.status != size.status || answer.written != size.written || answer.octet != size.octet)
        return 9;
    if (answer.status == IIM_DONE) {
        fwrite(out.octets, 1, out.count, stdout);
    } else if (answer.status == IIM_REFUSED) {
        char cause[64];
        iim_cause_name(answer.cause, cause, sizeof cause);
        fprintf(stderr, "refused: script line %" PRIu64 " cause %d %s\n", answer.octet, answer.cause, cause);
    } else {
        fprintf(stderr, "status %d\n", answer.status);
    }
    free(out.octets);
    free(script.octets);
    return answer.status;
}

/* ---- Values */

static void tell(const char *what, const iim_answer *answer) {
    printf("%s ", what);
    print_answer(answer);
}

/* Prints results with the status IIM_DONE, IIM_MORE or IIM_SHORT. Leaves the ticket of the complete
 * envelope. */
static octets tell_progress(octets file) {
    octets ticket = room_for(TICKET), other = room_for(TICKET);
    iim_answer answer;
    iim_check(DEFAULTS, file.octets, file.count, &answer);
    tell("done", &answer);
    iim_feed(DEFAULTS, NULL, 0, 0, file.octets, 27, NULL, 0, other.octets, other.count, &answer);
    tell("more", &answer);
    iim_feed(DEFAULTS, NULL, 0, 0, file.octets, file.count, NULL, 0, NULL, 0, &answer);
    tell("short", &answer);
    iim_feed(DEFAULTS, NULL, 0, 0, file.octets, file.count, NULL, 0, ticket.octets, ticket.count, &answer);
    tell("fed", &answer);
    ticket.count = answer.ticket;
    iim_end(DEFAULTS, ticket.octets, ticket.count, file.count, &answer);
    tell("ended", &answer);
    free(other.octets);
    return ticket;
}

/* Prints results for invalid bytes, failed allocations and invalid packings. */
static void tell_refusals(octets file, octets script) {
    const iim_packing wrong = {0, false, true, 5}, plain = {0, false, false, 0};
    iim_answer answer;
    iim_check(DEFAULTS, (const uint8_t *)"A", 1, &answer);
    tell("refused", &answer);
    iim_check(DEFAULTS, file.octets, 27, &answer);
    tell("truncated", &answer);
    iim_check((iim_limits){1, 0}, file.octets, file.count, &answer);
    tell("octets", &answer);
    iim_check((iim_limits){0, 1}, file.octets, file.count, &answer);
    tell("datasets", &answer);
    allowed = 0;
    iim_check(DEFAULTS, file.octets, file.count, &answer);
    allowed = -1;
    tell("memory", &answer);
    iim_pack_size(wrong, script.octets, script.count, &answer);
    tell("packing", &answer);
    iim_pack_size(plain, script.octets, script.count, &answer);
    tell("size", &answer);
}

/* Prints results for invalid tickets, made from the ticket of the complete envelope. */
static void tell_tickets(octets ticket, uint64_t at) {
    iim_answer answer;
    iim_dataset d;
    iim_field(ticket.octets, ticket.count, 7, &d, &answer);
    tell("none", &answer);
    iim_end((iim_limits){1, 0}, ticket.octets, ticket.count, at, &answer);
    tell("ticket octets", &answer);
    iim_end((iim_limits){0, 1}, ticket.octets, ticket.count, at, &answer);
    tell("ticket datasets", &answer);
    iim_field(ticket.octets, ticket.count - 1, 0, &d, &answer);
    tell("ticket form", &answer);
    ticket.octets[4] = 9;
    iim_field(ticket.octets, ticket.count, 0, &d, &answer);
    tell("ticket version", &answer);
    ticket.octets[4] = 2;
    ticket.octets[5] = 7;
    iim_end(DEFAULTS, ticket.octets, ticket.count, at, &answer);
    tell("ticket impossible", &answer);
}

static void tell_row(uint8_t rec, uint8_t set) {
    iim_rule rule;
    iim_row(rec, set, &rule);
    printf("rule %d:%02d %" PRIu64 " %" PRIu64 " %d %d %d\n", rec, set, rule.min, rule.max, rule.kind, rule.duty, rule.repeats);
}

int tell_values(char **words) {
    octets file = file_of(words[0]), script = file_of(words[1]), ticket = tell_progress(file);
    tell_refusals(file, script);
    tell_tickets(ticket, file.count);
    tell_row(1, 70);
    tell_row(2, 55);
    tell_row(2, 105);
    tell_row(7, 90);
    free(file.octets), free(script.octets), free(ticket.octets);
    return 0;
}

/* Prints the meaning of each cause. */
int print_texts(void) {
    char text[128];
    for (int cause = 0; cause < 256; cause++) {
        size_t count = iim_cause_text((uint8_t)cause, text, sizeof text);
        if (count > 0)
            printf("%d %zu %s\n", cause, count, text);
    }
    return 0;
}
