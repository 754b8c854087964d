/*
 * Prints the headline of the first envelope in a file.
 *
 *   cc -o headline bindings/c/headline.c bindings/out/libiim.a
 *   ./headline samples/story.iim
 *
 * The program reads the file in blocks. The state between two blocks is a ticket, in one of two
 * buffers: each call reads one of them and writes the other.
 */
#include "iim.h"

#include <inttypes.h>
#include <stdio.h>
#include <string.h>

enum { BLOCK = 4096, FIELDS = 512, TICKET = 65536 + 6 * FIELDS + 256 };

static uint8_t block[BLOCK];
static uint8_t text[BLOCK];
static uint8_t tickets[2][TICKET];
static iim_dataset datasets[FIELDS];

/* Prints why the input is rejected, as `iimwire check` does. */
static int refuse(const iim_answer *answer) {
    char layer[64], cause[64];
    iim_layer_name(answer->layer, layer, sizeof layer);
    iim_cause_name(answer->cause, cause, sizeof cause);
    fprintf(stderr, "refused at octet %" PRIu64 " by layer %s on %d:%02d, cause %d %s\n", answer->octet, layer,
            answer->rec, answer->set, answer->cause, cause);
    return 1;
}

/* Prints the first 2:105 of a ticket, or an error if the ticket has no 2:105. */
static int print_headline(const uint8_t *ticket, size_t len) {
    iim_answer answer;
    iim_fields(ticket, len, 0, datasets, FIELDS, &answer);
    for (size_t n = 0; n < answer.written; n++) {
        if (datasets[n].rec == 2 && datasets[n].set == 105) {
            fwrite(ticket + datasets[n].data.offset, 1, datasets[n].data.count, stdout);
            putchar('\n');
            return 0;
        }
    }
    fprintf(stderr, "the envelope has no headline\n");
    return 1;
}

/* Feeds a file until its first envelope is complete, and prints the headline. */
static int headline_of(FILE *file) {
    const iim_limits limits = {0, 0};
    iim_answer answer;
    uint64_t at = 0;
    size_t ticket = 0, count;
    int now = 0;
    while ((count = fread(block, 1, sizeof block, file)) > 0) {
        iim_feed(limits, tickets[now], ticket, at, block, count, text, sizeof text, tickets[!now], TICKET, &answer);
        now = !now;
        ticket = answer.ticket;
        at = answer.octet;
        if (answer.status == IIM_DONE)
            return print_headline(tickets[now], ticket);
        if (answer.status == IIM_REFUSED)
            return refuse(&answer);
        if (answer.status != IIM_MORE) {
            fprintf(stderr, "status %d\n", answer.status);
            return 1;
        }
    }
    if (ferror(file)) {
        perror("cannot read");
        return 2;
    }
    iim_end(limits, tickets[now], ticket, at, &answer);
    return refuse(&answer);
}

int main(int count, char **words) {
    if (count != 2) {
        fprintf(stderr, "usage: %s FILE\n", words[0]);
        return 2;
    }
    FILE *file = fopen(words[1], "rb");
    if (file == NULL) {
        perror(words[1]);
        return 2;
    }
    int status = headline_of(file);
    fclose(file);
    return status;
}
