/*
 * Feeds a file to iim_feed of the library for C in pieces of 4,096 octets, as
 * bindings/c/headline.c does, and prints what `iimwire check` prints of it.
 *
 *   feed check FILE
 */
#include "iim.h"

#include <inttypes.h>
#include <stdio.h>

enum { PIECE = 4096, TICKET = 65536 + 6 * 512 + 256 };

static uint8_t piece[PIECE], text[PIECE], tickets[2][TICKET];

/* The place between two calls: the ticket of a begun envelope, which stands in one of two buffers, and what came before. */
static struct {
    int now;
    size_t ticket;
    uint64_t at, number;
} place = {0, 0, 0, 1};

static const iim_limits LIMITS = {0, 0};

/* Prints why octets are refused. */
static int refuse(const iim_answer *answer) {
    char layer[64], cause[64];
    iim_layer_name(answer->layer, layer, sizeof layer);
    iim_cause_name(answer->cause, cause, sizeof cause);
    printf("%" PRIu64 " refused at octet %" PRIu64 " by layer %s on %d:%02d, cause %d %s\n", place.number, answer->octet, layer, answer->rec,
           answer->set, answer->cause, cause);
    return 1;
}

/* Feeds a piece, which may have the ends of many envelopes. */
static int feed(size_t count) {
    iim_answer answer;
    for (size_t used = 0; used < count; used += answer.used) {
        iim_feed(LIMITS, tickets[place.now], place.ticket, place.at, piece + used, count - used, text, sizeof text, tickets[!place.now], TICKET,
                 &answer);
        place.now = !place.now;
        place.ticket = answer.ticket;
        place.at = answer.octet;
        if (answer.status == IIM_DONE) {
            printf("%" PRIu64 " accepted %" PRIu64 " octets\n", place.number, place.at);
            place.number++;
            place.ticket = 0;
            place.at = 0;
        } else if (answer.status == IIM_REFUSED) {
            return refuse(&answer);
        } else if (answer.status != IIM_MORE) {
            fprintf(stderr, "status %d\n", answer.status);
            return 3;
        }
    }
    return 0;
}

int main(int words, char **word) {
    FILE *file = words == 3 ? fopen(word[2], "rb") : NULL;
    if (file == NULL) {
        fprintf(stderr, "usage: feed check FILE\n");
        return 2;
    }
    int status = 0;
    for (size_t count; status == 0 && (count = fread(piece, 1, sizeof piece, file)) > 0;)
        status = feed(count);
    if (status == 0 && place.at > 0) {
        iim_answer answer;
        iim_end(LIMITS, tickets[place.now], place.ticket, place.at, &answer);
        status = refuse(&answer);
    }
    fclose(file);
    return status;
}
