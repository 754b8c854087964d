/*
 * Writes test cases for the target `ticket`: the tickets after some prefixes of envelopes, each with a piece that continues it.
 *
 *   seeds FOLDER FILE..
 */
#include "../../bindings/c/iim.h"

#include <stdio.h>
#include <stdlib.h>

enum { TICKET = 65536 + 6 * 512 + 256, PIECE = 8 };

static uint8_t file[1 << 16], text[1 << 16], ticket[TICKET];

/* Writes the ticket after some octets, the octets that follow, their number and a seed. */
static void write_seed(const char *folder, int number, size_t at, size_t count) {
    iim_answer a;
    iim_feed((iim_limits){0, 0}, NULL, 0, 0, file, at, text, sizeof text, ticket, TICKET, &a);
    if (a.status != IIM_MORE && a.status != IIM_DONE)
        return;
    char path[4096];
    snprintf(path, sizeof path, "%s/%d_%zu", folder, number, at);
    FILE *to = fopen(path, "wb");
    if (to == NULL)
        exit(3);
    size_t piece = count - at < PIECE ? count - at : PIECE;
    fwrite(ticket, 1, a.ticket, to);
    fwrite(file + at, 1, piece, to);
    fputc((int)piece, to);
    fputc(number & 255, to), fputc((int)at & 255, to);
    fclose(to);
}

int main(int count, char **words) {
    for (int i = 2; i < count; i++) {
        FILE *from = fopen(words[i], "rb");
        if (from == NULL)
            return 3;
        size_t size = fread(file, 1, sizeof file, from);
        fclose(from);
        for (size_t at = 1; at <= size; at += 1 + size / 24)
            write_seed(words[1], i, at, size);
        write_seed(words[1], i, size, size);
    }
    return 0;
}
