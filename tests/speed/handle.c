/*
 * Feeds a file to an iim_unpacker in chunks of N bytes, and prints what `iimwire check` prints of it.
 *
 *   handle N FILE
 */
#include "iim.h"

#include <stdio.h>
#include <stdlib.h>

enum { MOST = 65536 };

static uint8_t chunk[MOST], text[MOST];

/* The unpacker, the number of the envelope that it reads, and the bytes that it has of it. */
static iim_unpacker unpacker = IIM_UNPACKER_INIT;
static uint64_t number = 1, octets;

/* Prints a number and a text. (printf would take a fifth of the instructions for small envelopes.) */
static void print(uint64_t printed, const char *after) {
    char digits[20];
    size_t at = sizeof digits;
    do
        digits[--at] = (char)('0' + printed % 10);
    while ((printed /= 10) > 0);
    fwrite(digits + at, 1, sizeof digits - at, stdout);
    fputs(after, stdout);
}

/* Prints why an envelope is rejected, and returns the status of the program. */
static int refuse(const iim_answer *answer) {
    char line[128];
    iim_error_text(number, answer, line, sizeof line);
    printf("%s\n", line);
    return 1;
}

/* Feeds a chunk, in which many envelopes can end. */
static int feed(size_t count) {
    iim_answer answer;
    for (size_t used = 0; used < count; used += answer.used) {
        iim_unpacker_feed(&unpacker, chunk + used, count - used, text, sizeof text, &answer);
        if (answer.status == IIM_DONE) {
            print(number, " accepted ");
            print(answer.octet, " octets\n");
            number++;
            octets = 0;
            iim_unpacker_reset(&unpacker);
        } else if (answer.status == IIM_MORE) {
            octets = answer.octet;
        } else {
            return refuse(&answer);
        }
    }
    return 0;
}

int main(int words, char **word) {
    FILE *file = words == 3 ? fopen(word[2], "rb") : NULL;
    size_t size = words == 3 ? (size_t)atol(word[1]) : 0;
    if (file == NULL || size == 0 || size > MOST) {
        fprintf(stderr, "usage: handle N FILE\n");
        return 2;
    }
    if (iim_unpacker_open((iim_limits){0, 0}, &unpacker) != IIM_OK)
        return 3;
    int status = 0;
    for (size_t count; status == 0 && (count = fread(chunk, 1, size, file)) > 0;)
        status = feed(count);
    if (status == 0 && octets > 0) {
        iim_answer answer;
        iim_unpacker_end(&unpacker, &answer);
        status = refuse(&answer);
    }
    iim_unpacker_close(&unpacker);
    fclose(file);
    return status;
}
