/*
 * Receives envelopes over TCP, and appends the text of each to a file.
 *
 *   receiver ADDRESS PORT OUTPUT STATE
 *
 * Sends the offset to continue at, as decimal digits and LF, and then reads the stream from there.
 * The state of the unpacker is saved in the file STATE after each chunk, beside the length that
 * OUTPUT then has. So the program can be killed at any moment: started again, it continues at the
 * byte after the last saved chunk, and the output is the same.
 *
 * Exit status: 0 at the end of an envelope, 1 if a byte is rejected or the stream ends inside an
 * envelope, 3 if a file, the connection or an allocation fails.
 */
#define _POSIX_C_SOURCE 200809L
#include "iim_strerror.h"

#include <arpa/inet.h>
#include <fcntl.h>
#include <inttypes.h>
#include <stdio.h>
#include <stdlib.h>
#include <string.h>
#include <unistd.h>

/* Where a receiver is: it has consumed `offset` bytes of the stream, of which the last `at` belong to
 * envelope `number`, and OUTPUT has `written` bytes of text. */
typedef struct {
    uint64_t offset, at, number, written;
} position;

static void stop(int status, const char *what) {
    if (what != NULL)
        perror(what);
    exit(status);
}

static void write_all(int file, const void *octets, size_t count, const char *what) {
    for (const char *rest = octets; count > 0;) {
        ssize_t done = write(file, rest, count);
        if (done < 0)
            stop(3, what);
        rest += done;
        count -= (size_t)done;
    }
}

/* Replaces the file by one with the position and the ticket: a reader finds the old one or the new. */
static void save(iim_unpacker *unpacker, const char *path, const position *now) {
    static uint8_t ticket[IIM_TICKET_SIZE];
    char beside[4096];
    iim_answer answer;
    iim_unpacker_save(unpacker, ticket, sizeof ticket, &answer);
    if (answer.status != IIM_OK || snprintf(beside, sizeof beside, "%s.new", path) >= (int)sizeof beside)
        stop(3, iim_strerror(answer.status));
    int file = open(beside, O_WRONLY | O_CREAT | O_TRUNC, 0666);
    if (file < 0)
        stop(3, beside);
    write_all(file, now, sizeof *now, beside);
    write_all(file, ticket, answer.ticket, beside);
    if (fsync(file) != 0 || close(file) != 0 || rename(beside, path) != 0)
        stop(3, path);
}

/* Opens the unpacker in the saved state, or at the beginning of the stream if there is no file. */
static position restore(iim_unpacker *unpacker, const char *path) {
    static uint8_t ticket[IIM_TICKET_SIZE];
    position saved = {.number = 1};
    iim_answer answer = {.status = IIM_OK};
    FILE *file = fopen(path, "rb");
    if (file == NULL) {
        answer.status = iim_unpacker_open((iim_limits){0, 0}, unpacker);
    } else {
        size_t head = fread(&saved, 1, sizeof saved, file), count = fread(ticket, 1, sizeof ticket, file);
        if (head == sizeof saved)
            iim_unpacker_restore((iim_limits){0, 0}, unpacker, ticket, count, saved.at, &answer);
        else
            answer.status = IIM_BAD_TICKET;
        fclose(file);
    }
    if (answer.status != IIM_OK) {
        fprintf(stderr, "%s: %s\n", path, iim_strerror(answer.status));
        stop(3, NULL);
    }
    return saved;
}

/* Connects, and asks for the stream from the offset on. */
static int connect_at(const char *address, const char *port, uint64_t offset) {
    struct sockaddr_in to = {.sin_family = AF_INET, .sin_port = htons((uint16_t)atoi(port))};
    int stream = socket(AF_INET, SOCK_STREAM, 0);
    if (inet_pton(AF_INET, address, &to.sin_addr) != 1 || stream < 0 ||
        connect(stream, (struct sockaddr *)&to, sizeof to) != 0)
        stop(3, address);
    char line[32];
    write_all(stream, line, (size_t)snprintf(line, sizeof line, "%" PRIu64 "\n", offset), address);
    return stream;
}

/* Feeds a chunk: its text goes to the output, and the position moves past it. */
static void receive(iim_unpacker *unpacker, const uint8_t *chunk, size_t count, int output, position *now) {
    static uint8_t text[4096];
    char line[128];
    iim_answer answer;
    for (size_t used = 0; used < count; used += answer.used) {
        iim_unpacker_feed(unpacker, chunk + used, count - used, text, sizeof text, &answer);
        write_all(output, text, answer.written, "output");
        now->written += answer.written;
        if (answer.status == IIM_REFUSED) {
            iim_error_text(now->number, &answer, line, sizeof line);
            fprintf(stderr, "%s\n", line);
            stop(1, NULL);
        }
        now->offset += answer.used;
        now->at = answer.octet;
        if (answer.status == IIM_DONE) {
            write_all(output, "\n", 1, "output");
            now->written += 1;
            now->number += 1;
            now->at = 0;
            iim_unpacker_reset(unpacker);
        }
    }
}

int main(int count, char **words) {
    if (count != 5) {
        fprintf(stderr, "usage: receiver ADDRESS PORT OUTPUT STATE\n");
        return 2;
    }
    static uint8_t chunk[4096];
    iim_unpacker unpacker = IIM_UNPACKER_INIT;
    position now = restore(&unpacker, words[4]);
    int output = open(words[3], O_WRONLY | O_CREAT, 0666);
    /* What a killed receiver wrote after its last save is received again. */
    if (output < 0 || ftruncate(output, (off_t)now.written) != 0 || lseek(output, 0, SEEK_END) < 0)
        stop(3, words[3]);
    int stream = connect_at(words[1], words[2], now.offset);
    ssize_t got;
    while ((got = read(stream, chunk, sizeof chunk)) > 0) {
        receive(&unpacker, chunk, (size_t)got, output, &now);
        if (fsync(output) != 0)
            stop(3, words[3]);
        save(&unpacker, words[4], &now);
    }
    if (got < 0)
        stop(3, words[1]);
    iim_unpacker_close(&unpacker);
    if (now.at > 0)
        fprintf(stderr, "the stream ends inside envelope %" PRIu64 "\n", now.number);
    return now.at > 0;
}
