/*
 * Packs envelopes from scripts, and sends them over TCP to each receiver that connects.
 *
 *   sender PORT SCRIPT ..
 *
 * A receiver sends the offset to continue at, as decimal digits and LF, and gets the envelopes, one
 * after another, from that byte on. With PORT 0 the system chooses the port, which is printed. The
 * program serves one receiver after another until a signal ends it.
 *
 * Exit status: 0, 1 if a script is rejected, 3 if a file, the connection or an allocation fails.
 */
#define _POSIX_C_SOURCE 200809L
#include "iim_strerror.h"

#include <arpa/inet.h>
#include <inttypes.h>
#include <signal.h>
#include <stdio.h>
#include <stdlib.h>
#include <string.h>
#include <unistd.h>

/* The greatest length of a script. */
enum { SCRIPT = 16777216 };

/* All envelopes. */
static uint8_t *stream;
static size_t length;

static void stop(int status, const char *what) {
    if (what != NULL)
        perror(what);
    exit(status);
}

/* Packs the envelope of a script, and appends it to the stream. */
static void append(const char *path, const uint8_t *script, size_t count) {
    iim_answer answer;
    iim_pack_size((iim_packing){0}, script, count, &answer);
    if (answer.status == IIM_REFUSED) {
        char cause[64];
        iim_cause_name(answer.cause, cause, sizeof cause);
        fprintf(stderr, "%s:%" PRIu64 ": cause %d %s\n", path, answer.octet, answer.cause, cause);
        stop(1, NULL);
    }
    uint8_t *longer = answer.status == IIM_OK ? realloc(stream, length + answer.written) : NULL;
    if (longer == NULL) {
        fprintf(stderr, "%s: %s\n", path, iim_strerror(answer.status == IIM_OK ? IIM_NO_MEMORY : answer.status));
        stop(3, NULL);
    }
    stream = longer;
    iim_pack((iim_packing){0}, script, count, stream + length, answer.written, &answer);
    length += answer.written;
}

static void read_script(const char *path) {
    uint8_t *script = malloc(SCRIPT + 1);
    FILE *file = fopen(path, "rb");
    if (script == NULL || file == NULL)
        stop(3, path);
    size_t count = fread(script, 1, SCRIPT + 1, file);
    if (ferror(file))
        stop(3, path);
    fclose(file);
    append(path, script, count);
    free(script);
}

/* Returns a socket that listens on the port of this machine, and prints the port. */
static int listen_on(const char *port) {
    struct sockaddr_in here = {.sin_family = AF_INET, .sin_port = htons((uint16_t)atoi(port))};
    here.sin_addr.s_addr = htonl(INADDR_LOOPBACK);
    socklen_t size = sizeof here;
    int door = socket(AF_INET, SOCK_STREAM, 0), yes = 1;
    if (door < 0 || setsockopt(door, SOL_SOCKET, SO_REUSEADDR, &yes, sizeof yes) != 0 ||
        bind(door, (struct sockaddr *)&here, sizeof here) != 0 || listen(door, 8) != 0 ||
        getsockname(door, (struct sockaddr *)&here, &size) != 0)
        stop(3, port);
    printf("%d\n", ntohs(here.sin_port));
    fflush(stdout);
    return door;
}

/* Sends the stream from the offset that the receiver asks for, or up to the moment when it is gone. */
static void serve(int receiver) {
    char line[32] = "";
    for (size_t got = 0; got < sizeof line - 1 && read(receiver, line + got, 1) == 1 && line[got] != '\n'; got++)
        ;
    char *end;
    uint64_t offset = strtoull(line, &end, 10);
    if (end == line || *end != '\n' || offset > length)
        return;
    while (offset < length) {
        ssize_t sent = write(receiver, stream + offset, length - offset);
        if (sent < 0)
            return;
        offset += (uint64_t)sent;
    }
}

int main(int count, char **words) {
    if (count < 3) {
        fprintf(stderr, "usage: sender PORT SCRIPT ..\n");
        return 2;
    }
    signal(SIGPIPE, SIG_IGN);
    for (int i = 2; i < count; i++)
        read_script(words[i]);
    int door = listen_on(words[1]);
    for (;;) {
        int receiver = accept(door, NULL, NULL);
        if (receiver < 0)
            stop(3, words[1]);
        serve(receiver);
        close(receiver);
    }
}
