/*
 * The commands `streams`, `check`, `feed` and `admits`: input by chunks of each size, and
 * batches.
 */
#include "test.h"

receiver *new_receiver(void) {
    receiver *r = malloc(sizeof *r);
    if (r == NULL)
        exit(3);
    memset(r, 0, sizeof *r);
    return r;
}

/* Feeds a chunk, and writes its text to `to` unless that is null. Buffers have exactly the capacity
 * that they need. */
iim_answer feed(receiver *r, iim_limits limits, const uint8_t *piece, size_t count, FILE *to) {
    octets before = room_for(r->ticket), fed = room_for(count), text = room_for(count), told = room_for(sizeof(iim_answer));
    iim_answer answer;
    memcpy(before.octets, r->tickets[r->now], r->ticket);
    if (count > 0)
        memcpy(fed.octets, piece, count);
    memset(told.octets, 0xAA, told.count);
    iim_feed(limits, before.octets, before.count, r->at, fed.octets, fed.count, text.octets, text.count, r->tickets[!r->now],
             TICKET, (iim_answer *)(void *)told.octets);
    memcpy(&answer, told.octets, sizeof answer);
    if (answer.written > 0 && to != NULL)
        fwrite(text.octets, 1, answer.written, to);
    if (answer.status == IIM_MORE || answer.status == IIM_DONE) {
        r->now = !r->now;
        r->ticket = answer.ticket;
        r->at = answer.octet;
        r->text += answer.written;
    }
    free(before.octets);
    free(fed.octets);
    free(text.octets);
    free(told.octets);
    return answer;
}

void print_shown(FILE *to, const uint8_t *octets, size_t count) {
    for (size_t i = 0; i < count; i++) {
        if (octets[i] == '\\')
            fputs("\\\\", to);
        else if (octets[i] >= 0x20 && octets[i] <= 0x7E)
            putc(octets[i], to);
        else
            fprintf(to, "\\x%02X", octets[i]);
    }
}

static void print_span(FILE *to, const uint8_t *ticket, const char *before, iim_span span) {
    fputs(before, to);
    print_shown(to, ticket + span.offset, span.count);
}

static void print_number(FILE *to, bool has, uint64_t number) {
    if (has)
        fprintf(to, "%" PRIu64, number);
    else
        putc('-', to);
}

/* Prints what `iimwire show` prints for an envelope. */
static void print_envelope(FILE *to, const receiver *r, long number) {
    const uint8_t *ticket = r->tickets[r->now];
    iim_answer answer;
    iim_dataset datasets[512];
    iim_message m;
    iim_object o;
    fprintf(to, "envelope %ld\n", number);
    iim_fields(ticket, r->ticket, 0, datasets, 512, &answer);
    for (size_t n = 0; answer.status == IIM_DONE && n < answer.written; n++) {
        fprintf(to, "%d:%02d%s", datasets[n].rec, datasets[n].set, datasets[n].data.count > 0 ? " " : "");
        print_span(to, ticket, "", datasets[n].data);
        putc('\n', to);
    }
    iim_header(ticket, r->ticket, &m, &answer);
    print_span(to, ticket, "message ", m.source);
    print_span(to, ticket, " ", m.number);
    print_span(to, ticket, " ", m.priority);
    print_span(to, ticket, " ", m.category);
    print_span(to, ticket, " ", m.words);
    print_span(to, ticket, m.info.count > 0 ? " " : "", m.info);
    print_span(to, ticket, m.trailer.count > 0 ? "\ntrailer " : "\ntrailer", m.trailer);
    iim_sizes(ticket, r->ticket, &o, &answer);
    fprintf(to, "\nobject %" PRIu64 " octets, %" PRIu64 " subfiles, mode %" PRIu64 ", limit %" PRIu64 ", announced ", o.octets,
           o.subfiles, o.mode, o.subfile);
    print_number(to, o.has_announced, o.announced);
    fprintf(to, ", maximum ");
    print_number(to, o.has_maximum, o.maximum);
    putc('\n', to);
}

/* What the commands `check`, `show` and `story` print for a file on standard output. */
enum { CHECK, SHOW, STORY, KINDS };

/* Reads a file as the command does, and returns its status. */
static int stream(FILE *const *to, octets file, size_t piece) {
    receiver *r = new_receiver();
    long number = 1;
    size_t at = 0;
    iim_answer answer = {0};
    while (at < file.count) {
        size_t count = file.count - at < piece ? file.count - at : piece;
        answer = feed(r, DEFAULTS, file.octets + at, count, to[STORY]);
        if (answer.status == IIM_MORE) {
            at += count;
        } else if (answer.status == IIM_DONE) {
            at += answer.used;
            fprintf(to[CHECK], "%ld accepted %" PRIu64 " octets\n", number, answer.octet);
            print_envelope(to[SHOW], r, number);
            putc('\n', to[STORY]);
            number++;
            r->ticket = 0;
            r->at = 0;
        } else {
            break;
        }
    }
    if (answer.status == IIM_MORE)
        iim_end(DEFAULTS, r->tickets[r->now], r->ticket, r->at, &answer);
    for (int kind = CHECK; kind <= SHOW && (answer.status == IIM_REFUSED || answer.status == IIM_TRUNCATED); kind++)
        print_refusal(to[kind], number, &answer);
    free(r);
    return answer.status == IIM_DONE || file.count == 0 ? 0 : 1;
}

/* Reads a file by chunks of each size. */
int streams(size_t first, size_t last, const char *path) {
    octets file = file_of(path);
    for (size_t piece = first; piece <= last; piece++) {
        char *told[KINDS];
        size_t counts[KINDS];
        FILE *to[KINDS];
        for (int kind = 0; kind < KINDS; kind++) {
            if ((to[kind] = open_memstream(&told[kind], &counts[kind])) == NULL)
                exit(3);
        }
        int status = stream(to, file, piece);
        for (int kind = 0; kind < KINDS; kind++)
            fclose(to[kind]);
        printf("%zu %d %zu %zu %zu\n", piece, status, counts[CHECK], counts[SHOW], counts[STORY]);
        for (int kind = 0; kind < KINDS; kind++) {
            fwrite(told[kind], 1, counts[kind], stdout);
            free(told[kind]);
        }
    }
    free(file.octets);
    return 0;
}

/* Ends the output for chunks of a size, and returns the status of this size and those before it. */
int end_size(size_t piece, size_t first, int before, int status) {
    printf("\x1e%zu\n", piece);
    return piece == first || before == status ? status : 3;
}

/* ---- Batches */

int check_batches(iim_limits limits) {
    octets batch;
    while (next_batch(&batch)) {
        iim_answer answer;
        memset(&answer, 0xAA, sizeof answer);
        iim_check(limits, batch.octets, batch.count, &answer);
        print_answer(&answer);
        free(batch.octets);
    }
    return 0;
}

/* The state of a receiver after each prefix of a batch, and the number of prefixes. */
enum { FRONTS = 1024 };

typedef struct {
    octets ticket[FRONTS];
    uint64_t at[FRONTS];
    size_t count;
} fronts;

/* Stores the state of a receiver after the next byte. */
static void keep_front(fronts *kept, const receiver *r) {
    if (kept->count == FRONTS)
        return;
    octets ticket = room_for(r->ticket);
    memcpy(ticket.octets, r->tickets[r->now], r->ticket);
    kept->ticket[kept->count] = ticket;
    kept->at[kept->count++] = r->at;
}

/* Restores the state of a receiver after the longest common prefix of two batches, and returns the
 * length of that prefix. */
static size_t stand_after_same(receiver *r, fronts *kept, octets last, octets batch) {
    size_t same = 0;
    while (same < kept->count && same < batch.count && batch.octets[same] == last.octets[same])
        same++;
    while (kept->count > same)
        free(kept->ticket[--kept->count].octets);
    r->ticket = same > 0 ? kept->ticket[same - 1].count : 0;
    r->at = same > 0 ? kept->at[same - 1] : 0;
    if (same > 0)
        memcpy(r->tickets[r->now], kept->ticket[same - 1].octets, r->ticket);
    return same;
}

/* Prints the same results for bytes that are fed one by one. The prefix that a batch has in common
 * with the one before it is not fed again: the calls would be the same. */
int feed_batches(iim_limits limits) {
    octets last = room_for(0), batch;
    receiver *r = new_receiver();
    static fronts kept;
    while (next_batch(&batch)) {
        iim_answer answer = {0};
        size_t at = stand_after_same(r, &kept, last, batch);
        answer.status = IIM_MORE;
        while (at < batch.count && answer.status == IIM_MORE) {
            answer = feed(r, limits, batch.octets + at++, 1, NULL);
            if (answer.status == IIM_MORE)
                keep_front(&kept, r);
        }
        if (answer.status == IIM_MORE)
            iim_end(limits, r->tickets[r->now], r->ticket, r->at, &answer);
        answer.used = answer.status == IIM_DONE ? answer.octet : 0;
        answer.written = answer.ticket = 0;
        print_answer(&answer);
        free(last.octets);
        last = batch;
    }
    while (kept.count > 0)
        free(kept.ticket[--kept.count].octets);
    free(r), free(last.octets);
    return 0;
}

int admit_batches(void) {
    octets batch;
    while (next_batch(&batch)) {
        octets data = room_for(batch.count - 2);
        memcpy(data.octets, batch.octets + 2, data.count);
        printf("%d\n", iim_admits(batch.octets[0], batch.octets[1], data.octets, data.count));
        free(data.octets);
        free(batch.octets);
    }
    return 0;
}
