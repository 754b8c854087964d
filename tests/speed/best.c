/*
 * How fast a reader of envelopes can be: a streaming program that is written for speed alone, with
 * the rules of docs/reference/format.md. The command is compared with it.
 *
 *   best check FILE
 *   best story FILE
 *
 * For accepted envelopes it prints what the command prints. For a rejected envelope it prints only
 * the number, so that no rule has to know its place. Like the command it uses the same memory for
 * any input, and flushes what it has read before a read that may wait.
 *
 * Compile it with -O2 -march=x86-64-v2, the instruction set of the command.
 */
#include <fcntl.h>
#include <immintrin.h>
#include <stdint.h>
#include <stdio.h>
#include <stdlib.h>
#include <string.h>
#include <unistd.h>

#define INLINE static inline __attribute__((always_inline))
#define likely(x) __builtin_expect(!!(x), 1)
#define unlikely(x) __builtin_expect(!!(x), 0)

/* BLOCK octets are read at a time. PADDING octets behind them can be loaded, and are not used. */
enum { BLOCK = 1 << 17, PADDING = 4096, OUTPUT = 1 << 16, SPARE = 256 };
enum { MOST_OCTETS = 1 << 16, MOST_FIELDS = 512 };

/* --- Input and output --- */

/* The octets that are not consumed yet are those from `at` to `end`. */
static struct {
    int from;
    size_t at, end;
    uint8_t *octets;
} input;

struct output {
    int to;
    size_t used;
    uint8_t octets[OUTPUT];
};

/* The lines about envelopes, and the texts. Of `check` only the lines are written. */
static struct output lines, texts;

static void flush(struct output *out) {
    for (size_t at = 0; at < out->used;) {
        ssize_t written = write(out->to, out->octets + at, out->used - at);
        if (written <= 0)
            exit(3);
        at += (size_t)written;
    }
    out->used = 0;
}

/* Makes at least SPARE octets of space. */
INLINE void make_space(struct output *out) {
    if (unlikely(out->used > OUTPUT - SPARE))
        flush(out);
}

/* Reads more octets behind those that are not consumed, if there are any. */
static int refill(void) {
    input.end -= input.at;
    memmove(input.octets, input.octets + input.at, input.end);
    input.at = 0;
    flush(&texts);
    flush(&lines);
    ssize_t count = read(input.from, input.octets + input.end, BLOCK - input.end);
    if (count <= 0)
        return 0;
    input.end += (size_t)count;
    return 1;
}

/* Reads until the next N octets are there. N is far less than BLOCK. */
INLINE int has(size_t n) {
    while (unlikely(input.end - input.at < n))
        if (!refill())
            return 0;
    return 1;
}

/* --- Values --- */

enum kind { OCTETS, GRAPHIC, SPACED, SPACED_LINES, LETTERS, DIGITS, DATE, PART_DATE, TIME, FORMAT };

/* A dataset of record 1 or 2: its kind, how many octets it can have, whether it can be repeated. */
struct row {
    uint8_t kind, repeats;
    uint16_t least;
    uint32_t most;
};

static struct row rows[3][256];

/* Returns a bit for each of sixteen octets that is not of the kind. */
INLINE unsigned invalid16(int kind, const uint8_t *p) {
    __m128i v = _mm_loadu_si128((const void *)p);
    if (kind == DIGITS || kind == LETTERS) {
        if (kind == LETTERS)
            v = _mm_or_si128(v, _mm_set1_epi8(32));
        v = _mm_sub_epi8(v, _mm_set1_epi8(kind == DIGITS ? '0' : 'a'));
        __m128i most = _mm_set1_epi8(kind == DIGITS ? 9 : 25);
        return ~(unsigned)_mm_movemask_epi8(_mm_cmpeq_epi8(_mm_min_epu8(v, most), v));
    }
    __m128i least = _mm_set1_epi8(kind == GRAPHIC ? 0x21 : 0x20);
    __m128i valid = _mm_cmpeq_epi8(_mm_max_epu8(v, least), v);
    if (kind == SPACED_LINES) {
        valid = _mm_or_si128(valid, _mm_cmpeq_epi8(v, _mm_set1_epi8('\n')));
        valid = _mm_or_si128(valid, _mm_cmpeq_epi8(v, _mm_set1_epi8('\r')));
    }
    __m128i erased = _mm_cmpeq_epi8(v, _mm_set1_epi8(0x7f));
    return ~(unsigned)_mm_movemask_epi8(_mm_andnot_si128(erased, valid));
}

/* Returns whether N octets are of the kind. Up to 16 octets behind them are loaded, too. */
INLINE int all(int kind, const uint8_t *p, size_t n) {
    for (; unlikely(n > 16); p += 16, n -= 16)
        if (invalid16(kind, p) & 0xffff)
            return 0;
    return !(invalid16(kind, p) & ((1u << n) - 1));
}

/* Returns the number that N digits encode. */
INLINE unsigned decimal(const uint8_t *p, int n) {
    unsigned value = 0;
    while (n-- > 0)
        value = value * 10 + *p++ - '0';
    return value;
}

static unsigned days_of(unsigned year, unsigned month) {
    if (month == 2)
        return year % 4 == 0 && (year % 100 != 0 || year % 400 == 0) ? 29 : 28;
    return month == 4 || month == 6 || month == 9 || month == 11 ? 30 : 31;
}

/* Returns whether eight octets are a date, or a date whose day or month can be unknown. */
static int is_date(const uint8_t *p, int is_part) {
    if (!all(DIGITS, p, 8))
        return 0;
    unsigned year = decimal(p, 4), month = decimal(p + 4, 2), day = decimal(p + 6, 2);
    if (year == 0 || month > 12 || (!is_part && (month == 0 || day == 0)))
        return 0;
    return day <= 28 || (month == 0 ? day <= 31 : day <= days_of(year, month));
}

static int is_time(const uint8_t *p) {
    return (p[6] == '+' || p[6] == '-') && all(DIGITS, p, 6) && all(DIGITS, p + 7, 4) &&
           decimal(p, 2) < 24 && decimal(p + 2, 2) < 60 && decimal(p + 4, 2) < 60 &&
           decimal(p + 7, 2) < 24 && decimal(p + 9, 2) < 60;
}

/* Returns whether N octets are of the kind, if the row permits N. */
static int is_of(int kind, const uint8_t *p, size_t n) {
    switch (kind) {
    case OCTETS:
        return 1;
    case FORMAT:
        return p[0] == 0 && p[1] == 2;
    case DATE:
        return is_date(p, 0);
    case PART_DATE:
        return is_date(p, 1);
    case TIME:
        return is_time(p);
    case DIGITS:
        return all(DIGITS, p, n);
    case LETTERS:
        return all(LETTERS, p, n);
    case GRAPHIC:
        return all(GRAPHIC, p, n);
    case SPACED_LINES:
        return all(SPACED_LINES, p, n);
    default:
        return all(SPACED, p, n);
    }
}

/* --- The message around its text --- */

enum part { BEFORE, SOURCE, NUMBER, SPACE, PRIORITY, CATEGORY, WORDS, INFO, GAP, TEXT, TAIL, AFTER };
enum { LETTER = 1, DIGIT = 2, FILLER = 4, PRINTABLE = 8 };

static uint8_t class_of[256];

/* The part that is read, how many octets it has, whether a gap has its LF, and of a text the last
 * CRs: bit 1 is set if its last octet is CR, and bit 0 if the octet before is CR. */
static struct {
    enum part part;
    int count, has_feed;
    unsigned returns;
} message;

INLINE int is(int classes, uint8_t c) { return class_of[c] & classes; }

/* Begins a part, whose first octet is consumed with it or not. */
INLINE int begin(enum part part, int count) {
    message.part = part;
    message.count = count;
    return 1;
}

/* Consumes an octet of one of the first parts, and returns whether it is valid. */
static int step_first(uint8_t c) {
    switch (message.part) {
    case BEFORE:
        return c == 1 ? begin(SOURCE, 0) : is(FILLER, c) && ++message.count <= 32;
    case SOURCE:
        if (is(DIGIT, c) && message.count > 0)
            return begin(NUMBER, 1);
        return is(LETTER, c) && ++message.count <= 8;
    case NUMBER:
        return c == ' ' ? begin(SPACE, 0) : is(DIGIT, c) && ++message.count <= 8;
    case SPACE:
        return is(DIGIT, c) && begin(PRIORITY, 1);
    case PRIORITY:
        return c == ' ' && begin(CATEGORY, 0);
    default:
        if (c == ' ' && message.count > 0)
            return begin(WORDS, 0);
        return is(LETTER | DIGIT, c) && ++message.count <= 8;
    }
}

/* Consumes an octet outside of the text, and returns whether it is valid. */
static int step(uint8_t c) {
    switch (message.part) {
    case WORDS:
    case INFO:
        if (is(FILLER, c) && (message.part == INFO || message.count > 0)) {
            message.has_feed = c == '\n';
            return begin(GAP, 1);
        }
        if (message.part == INFO)
            return is(PRINTABLE, c) && ++message.count <= 64;
        if (c == ' ' && message.count > 0)
            return begin(INFO, 0);
        return is(DIGIT, c) && ++message.count <= 6;
    case GAP:
        if (c == 2) {
            message.returns = 0;
            return begin(TEXT, 0) && message.has_feed;
        }
        message.has_feed |= c == '\n';
        return is(FILLER, c) && ++message.count <= 31 + message.has_feed;
    case TAIL:
        if (c == 4)
            return begin(AFTER, 0);
        return (is(PRINTABLE, c) || c == '\n' || c == '\r') && ++message.count <= 64;
    case AFTER:
        return is(FILLER, c) && ++message.count <= 32;
    default:
        return step_first(c);
    }
}

/* Skips 1 to `most` octets of the classes. Returns NULL if there are fewer or more. */
INLINE const uint8_t *skip(const uint8_t *p, int classes, int most) {
    const uint8_t *from = p;
    while (is(classes, *p) && p - from <= most)
        p++;
    return p == from || p - from > most ? NULL : p;
}

/* Returns the length of a complete header at P, or 0 if its octets must be consumed one by one. At
 * most 160 octets are loaded, whatever N is. */
INLINE size_t header(const uint8_t *p, size_t n) {
    const uint8_t *q = p, *gap;
    if (*q != 1 || !(q = skip(q + 1, LETTER, 8)) || !(q = skip(q, DIGIT, 8)))
        return 0;
    if (q[0] != ' ' || !is(DIGIT, q[1]) || q[2] != ' ')
        return 0;
    if (!(q = skip(q + 3, LETTER | DIGIT, 8)) || *q != ' ' || !(q = skip(q + 1, DIGIT, 6)))
        return 0;
    if (*q == ' ' && is(PRINTABLE, *++q) && !(q = skip(q, PRINTABLE, 64)))
        return 0;
    int has_feed = 0;
    for (gap = q; is(FILLER, *q) && q - gap <= 32; q++)
        has_feed |= *q == '\n';
    if (!has_feed || q - gap > 32 || *q != 2 || (size_t)(q - p) >= n)
        return 0;
    return (size_t)(q - p) + 1;
}

/* --- The text: 64 octets at a time --- */

/* A bit for each of 64 octets: whether it is CR, LF, or one of 01 to 04. */
struct marks {
    uint64_t cr, lf, control;
};

INLINE uint64_t joined(__m128i a, __m128i b, __m128i c, __m128i d) {
    uint32_t low = (uint32_t)_mm_movemask_epi8(a) | (uint32_t)_mm_movemask_epi8(b) << 16;
    uint32_t high = (uint32_t)_mm_movemask_epi8(c) | (uint32_t)_mm_movemask_epi8(d) << 16;
    return (uint64_t)high << 32 | low;
}

INLINE __m128i load(const uint8_t *p) { return _mm_loadu_si128((const void *)p); }

INLINE uint64_t equal64(const uint8_t *p, char c) {
    __m128i k = _mm_set1_epi8(c);
    return joined(_mm_cmpeq_epi8(load(p), k), _mm_cmpeq_epi8(load(p + 16), k),
                  _mm_cmpeq_epi8(load(p + 32), k), _mm_cmpeq_epi8(load(p + 48), k));
}

INLINE __m128i is_control(const uint8_t *p) {
    __m128i v = _mm_sub_epi8(load(p), _mm_set1_epi8(1));
    return _mm_cmpeq_epi8(_mm_min_epu8(v, _mm_set1_epi8(3)), v);
}

INLINE struct marks marks64(const uint8_t *p) {
    __m128i a = is_control(p), b = is_control(p + 16);
    __m128i c = is_control(p + 32), d = is_control(p + 48);
    struct marks marks = {equal64(p, '\r'), equal64(p, '\n'), 0};
    __m128i any = _mm_or_si128(_mm_or_si128(a, b), _mm_or_si128(c, d));
    if (unlikely(_mm_movemask_epi8(any)))
        marks.control = joined(a, b, c, d);
    return marks;
}

/* For each set of eight octets the places of the others, in order: the mask of a shuffle. */
static uint8_t others[256][8];

/* Writes N of 64 octets, those without a bit of `cr`. */
INLINE void put_text(const uint8_t *p, size_t n, uint64_t cr) {
    make_space(&texts);
    uint8_t *to = texts.octets + texts.used;
    if (n == 64 && __builtin_popcountll(cr) > 6) {
        for (int i = 0; i < 64; i += 8, cr >>= 8) {
            __m128i eight = _mm_loadl_epi64((const void *)(p + i));
            __m128i places = _mm_loadl_epi64((const void *)others[cr & 255]);
            _mm_storel_epi64((void *)to, _mm_shuffle_epi8(eight, places));
            to += 8 - __builtin_popcount((unsigned)cr & 255);
        }
        texts.used = (size_t)(to - texts.octets);
        return;
    }
    size_t from = 0;
    for (; unlikely(cr); cr &= cr - 1) {
        size_t end = (size_t)__builtin_ctzll(cr);
        memcpy(to, p + from, 64);
        to += end - from;
        from = end + 1;
    }
    memcpy(to, p + from, 64);
    texts.used = (size_t)(to + (n - from) - texts.octets);
}

/* Consumes a few octets of the text, up to its end. Returns how many, or -1 if one is invalid. */
INLINE ssize_t short_text(const uint8_t *p, size_t n, int is_story) {
    unsigned returns = message.returns;
    if (is_story)
        make_space(&texts);
    for (size_t i = 0; i < n; i++) {
        if (p[i] == '\r') {
            if (returns == 3)
                return -1;
            returns = returns >> 1 | 2;
            continue;
        }
        if (p[i] != '\n' && (returns || (p[i] - 1u < 4 && p[i] != 3)))
            return -1;
        if (p[i] == 3)
            return begin(TAIL, 0) ? (ssize_t)i + 1 : -1;
        returns = 0;
        if (is_story)
            texts.octets[texts.used++] = p[i];
    }
    message.returns = returns;
    return (ssize_t)n;
}

/* Consumes octets of the text, up to its end. Returns how many, or -1 if one is invalid.
 *
 * A CR needs an LF behind it, or another CR if none is before it. `after` has a bit for each octet
 * behind a CR, and `second` one for each that is two places behind a CR. */
INLINE ssize_t long_text(const uint8_t *p, size_t n, int is_story) {
    uint64_t returns = message.returns;
    for (size_t i = 0; i < n;) {
        size_t count = n - i < 64 ? n - i : 64;
        struct marks marks = marks64(p + i);
        uint64_t used = ~0ull >> (64 - count), control = marks.control & used, end = 0;
        if (unlikely(control)) {
            count = (size_t)__builtin_ctzll(control);
            if (p[i + count] != 3)
                return -1;
            end = 1ull << count;
            used = end - 1;
        }
        uint64_t cr = marks.cr & used;
        uint64_t after = cr << 1 | returns >> 1, second = cr << 2 | (returns >> 1) << 1 | (returns & 1);
        if (unlikely((after & ~(marks.cr | marks.lf) & (used | end)) | (cr & after & second)))
            return -1;
        if (is_story)
            put_text(p + i, count, cr);
        if (unlikely(end))
            return begin(TAIL, 0) ? (ssize_t)(i + count + 1) : -1;
        returns = count >= 2 ? (cr >> (count - 2)) & 3 : returns >> 1 | (cr & 1) << 1;
        i += count;
    }
    message.returns = (unsigned)returns;
    return (ssize_t)n;
}

/* Consumes N octets of the object, and returns whether they are valid. */
INLINE int object(const uint8_t *p, size_t n, int is_story) {
    size_t at = 0, length;
    if (message.part == BEFORE && n > 0 && (length = header(p, n)) > 0) {
        at = length;
        message.returns = 0;
        begin(TEXT, 0);
    }
    while (at < n) {
        if (likely(message.part == TEXT)) {
            const uint8_t *from = p + at;
            size_t count = n - at;
            ssize_t used = count < 8 ? short_text(from, count, is_story)
                                     : long_text(from, count, is_story);
            if (used < 0)
                return 0;
            at += (size_t)used;
        } else if (!step(p[at++])) {
            return 0;
        }
    }
    return 1;
}

static __attribute__((noinline)) int checked_object(const uint8_t *p, size_t n) {
    return object(p, n, 0);
}

static __attribute__((noinline)) int written_object(const uint8_t *p, size_t n) {
    return object(p, n, 1);
}

/* --- An envelope --- */

/* Record 7 has these, each with a bit: the mode, and the sizes of a subfile and of the object. */
enum { MODE = 1, SIZE = 2, ANNOUNCED = 4, MOST = 8 };

struct envelope {
    unsigned record;
    uint64_t seen[4];                        /* the datasets of its record */
    uint64_t octets, kept, fields, subfiles; /* consumed; of data and datasets in records 1 and 2 */
    uint64_t sizes, mode, size, announced, most, total;
};

struct tag {
    unsigned record, dataset;
    uint64_t count;
    size_t length;
};

/* Returns the number that 1 to 8 octets encode. Eight are loaded. */
INLINE uint64_t number(const uint8_t *p, size_t n) {
    uint64_t value;
    memcpy(&value, p, 8);
    return __builtin_bswap64(value) >> (64 - 8 * n);
}

/* Reads a tag, which is not consumed. */
INLINE int read_tag(struct tag *tag) {
    if (!has(5))
        return 0;
    const uint8_t *p = input.octets + input.at;
    tag->record = p[1];
    tag->dataset = p[2];
    tag->count = (uint64_t)p[3] << 8 | p[4];
    tag->length = 5;
    if (unlikely(p[3] & 0x80)) {
        size_t length = p[4];
        if (p[3] != 0x80 || length < 1 || length > 8 || !has(5 + length))
            return 0;
        tag->count = number(input.octets + input.at + 5, length);
        tag->length += length;
    }
    return input.octets[input.at] == 0x1c;
}

/* Returns whether a record can follow: the one before it, and its mandatory datasets, are there. */
INLINE int begin_record(struct envelope *e, unsigned record) {
    const uint64_t first = 1ull << 0 | 1ull << 20 | 1ull << 22 | 1ull << 30 | 1ull << 40;
    int is_next = 0;
    if (record == 1)
        is_next = e->record == 0;
    else if (record == 2)
        is_next = e->record == 1 && (e->seen[0] & first) == first && (e->seen[1] >> 6 & 1);
    else if (record == 7)
        is_next = e->record == 2 && (e->seen[0] & 1);
    else if (record == 8)
        is_next = e->record == 7 && (e->sizes & (MODE | SIZE)) == (MODE | SIZE) &&
                  (e->mode == 0 || (e->sizes & ANNOUNCED));
    else if (record == 9)
        is_next = e->record == 8;
    e->record = record;
    memset(e->seen, 0, sizeof e->seen);
    return is_next;
}

/* Consumes a dataset of record 1 or 2. */
INLINE int field(struct envelope *e, const struct tag *tag) {
    const struct row *row = &rows[tag->record][tag->dataset];
    uint64_t bit = 1ull << (tag->dataset & 63), *seen = &e->seen[tag->dataset >> 6];
    if (unlikely((*seen & bit && !row->repeats) || tag->count < row->least || tag->count > row->most))
        return 0;
    *seen |= bit;
    e->kept += tag->count;
    if (unlikely(e->kept > MOST_OCTETS || ++e->fields > MOST_FIELDS || !has(tag->length + tag->count)))
        return 0;
    if (unlikely(!is_of(row->kind, input.octets + input.at + tag->length, tag->count)))
        return 0;
    input.at += tag->length + tag->count;
    return 1;
}

/* Consumes a subfile, which can have more octets than a block. */
INLINE int subfile(struct envelope *e, const struct tag *tag, int is_story) {
    uint64_t left = tag->count;
    if (unlikely(tag->dataset != 10 || ++e->subfiles >> 32 || left > e->size))
        return 0;
    e->total += left;
    if (unlikely((e->sizes & ANNOUNCED && e->total > e->announced) ||
                 (e->sizes & MOST && e->total > e->most) || e->total >> 63))
        return 0;
    input.at += tag->length;
    do {
        size_t there = input.end - input.at, count = there < left ? there : left;
        const uint8_t *p = input.octets + input.at;
        if (unlikely(!(is_story ? written_object(p, count) : checked_object(p, count))))
            return 0;
        input.at += count;
        left -= count;
    } while (left > 0 && refill());
    return left == 0;
}

/* Consumes a dataset of record 7 or 9, which is a number. */
INLINE int size(struct envelope *e, const struct tag *tag) {
    if (tag->count < 1 || tag->count > 8 || !has(tag->length + tag->count))
        return 0;
    uint64_t value = number(input.octets + input.at + tag->length, tag->count);
    input.at += tag->length + tag->count;
    if (value >> 63)
        return 0;
    if (tag->record == 9)
        return tag->dataset == 10 && (!(e->sizes & ANNOUNCED) || e->total >= e->announced) &&
               message.part == AFTER && value == e->total;
    unsigned dataset = tag->dataset;
    unsigned bit = dataset == 10   ? MODE
                   : dataset == 20 ? SIZE
                   : dataset == 90 ? ANNOUNCED
                   : dataset == 95 ? MOST
                                   : 0;
    if (!bit || e->sizes & bit)
        return 0;
    e->sizes |= bit;
    if (bit == MODE)
        e->mode = value;
    else if (bit == SIZE)
        e->size = value;
    else if (bit == ANNOUNCED)
        e->announced = value;
    else
        e->most = value;
    if ((bit == MODE && (tag->count != 1 || value > 1)) || (bit == SIZE && value == 0))
        return 0;
    if ((e->sizes & (MODE | ANNOUNCED)) == (MODE | ANNOUNCED) && e->mode == 0)
        return 0;
    return (e->sizes & (ANNOUNCED | MOST)) != (ANNOUNCED | MOST) || e->announced <= e->most;
}

/* Consumes an envelope. Returns how many octets it has, 0 at the end, or -1 if it is rejected. */
INLINE int64_t envelope(int is_story) {
    struct envelope e = {0};
    struct tag tag;
    begin(BEFORE, 0);
    if (!has(1))
        return 0;
    do {
        if (!read_tag(&tag))
            return -1;
        if (unlikely(tag.record != e.record) && !begin_record(&e, tag.record))
            return -1;
        if (unlikely(!(tag.record <= 2   ? field(&e, &tag)
                       : tag.record == 8 ? subfile(&e, &tag, is_story)
                                         : size(&e, &tag))))
            return -1;
        e.octets += tag.length + tag.count;
    } while (tag.record != 9);
    return (int64_t)e.octets;
}

/* --- Lines --- */

/* The number of the last accepted envelope in decimal, and how its line ends. */
static char nth[38] = "0000000000000000000000";
static int first_digit = 21;
static char ending[32];
static size_t ending_length;
static int64_t ending_of;

static void put_accepted(int64_t octets) {
    int digit = 21;
    while (nth[digit] == '9')
        nth[digit--] = '0';
    nth[digit]++;
    if (digit < first_digit)
        first_digit = digit;
    if (octets != ending_of) {
        ending_of = octets;
        ending_length = (size_t)sprintf(ending, "%lld octets\n", (long long)octets);
    }
    make_space(&lines);
    uint8_t *to = lines.octets + lines.used;
    memcpy(to, nth + first_digit, 16);
    to += 22 - first_digit;
    memcpy(to, " accepted ", 10);
    to += 10;
    memcpy(to, ending, 32);
    lines.used = (size_t)(to - lines.octets) + ending_length;
}

/* Reads all envelopes, and returns the status of the program. */
INLINE int run(int is_story) {
    for (unsigned long long number = 1;; number++) {
        int64_t octets = envelope(is_story);
        if (octets <= 0) {
            if (octets < 0)
                lines.used += (size_t)sprintf((char *)lines.octets + lines.used, "%llu refused\n", number);
            flush(&texts);
            flush(&lines);
            return octets < 0;
        }
        if (is_story) {
            make_space(&texts);
            texts.octets[texts.used++] = '\n';
        }
        put_accepted(octets);
    }
}

/* --- Tables --- */

/* All rows but those of datasets with any content: record, dataset, and the row. */
static const struct {
    uint8_t record, dataset;
    struct row row;
} ROWS[] = {
    {1, 0, {OCTETS, 0, 2, 2}},         {1, 5, {GRAPHIC, 1, 0, 1024}},    {1, 20, {FORMAT, 0, 2, 2}},
    {1, 22, {OCTETS, 0, 2, 2}},        {1, 30, {GRAPHIC, 0, 0, 10}},     {1, 40, {DIGITS, 0, 8, 8}},
    {1, 50, {GRAPHIC, 1, 0, 32}},      {1, 60, {DIGITS, 0, 1, 1}},       {1, 70, {DATE, 0, 8, 8}},
    {1, 80, {TIME, 0, 11, 11}},        {1, 90, {OCTETS, 0, 0, 32}},      {1, 100, {OCTETS, 0, 14, 80}},
    {2, 0, {OCTETS, 0, 2, 2}},         {2, 5, {SPACED, 0, 0, 64}},       {2, 7, {SPACED, 0, 0, 64}},
    {2, 10, {DIGITS, 0, 1, 1}},        {2, 15, {LETTERS, 0, 0, 3}},      {2, 20, {SPACED, 1, 0, 32}},
    {2, 22, {GRAPHIC, 0, 0, 32}},      {2, 25, {SPACED, 1, 0, 64}},      {2, 30, {DATE, 0, 8, 8}},
    {2, 35, {TIME, 0, 11, 11}},        {2, 37, {DATE, 0, 8, 8}},         {2, 38, {TIME, 0, 11, 11}},
    {2, 40, {SPACED_LINES, 0, 0, 256}}, {2, 55, {PART_DATE, 0, 8, 8}},   {2, 60, {TIME, 0, 11, 11}},
    {2, 80, {SPACED, 1, 0, 32}},       {2, 85, {SPACED, 1, 0, 32}},      {2, 90, {SPACED, 0, 0, 32}},
    {2, 95, {SPACED, 0, 0, 32}},       {2, 100, {LETTERS, 0, 0, 3}},     {2, 101, {SPACED, 0, 0, 64}},
    {2, 103, {SPACED, 0, 0, 32}},      {2, 105, {SPACED, 0, 0, 256}},    {2, 110, {SPACED, 0, 0, 32}},
    {2, 115, {SPACED, 0, 0, 32}},      {2, 116, {SPACED, 0, 0, 128}},
    {2, 120, {SPACED_LINES, 0, 0, 2000}}, {2, 122, {SPACED, 1, 0, 32}},
};

static void fill_tables(void) {
    for (int dataset = 0; dataset < 256; dataset++)
        rows[1][dataset] = rows[2][dataset] = (struct row){OCTETS, 1, 0, 8192};
    for (size_t i = 0; i < sizeof ROWS / sizeof *ROWS; i++)
        rows[ROWS[i].record][ROWS[i].dataset] = ROWS[i].row;
    for (int c = 0; c < 256; c++) {
        class_of[c] |= (c | 32) >= 'a' && (c | 32) <= 'z' ? LETTER : 0;
        class_of[c] |= c >= '0' && c <= '9' ? DIGIT : 0;
        class_of[c] |= c == 0 || c == '\n' || c == '\r' || c == 0x16 ? FILLER : 0;
        class_of[c] |= c >= 0x20 && c != 0x7f ? PRINTABLE : 0;
        int count = 0;
        for (int place = 0; place < 8; place++)
            if (!(c >> place & 1))
                others[c][count++] = (uint8_t)place;
    }
}

int main(int words, char **word) {
    if (words != 3 || (strcmp(word[1], "check") && strcmp(word[1], "story")) ||
        (input.from = open(word[2], O_RDONLY)) < 0) {
        fprintf(stderr, "usage: best check|story FILE\n");
        return 2;
    }
    input.octets = calloc(1, BLOCK + PADDING);
    if (input.octets == NULL)
        return 3;
    int is_story = word[1][0] == 's';
    texts.to = 1;
    lines.to = is_story ? 2 : 1;
    fill_tables();
    return is_story ? run(1) : run(0);
}
