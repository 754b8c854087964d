/**
 * @file
 * Reads, checks, audits and packs envelopes of the IPTC-NAA Information Interchange Model, from C.
 *
 * Link with `libiim.a` or `libiim.so`, which `bindings/build` builds.
 *
 * ## Usage
 *
 * Pass the bytes of a stream to iim_feed() in chunks of any length. The state between two calls
 * is a ticket: bytes in a buffer of the caller, which the caller may store for any length of
 * time, write to a file or send to another machine. iim_check() checks an envelope that is
 * completely in memory, in one call.
 *
 * A ticket can be read at any time: iim_fields() lists the datasets of records 1 and 2,
 * iim_header() returns the header of the message, and iim_sizes() the numbers of record 7. These
 * functions copy no data: they return an offset and a count within the ticket.
 *
 * ## Rules for every function
 *
 * - It returns for every input, and never calls back.
 * - It is reentrant: there is no global state, and nothing persists from one call to the next. Any
 *   number of threads may call at the same time, each with its own answers and buffers. Do not
 *   call it from a signal handler, since it may allocate memory.
 * - It owns no memory of the caller and stores no pointer. Every buffer belongs to the caller
 *   before, during and after the call. What the function allocates, with malloc, it has freed
 *   when it returns. If malloc fails, the status is IIM_NO_MEMORY, and the call may be repeated.
 * - A pointer with a length is an array of that many elements. It may be null if the length is 0.
 *   A pointer without a length must not be null.
 * - Memory that the function writes must not overlap any other argument. So a ticket and the next
 *   ticket need separate buffers.
 * - A call that has an `answer` returns its result there, and writes every member: a member that
 *   the description of the function does not mention is 0.
 * - If a buffer is too short, the status is IIM_SHORT, and the answer has the lengths that are
 *   needed. Nothing is lost: the ticket that was passed in is unchanged, and the same call with
 *   longer buffers returns the complete result. After any status other than IIM_DONE and IIM_MORE
 *   the contents of output buffers are unspecified, unless the description of the function
 *   specifies them.
 * - The bytes of `text_out` and `ticket_out` after those that the answer counts are unspecified:
 *   they may be unchanged or overwritten.
 *
 * Structs have the layout that the C compiler gives them, with their members in the order that is
 * declared here. `uint8_t` and `bool` have one byte.
 */
#ifndef IIM_H
#define IIM_H

#include <stdbool.h>
#include <stddef.h>
#include <stdint.h>

#ifdef __cplusplus
extern "C" {
#endif

/** The version of this interface. */
#define IIM_VERSION 1

/* ---- Answers */

/** The status of a call. */
enum {
    IIM_DONE = 0,        /**< complete: an envelope has ended, or the requested value was written */
    IIM_MORE = 1,        /**< all bytes were consumed, and the envelope can continue */
    IIM_REFUSED = 2,     /**< a byte, or a line of a script, is rejected */
    IIM_TRUNCATED = 3,   /**< the input ends inside an envelope */
    IIM_NONE = 4,        /**< there is no dataset with this index */
    IIM_SHORT = 5,       /**< a buffer is too short: the answer has the lengths that are needed */
    IIM_NO_MEMORY = 6,   /**< malloc failed */
    IIM_BAD_TICKET = 7,  /**< not a ticket from which the call can continue: see the cause */
    IIM_BAD_PACKING = 8, /**< the members of an iim_packing are invalid */
    IIM_BAD_INSTANT = 9, /**< the members of an iim_instant are invalid */
    IIM_BAD_HANDLE = 10, /**< the iim_unpacker is closed; of a call that opens it: it is open */
    IIM_FAILED = 11      /**< a byte was rejected before: the iim_unpacker has no state to save */
};

/** Success: another name of IIM_DONE, for the calls that return their status. */
#define IIM_OK IIM_DONE

/** The layer that rejects a byte; 0 if no layer does. A head is a complete tag. */
enum {
    IIM_LAYER_DATASET = 1, /**< tags, byte by byte */
    IIM_LAYER_RECORD = 2,  /**< heads, and the values of records 1, 2, 7 and 9 */
    IIM_LAYER_LIMITS = 3,  /**< heads: limits on records 1 and 2 and on the number of subfiles */
    IIM_LAYER_OBJECT = 4,  /**< the sizes of the object */
    IIM_LAYER_MESSAGE = 5, /**< the bytes of the object, and its end */
    IIM_LAYER_STORY = 6,   /**< the bytes of the text, and its end */
    IIM_LAYER_OUTSIDE = 7  /**< errors that are not in the bytes: a failed read or write, memory */
};

/**
 * The result of a call. `cause` is a number of docs/reference/causes.md; iim_cause_name() returns
 * its name.
 */
typedef struct iim_answer {
    uint8_t status; /**< IIM_DONE, IIM_MORE, ... */
    uint8_t layer;  /**< IIM_REFUSED, IIM_TRUNCATED: IIM_LAYER_DATASET, ... */
    uint8_t cause;  /**< IIM_REFUSED, IIM_TRUNCATED, IIM_BAD_TICKET: the number of the cause */
    uint8_t rec;    /**< IIM_REFUSED, IIM_TRUNCATED: record of the dataset concerned, or 0 */
    uint8_t set;    /**< number of that dataset within its record, or 0 */
    /** Length of the envelope so far. IIM_REFUSED: offset of the byte, or line of a script. */
    uint64_t octet;
    size_t used; /**< number of bytes of the chunk that were consumed */
    /**
     * Number of bytes of text or of a packed form, of rows or of datasets that were written.
     * IIM_SHORT: number of those that there are.
     */
    size_t written;
    size_t ticket; /**< number of bytes of a ticket that were written; IIM_SHORT: its length */
} iim_answer;

/**
 * The limits on records 1 and 2 of an envelope, together. A member that is 0 selects the limit of
 * wire copy: 65,536 bytes, 512 datasets. So `(iim_limits){0, 0}` are the limits of the command.
 */
typedef struct iim_limits {
    uint32_t octets; /**< bytes of data */
    uint32_t fields; /**< number of datasets */
} iim_limits;

/** The bytes of data that these iim_limits allow. */
#define IIM_OCTETS_MAX(limits) ((size_t)((limits).octets ? (limits).octets : 65536))

/** The number of datasets that these iim_limits allow. */
#define IIM_FIELDS_MAX(limits) ((size_t)((limits).fields ? (limits).fields : 512))

/** The greatest length of a ticket within these iim_limits, in bytes. */
#define IIM_TICKET_MAX(limits) (IIM_OCTETS_MAX(limits) + 6 * IIM_FIELDS_MAX(limits) + 256)

/** The greatest length of a ticket within the limits of wire copy: a constant, for arrays. */
#define IIM_TICKET_SIZE (65536 + 6 * 512 + 256)

/* ---- Reading envelopes */

/**
 * Checks the envelope at the beginning of a buffer.
 *
 * @param limits  limits on records 1 and 2
 * @param octets  the bytes to check
 * @param len     number of bytes
 * @param answer  receives the result
 *
 * Status:
 * - IIM_DONE: the buffer begins with an envelope of `answer->octet` bytes; `used` is the same
 *   number. The bytes after it were not read.
 * - IIM_REFUSED: the byte at offset `answer->octet` is rejected; `layer`, `cause`, `rec` and `set`
 *   are written.
 * - IIM_TRUNCATED: the envelope is incomplete: all `answer->octet` bytes are valid so far. The
 *   cause is 3, and `rec` and `set` name the partial dataset. An empty buffer is truncated, too.
 * - IIM_NO_MEMORY.
 */
void iim_check(iim_limits limits, const uint8_t *octets, size_t len, iim_answer *answer);

/**
 * Reads the next chunk of an envelope.
 *
 * @param limits          limits on records 1 and 2, the same for every chunk of an envelope
 * @param ticket          the ticket that the previous call wrote
 * @param ticket_len      its length in bytes; 0 begins a new envelope
 * @param at              number of bytes of the envelope before this chunk: 0 without a ticket,
 *                        otherwise `octet` of the answer that came with the ticket
 * @param piece           the chunk, which may be empty
 * @param piece_len       its length in bytes
 * @param text_out        receives the bytes of the story in this chunk, with LF between its lines;
 *                        they are never more than `piece_len`
 * @param text_len        capacity of `text_out`
 * @param ticket_out      receives the next ticket, of at most limits.octets + 6 * limits.fields +
 *                        256 bytes, with the default for a limit that is 0
 * @param ticket_out_len  capacity of `ticket_out`
 * @param answer          receives the result
 *
 * Status:
 * - IIM_MORE: all bytes of the chunk were consumed. `text_out` has `written` bytes of the story,
 *   `ticket_out` the next ticket of `ticket` bytes, and the envelope has `octet` bytes so far.
 * - IIM_DONE: as IIM_MORE, but the envelope ends after `used` bytes of the chunk. The bytes after
 *   them belong to the next envelope, or to something else. The ticket is that of the complete
 *   envelope: iim_fields(), iim_header() and iim_sizes() read it; feeding it again consumes no
 *   byte and returns IIM_DONE again. The next envelope begins without a ticket.
 * - IIM_REFUSED: `octet` is the offset of the rejected byte from the first byte of the envelope,
 *   computed from `at`; `layer`, `cause`, `rec` and `set` are written. `text_out` has the
 *   `written` bytes of the story before it. There is no next ticket.
 * - IIM_SHORT: a buffer is too short. `written` is the number of bytes of the story, and `ticket`
 *   the length of the next ticket (0 if a byte is rejected, which the same call reports when the
 *   text fits).
 * - IIM_BAD_TICKET: cause 100 (not a ticket), 101 (of another version), 102 (of a state that no
 *   envelope reaches), 50 or 51 (it exceeds the limits).
 * - IIM_NO_MEMORY: no byte of the chunk counts as consumed.
 *
 * After IIM_SHORT, IIM_BAD_TICKET and IIM_NO_MEMORY the contents of `text_out` and `ticket_out` are
 * unspecified, and so are those of `ticket_out` after IIM_REFUSED.
 *
 * Each call allocates what the limits allow, in two requests, and frees it; writing the next ticket
 * allocates nothing. So small chunks cost more than large ones: use 4,096 bytes or more.
 */
void iim_feed(iim_limits limits, const uint8_t *ticket, size_t ticket_len, uint64_t at,
              const uint8_t *piece, size_t piece_len, uint8_t *text_out, size_t text_len,
              uint8_t *ticket_out, size_t ticket_out_len, iim_answer *answer);

/**
 * Checks whether the input may end in the state of a ticket.
 *
 * @param limits      limits on records 1 and 2, as for iim_feed()
 * @param ticket      the ticket that the last call wrote
 * @param ticket_len  its length in bytes, or 0
 * @param at          number of bytes of the envelope so far, as for iim_feed()
 * @param answer      receives the result
 *
 * Status:
 * - IIM_DONE: the envelope is complete.
 * - IIM_TRUNCATED: the envelope is incomplete. `octet` is `at`, the cause is 3, and `rec` and `set`
 *   name the partial dataset. The status is the same without a ticket: a caller that has passed no
 *   byte of an envelope need not call.
 * - IIM_BAD_TICKET, with the cause.
 * - IIM_NO_MEMORY.
 */
void iim_end(iim_limits limits, const uint8_t *ticket, size_t ticket_len, uint64_t at,
             iim_answer *answer);

/* ---- Reading a ticket */

/** A slice of a ticket: `count` bytes from `offset` on. */
typedef struct iim_span {
    size_t offset; /**< offset of the first byte within the ticket */
    size_t count;  /**< number of bytes */
} iim_span;

/** A dataset of records 1 and 2: its record, its number and its data. */
typedef struct iim_dataset {
    uint8_t rec;   /**< number of the record: 1 or 2 */
    uint8_t set;   /**< number of the dataset within its record */
    iim_span data; /**< its data, within the ticket */
} iim_dataset;

/**
 * Writes the complete datasets of records 1 and 2 into an array, in the order received, and reads
 * the ticket once. The data of dataset k begin at `ticket[datasets[k].data.offset]`.
 *
 * @param ticket        the ticket
 * @param ticket_len    its length in bytes
 * @param from          index of the first dataset to write; 0 for all
 * @param datasets      receives the datasets
 * @param datasets_len  capacity of `datasets`
 * @param answer        receives the result
 *
 * Status:
 * - IIM_DONE: `datasets` has all datasets from the index `from` on, `answer->written` of them; 0
 *   if there are no more than `from`.
 * - IIM_SHORT: there are `answer->written` of them, more than `datasets_len`. The first
 *   `datasets_len` of them are in `datasets`. So a call with `datasets_len` 0 returns how many
 *   there are, and a call with `from` raised by `datasets_len` writes the next ones.
 * - IIM_BAD_TICKET: cause 100 or 101; `datasets` is unchanged.
 *
 * The entries of `datasets` after those written are unchanged. The function allocates no memory,
 * and its time grows with the length of the ticket, whatever `from` and `datasets_len` are. As
 * iim_field(), it does not check whether an envelope can be in the state that the ticket encodes.
 */
void iim_fields(const uint8_t *ticket, size_t ticket_len, size_t from, iim_dataset *datasets,
                size_t datasets_len, iim_answer *answer);

/**
 * Writes one of the datasets that iim_fields() writes. Each call reads the ticket from its
 * beginning, so a loop over all indexes takes time that grows with the square of the number of
 * datasets: use iim_fields() to read more than a few.
 *
 * @param ticket      the ticket
 * @param ticket_len  its length in bytes
 * @param n           index of the dataset, from 0
 * @param dataset     receives the dataset
 * @param answer      receives the result
 *
 * Status:
 * - IIM_DONE: `*dataset` is written.
 * - IIM_NONE: there are no more than `n` datasets; all members of `*dataset` are 0.
 * - IIM_BAD_TICKET: cause 100 or 101; all members of `*dataset` are 0.
 *
 * The function allocates no memory, and does not check whether an envelope can be in the state
 * that the ticket encodes.
 */
void iim_field(const uint8_t *ticket, size_t ticket_len, size_t n, iim_dataset *dataset,
               iim_answer *answer);

/** The parts of a message, as iim_message numbers them. */
enum {
    IIM_PART_FILLER = 0,
    IIM_PART_SOURCE = 1,
    IIM_PART_NUMBER = 2,
    IIM_PART_PRIORITY = 3,
    IIM_PART_PRIORITY_READ = 4,
    IIM_PART_CATEGORY = 5,
    IIM_PART_WORDS = 6,
    IIM_PART_INFO = 7,
    IIM_PART_GAP = 8,
    IIM_PART_TEXT = 9,      /**< from this part on the header is complete */
    IIM_PART_TRAILER = 10,
    IIM_PART_AFTER_END = 11 /**< in this part the trailer is complete */
};

/** The header and the trailer of a message, as far as they were received. */
typedef struct iim_message {
    uint8_t part;      /**< the part that the input has reached: IIM_PART_TEXT, ... */
    iim_span source;   /**< the source, in the header */
    iim_span number;   /**< the number of the message, in digits */
    iim_span priority; /**< the priority, a digit */
    iim_span category; /**< the category */
    iim_span words;    /**< the number of words that the message announces, in digits */
    iim_span info;     /**< the info, which may be empty */
    iim_span trailer;  /**< the trailer, after the text */
} iim_message;

/**
 * Returns the header and the trailer of the message, as far as they were received. A part that was
 * not received has a count of 0.
 *
 * @param ticket      the ticket
 * @param ticket_len  its length in bytes
 * @param message     receives the header and the trailer
 * @param answer      receives the result
 *
 * Status:
 * - IIM_DONE: `*message` is written.
 * - IIM_BAD_TICKET: cause 100 or 101; all members of `*message` are 0.
 */
void iim_header(const uint8_t *ticket, size_t ticket_len, iim_message *message, iim_answer *answer);

/** The sizes of an object, as far as they were received. A number that was not received is 0. */
typedef struct iim_object {
    bool has_mode;      /**< whether 7:10 was received */
    bool has_subfile;   /**< whether 7:20 was received */
    bool has_announced; /**< whether 7:90 was received */
    bool has_maximum;   /**< whether 7:95 was received */
    uint64_t mode;      /**< 7:10: 1 if the size is known at the start, otherwise 0 */
    uint64_t subfile;   /**< 7:20: the largest size of a subfile */
    uint64_t announced; /**< 7:90: the announced size */
    uint64_t maximum;   /**< 7:95: the largest size that is allowed */
    uint64_t subfiles;  /**< number of subfiles, a partial one included */
    uint64_t octets;    /**< number of bytes of the object that were received */
} iim_object;

/**
 * Returns the sizes of the object, as far as they were received.
 *
 * @param ticket      the ticket
 * @param ticket_len  its length in bytes
 * @param object      receives the sizes
 * @param answer      receives the result
 *
 * Status:
 * - IIM_DONE: `*object` is written.
 * - IIM_BAD_TICKET: cause 100 or 101; all members of `*object` are 0.
 */
void iim_sizes(const uint8_t *ticket, size_t ticket_len, iim_object *object, iim_answer *answer);

/* ---- The state of a ticket, and the bytes that are accepted next */

/**
 * A set of bytes, as a bitmap of 256 bits: it contains the byte o if bit o % 8 of `bits[o / 8]` is
 * set. Bit 0 is the lowest.
 */
typedef struct iim_octet_set {
    uint8_t bits[32]; /**< the bitmap */
} iim_octet_set;

/**
 * Returns the bytes that are accepted next in the state of a ticket or, without a ticket, at the
 * beginning of an envelope.
 *
 * @param limits      limits on records 1 and 2, as for iim_feed()
 * @param ticket      the ticket
 * @param ticket_len  its length in bytes, or 0
 * @param next        receives the set of bytes
 * @param answer      receives the result
 *
 * Status:
 * - IIM_MORE: `*next` contains exactly the bytes that iim_feed() accepts from this ticket, after
 *   which every layer can continue or the envelope ends; it rejects every other byte. This holds
 *   whichever bytes have reached the state.
 * - IIM_DONE: the envelope is complete, and no byte is accepted: `*next` is empty.
 * - IIM_BAD_TICKET, with the cause: `*next` is empty.
 * - IIM_NO_MEMORY: `*next` is empty.
 *
 * The function tries each of the 256 bytes, and takes as long as 256 calls of iim_feed().
 */
void iim_next(iim_limits limits, const uint8_t *ticket, size_t ticket_len, iim_octet_set *next,
              iim_answer *answer);

/** What is in progress in the state of a ticket. */
enum {
    IIM_BEGUN_NOTHING = 0, /**< nothing: the state is between datasets */
    IIM_BEGUN_TAG = 1,     /**< a tag, of which some bytes were received */
    IIM_BEGUN_DATA = 2,    /**< the data of a dataset, of which some bytes are remaining */
    IIM_BEGUN_ENDED = 3    /**< nothing: the envelope is complete */
};

/**
 * What is in progress in the state of a ticket, and the position within the message. Members that
 * are not mentioned are 0.
 */
typedef struct iim_begun {
    uint8_t kind;    /**< IIM_BEGUN_NOTHING, ... */
    uint8_t section; /**< record of the last complete head, or 0 before the first */
    /** IIM_BEGUN_TAG, IIM_BEGUN_DATA: record of the dataset, or 0 if it was not read yet. */
    uint8_t rec;
    uint8_t set;  /**< number of that dataset within its record, or 0 if it was not read yet */
    uint8_t part; /**< the part of the message: IIM_PART_TEXT, ... */
    /** IIM_PART_FILLER, IIM_PART_AFTER_END: bytes of filler so far; IIM_PART_GAP: of the gap. */
    uint8_t counter;
    /** IIM_PART_GAP: 1 after an LF; IIM_PART_TEXT: number of pending CR, 0 to 2. */
    uint8_t flag;
    uint64_t count; /**< IIM_BEGUN_DATA: length of the data */
    uint64_t came;  /**< IIM_BEGUN_TAG, IIM_BEGUN_DATA: bytes of the tag or data received so far */
    uint64_t left;  /**< IIM_BEGUN_DATA: number of bytes of the data that are remaining */
    uint64_t first; /**< offset within the envelope of the first byte of the tag or of the data */
    uint64_t token; /**< offset of the token that the next byte belongs to, see iim_place() */
    /** The received bytes of the tag or of the data, in the ticket; a subfile, 8:10, has none. */
    iim_span octets;
} iim_begun;

/**
 * Returns what is in progress in the state of a ticket.
 *
 * The layers check a tag, a value, or a byte of a subfile as a unit, a token. The token that the
 * next byte belongs to begins at `begun->token`. So if iim_feed() rejects a byte, and the ticket is
 * that of the state just before it, the rejected token begins there: it is the tag, the value of a
 * dataset or, within a subfile, the byte itself. An empty value is checked with the last byte of
 * its tag, so the token is then the tag.
 *
 * A ticket does not store the tag of partial data, nor the length of that tag: a count can be
 * encoded in several ways.
 *
 * @param ticket      the ticket
 * @param ticket_len  its length in bytes
 * @param at          number of bytes of the envelope so far, as for iim_feed()
 * @param begun       receives what is in progress
 * @param answer      receives the result
 *
 * Status:
 * - IIM_DONE: `*begun` is written.
 * - IIM_BAD_TICKET: cause 100 or 101; all members of `*begun` are 0.
 *
 * The function allocates no memory, and does not check whether an envelope can be in the state
 * that the ticket encodes.
 */
void iim_place(const uint8_t *ticket, size_t ticket_len, uint64_t at, iim_begun *begun,
               iim_answer *answer);

/* ---- Reading envelopes with an unpacker */

/**
 * An unpacker: it keeps its state in memory between two calls, so that feeding a chunk costs no
 * decoding of a ticket.
 *
 * It is a variable of the caller, anywhere in memory. Its members are for the library only.
 * `IIM_UNPACKER_INIT`, all members zero, is closed and owns nothing; an open one owns memory that
 * iim_unpacker_close() frees.
 *
 *     iim_unpacker unpacker = IIM_UNPACKER_INIT;
 *     iim_answer answer;
 *     if (iim_unpacker_open((iim_limits){0, 0}, &unpacker) != IIM_DONE)
 *         return -1;
 *     while ((count = fread(chunk, 1, sizeof chunk, file)) > 0)
 *         for (size_t at = 0; at < count; at += answer.used) {
 *             iim_unpacker_feed(&unpacker, chunk + at, count - at, text, sizeof text, &answer);
 *             fwrite(text, 1, answer.written, stdout);
 *             if (answer.status == IIM_DONE)
 *                 iim_unpacker_reset(&unpacker);
 *             else if (answer.status != IIM_MORE)
 *                 goto rejected;
 *         }
 *     iim_unpacker_end(&unpacker, &answer);
 *     iim_unpacker_close(&unpacker);
 *
 * iim_unpacker_fields() returns all datasets in one call, and iim_unpacker_field() copies one.
 *
 * An unpacker may be moved: copied, if only one of the copies is used from then on. Threads may
 * use it one after another, in one call at a time, if the caller orders the calls. A call on a
 * closed unpacker returns IIM_BAD_HANDLE and does nothing else, and so does opening an open one;
 * closing twice is harmless. An unpacker that is neither `IIM_UNPACKER_INIT` nor one that the
 * library has written is undefined behaviour.
 *
 * Only iim_unpacker_open() and iim_unpacker_restore() allocate memory, for what the limits allow.
 */
typedef struct iim_unpacker {
    void *state;  /**< for the library only */
    bool is_open; /**< for the library only */
} iim_unpacker;

/** The initial value of an iim_unpacker: closed. */
#define IIM_UNPACKER_INIT {0, false}

/**
 * Opens a closed unpacker, at the beginning of an envelope.
 *
 * @param limits    limits on records 1 and 2, for every envelope that it reads
 * @param unpacker  a closed unpacker
 * @return          IIM_DONE; IIM_NO_MEMORY, and it is still closed; IIM_BAD_HANDLE if it is open
 */
uint8_t iim_unpacker_open(iim_limits limits, iim_unpacker *unpacker);

/**
 * Begins a new envelope, whatever was fed before, with the same limits and memory.
 *
 * @param unpacker  an open unpacker
 * @return          IIM_DONE, or IIM_BAD_HANDLE if it is closed
 */
uint8_t iim_unpacker_reset(iim_unpacker *unpacker);

/**
 * Feeds the next bytes of an envelope, up to its end.
 *
 * @param unpacker      an open unpacker
 * @param piece         the bytes
 * @param piece_len     number of bytes; may be 0
 * @param text_out      receives the bytes of the story in this chunk, its lines separated by LF
 * @param text_out_len  its length, at least `piece_len`
 * @param answer        receives the result
 *
 * Status:
 * - IIM_MORE: all bytes were consumed, and the envelope can continue.
 * - IIM_DONE: the envelope ends after `used` bytes of the chunk. Until iim_unpacker_reset() no more
 *   bytes are consumed: each call returns IIM_DONE with `used` 0.
 * - IIM_REFUSED: the byte at `answer->octet` is rejected; `layer`, `cause`, `rec` and `set` are
 *   written, and `text_out` has the text of the bytes before it. Until iim_unpacker_reset() each
 *   call returns IIM_REFUSED with cause 61.
 * - IIM_SHORT: `text_out_len` is less than `piece_len`. `written` is `piece_len`; nothing else has
 *   happened.
 * - IIM_BAD_HANDLE: the unpacker is closed.
 *
 * With IIM_MORE and IIM_DONE `octet` is the length of the envelope so far, `used` the number of
 * bytes consumed, and `written` the number of bytes of text.
 */
void iim_unpacker_feed(iim_unpacker *unpacker, const uint8_t *piece, size_t piece_len,
                       uint8_t *text_out, size_t text_out_len, iim_answer *answer);

/**
 * Returns what it means that the input ends here. The unpacker is unchanged.
 *
 * @param unpacker  an open unpacker
 * @param answer    receives the result
 *
 * Status:
 * - IIM_DONE: an envelope of `octet` bytes has ended.
 * - IIM_TRUNCATED: the envelope is incomplete, as for iim_end().
 * - IIM_REFUSED: a byte was rejected before; the cause is 61.
 * - IIM_BAD_HANDLE: the unpacker is closed.
 */
void iim_unpacker_end(iim_unpacker *unpacker, iim_answer *answer);

/**
 * Writes the ticket of the present state, from which iim_unpacker_restore() or iim_feed()
 * continues. The unpacker is unchanged.
 *
 * @param unpacker        an open unpacker
 * @param ticket_out      receives the ticket
 * @param ticket_out_len  its length; 256 bytes more than the limits allow are always enough
 *                        (`octets + 6 * fields + 256`)
 * @param answer          receives the result
 *
 * Status:
 * - IIM_DONE: the ticket has `ticket` bytes; `octet` is the length of the envelope so far.
 * - IIM_SHORT: the ticket has `ticket` bytes, more than `ticket_out_len`.
 * - IIM_FAILED: a byte was rejected before.
 * - IIM_BAD_HANDLE: the unpacker is closed.
 */
void iim_unpacker_save(iim_unpacker *unpacker, uint8_t *ticket_out, size_t ticket_out_len,
                       iim_answer *answer);

/**
 * Opens a closed unpacker in the state of a ticket.
 *
 * @param limits      limits on records 1 and 2
 * @param unpacker    a closed unpacker
 * @param ticket      a ticket, of this or an earlier release
 * @param ticket_len  its length
 * @param at          length of the envelope so far, which later offsets are counted from
 * @param answer      receives the result
 *
 * Status:
 * - IIM_DONE: the unpacker is open.
 * - IIM_BAD_TICKET: not a ticket, or not within the limits: `cause` says why.
 * - IIM_NO_MEMORY, IIM_BAD_HANDLE.
 */
void iim_unpacker_restore(iim_limits limits, iim_unpacker *unpacker, const uint8_t *ticket,
                          size_t ticket_len, uint64_t at, iim_answer *answer);

/*
 * The readers below return their status, which is `answer->status`, too. They allocate no memory,
 * and leave the unpacker unchanged.
 *
 * The first three work in any state. They write the ticket of that state into a buffer of the
 * caller, as iim_unpacker_save() does, and return slices of that buffer: they read what
 * iim_fields(), iim_header() and iim_sizes() read of that ticket. Status of each:
 * - IIM_OK: the ticket has `ticket` bytes, and `octet` is the length of the envelope so far.
 * - IIM_SHORT: the buffer is too short: the ticket has `ticket` bytes. Nothing is written but the
 *   buffer.
 * - IIM_FAILED: a byte was rejected before. Nothing is written.
 * - IIM_BAD_HANDLE: the unpacker is closed. Nothing is written.
 */

/**
 * Writes all complete datasets of records 1 and 2, in one call.
 *
 * @param unpacker        an open unpacker
 * @param ticket_out      receives the ticket, which has the data of the datasets
 * @param ticket_out_len  its length; IIM_TICKET_SIZE is enough for the limits of wire copy
 * @param datasets        receives the datasets; the data of dataset k begin at
 *                        `ticket_out[datasets[k].data.offset]`
 * @param datasets_len    capacity of `datasets`
 * @param answer          receives the result
 * @return                IIM_OK, and `written` is the number of datasets; IIM_SHORT if `written`
 *                        datasets do not fit, and `datasets` has the first of them; or as above
 */
int iim_unpacker_fields(iim_unpacker *unpacker, uint8_t *ticket_out, size_t ticket_out_len,
                        iim_dataset *datasets, size_t datasets_len, iim_answer *answer);

/**
 * Returns the header and the trailer of the message, as far as they were received.
 *
 * @param unpacker        an open unpacker
 * @param ticket_out      receives the ticket, which has the texts of the message
 * @param ticket_out_len  its length
 * @param message         receives the header and the trailer, as slices of `ticket_out`
 * @param answer          receives the result
 * @return                IIM_OK, or as above
 */
int iim_unpacker_header(iim_unpacker *unpacker, uint8_t *ticket_out, size_t ticket_out_len,
                        iim_message *message, iim_answer *answer);

/**
 * Returns the sizes of the object, as far as they were received.
 *
 * @param unpacker        an open unpacker
 * @param ticket_out      receives the ticket
 * @param ticket_out_len  its length
 * @param object          receives the sizes
 * @param answer          receives the result
 * @return                IIM_OK, or as above
 */
int iim_unpacker_sizes(iim_unpacker *unpacker, uint8_t *ticket_out, size_t ticket_out_len,
                       iim_object *object, iim_answer *answer);

/**
 * Copies the data of one dataset of a complete envelope.
 *
 *     uint8_t headline[256];
 *     if (iim_unpacker_field(&unpacker, 2, 105, 0, headline, sizeof headline, &answer) == IIM_OK)
 *         fwrite(headline, 1, answer.written, stdout);
 *
 * @param unpacker  an open unpacker, after IIM_DONE
 * @param rec       the record
 * @param set       the number of the dataset within its record
 * @param n         index among the datasets with these numbers, in the order received; 0 is the
 *                  first
 * @param out       receives the data
 * @param out_len   its length
 * @param answer    receives the result
 * @return          IIM_OK, and `written` is the number of bytes; IIM_NONE if there are no more than
 *                  `n`; IIM_SHORT if the data have `written` bytes, more than `out_len`; IIM_MORE
 *                  if the envelope is not complete; IIM_FAILED if a byte was rejected; or
 *                  IIM_BAD_HANDLE. Except for IIM_OK, `out` is unchanged
 */
int iim_unpacker_field(iim_unpacker *unpacker, uint8_t rec, uint8_t set, size_t n, uint8_t *out,
                       size_t out_len, iim_answer *answer);

/**
 * Counts the datasets of a complete envelope with one record and number.
 *
 * @param unpacker  an open unpacker, after IIM_DONE
 * @param rec       the record
 * @param set       the number of the dataset within its record
 * @param answer    receives the result
 * @return          IIM_OK, and `written` is their number, which may be 0; or IIM_MORE, IIM_FAILED
 *                  or IIM_BAD_HANDLE, as for iim_unpacker_field()
 */
int iim_unpacker_count(iim_unpacker *unpacker, uint8_t rec, uint8_t set, iim_answer *answer);

/**
 * Closes an unpacker, and frees its memory.
 *
 * @param unpacker  an unpacker
 *
 * Status: none. A closed unpacker stays closed.
 */
void iim_unpacker_close(iim_unpacker *unpacker);

/* ---- Audits */

/** An instant, relative to 1970-01-01T00:00:00Z. */
typedef struct iim_instant {
    int64_t second;      /**< whole seconds, rounded down: below zero for earlier instants */
    uint32_t nanosecond; /**< nanoseconds after that second, below 1,000,000,000 */
} iim_instant;

/**
 * The state of an audit beside a ticket of iim_audit(), for the envelope in progress. Without a
 * ticket only `at` is read. `(iim_so_far){0}` begins an input.
 */
typedef struct iim_so_far {
    uint64_t at;     /**< offset in the input of the first byte of the envelope */
    uint64_t octets; /**< number of bytes of it that were received: 0 if none is in progress */
    uint64_t words;  /**< number of words counted in them */
    bool inside;     /**< whether they end inside a word */
} iim_so_far;

/** Whether the copy of an envelope may be used. */
enum {
    IIM_COPY_FREE = 0,   /**< the copy may be used */
    IIM_COPY_HELD = 1,   /**< its release is after the instant of the audit */
    IIM_COPY_EXPIRED = 2 /**< it is not held, and that instant is after its expiration */
};

/**
 * The columns of `iimwire audit` for an envelope, except the number of the earlier envelope that it
 * repeats. Members that are not mentioned are 0.
 */
typedef struct iim_audit_row {
    uint64_t at;        /**< offset in the input of its first byte */
    uint64_t octets;    /**< its length in bytes */
    uint64_t size;      /**< number of bytes of its object */
    uint64_t subfiles;  /**< number of subfiles of its object */
    uint64_t announced; /**< number of words that its message announces */
    /** Number of words of its story: the longest spans, within a line, without SP and TAB. */
    uint64_t counted;
    /** has_age: whole seconds since it was sent, rounded down; negative if sent in the future. */
    int64_t age;
    iim_instant release;    /**< has_release: the first instant at which its copy may be used */
    iim_instant expires;    /**< has_expires: the last instant at which its copy may be used */
    bool has_age;           /**< whether it states the instant at which it was sent */
    bool has_release;       /**< whether it states a release */
    bool has_expires;       /**< whether it states an expiration */
    uint8_t copy;           /**< IIM_COPY_FREE, ... */
    uint8_t priority;       /**< the digit of 1:60 as an ASCII character, or 0 if it was not sent */
    uint8_t service_octets; /**< length of 1:30 */
    uint8_t service[10];    /**< 1:30 Service Identifier, and zeros after it */
    uint8_t number[8];      /**< 1:40 Envelope Number, eight digits */
    uint8_t date_sent[8];   /**< 1:70 Date Sent, eight digits */
} iim_audit_row;

/**
 * Writes a row for each envelope that ends in a chunk of an input. The envelopes follow one
 * another, with nothing between them. The chunks may be split anywhere, and the rows are the same
 * for every split.
 *
 * @param limits          limits on records 1 and 2, the same for every chunk of an input
 * @param ticket          the ticket that the previous call wrote
 * @param ticket_len      its length in bytes; 0 begins a new envelope
 * @param so_far          the state that the call that wrote the ticket left in it. It is not
 *                        checked, and the rows are wrong if it belongs to another ticket. It is
 *                        written
 * @param piece           the chunk, which may be empty
 * @param piece_len       its length in bytes
 * @param now             the instant to compute ages and the use of copies for
 * @param rows            receives the rows
 * @param rows_len        capacity of `rows`
 * @param ticket_out      receives the next ticket, of at most limits.octets + 6 * limits.fields +
 *                        256 bytes, with the default for a limit that is 0
 * @param ticket_out_len  capacity of `ticket_out`
 * @param answer          receives the result
 *
 * Status:
 * - IIM_MORE: all bytes of the chunk were consumed. `rows` has the rows of the envelopes that end
 *   in it, `answer->written` of them, fewer than `rows_len`. `ticket_out` has the next ticket, of
 *   `answer->ticket` bytes, `*so_far` the state beside it, and `octet` is `so_far->octets`. If that
 *   is 0, no envelope is in progress, and the input may end there; otherwise iim_end() returns how
 *   it is truncated.
 * - IIM_DONE: as IIM_MORE, but `rows` is full: `answer->written` is `rows_len`. Only the bytes of
 *   these envelopes were consumed, `answer->used` of them, so no envelope is in progress. Call
 *   again with the remaining bytes and the next ticket. With `rows_len` 0 no byte is consumed.
 * - IIM_REFUSED: `octet` is the offset of the rejected byte from the first byte of its envelope;
 *   `layer`, `cause`, `rec` and `set` are written. `rows` has the rows of the envelopes before it,
 *   `answer->written` of them, and `used` is the number of bytes of the chunk that these had.
 *   `so_far->at` is the offset at which the rejected envelope begins, and the other members of
 *   `*so_far` are 0. There is no next ticket.
 * - IIM_SHORT: `ticket_out` is too short. `ticket` is the length of the next ticket. `*so_far` is
 *   unchanged, and the same call can be repeated.
 * - IIM_BAD_TICKET: as for iim_feed(); cause 0: the ticket is that of a complete envelope, which
 *   iim_feed() wrote. `*so_far` is unchanged.
 * - IIM_BAD_INSTANT: `now` has more nanoseconds than a second, or is earlier than
 *   -009999-01-02T01:59:59Z or later than 9999-12-30T22:00:00.999999999Z. `*so_far` is unchanged.
 * - IIM_NO_MEMORY: no byte of the chunk counts as consumed. `*so_far` is unchanged.
 *
 * Rows that are not mentioned are unchanged, except after IIM_SHORT: then the answer counts the
 * rows that were found, and these are in `rows`. The contents of `ticket_out` after the ticket are
 * unspecified, and after any status other than IIM_DONE and IIM_MORE all of them are.
 *
 * Each call allocates what the limits allow, in two requests, once for all envelopes of the chunk,
 * and frees it; writing the next ticket allocates nothing.
 */
void iim_audit(iim_limits limits, const uint8_t *ticket, size_t ticket_len, iim_so_far *so_far,
               const uint8_t *piece, size_t piece_len, iim_instant now, iim_audit_row *rows,
               size_t rows_len, uint8_t *ticket_out, size_t ticket_out_len, iim_answer *answer);

/* ---- Packing */

/** How to pack an envelope. `(iim_packing){0}` has the defaults of the command. */
typedef struct iim_packing {
    uint64_t subfile; /**< bytes of a full subfile; 0 selects 1,024 */
    bool unknown;     /**< whether the envelope leaves the size of the object unknown */
    bool has_max;     /**< whether the envelope states a maximum size, which needs `unknown` */
    uint64_t max;     /**< the maximum size */
} iim_packing;

/**
 * Packs the envelope that a script specifies, as `iimwire pack` does. The script is a text of up to
 * 16,777,216 bytes in the form of docs/reference/format.md.
 *
 * @param packing     how to pack the envelope
 * @param script      the script
 * @param script_len  its length in bytes
 * @param out         receives the envelope
 * @param out_len     capacity of `out`
 * @param answer      receives the result
 *
 * Status:
 * - IIM_DONE: `out` has the envelope, of `answer->written` bytes.
 * - IIM_SHORT: the envelope has `answer->written` bytes, more than `out_len`; `out` is unchanged.
 * - IIM_REFUSED: line `answer->octet` of the script is invalid (counted from 1; 0 if the script is
 *   too long), for the reason `cause`; 80 PastAnnounced: the object has more bytes than `packing`
 *   allows. `out` is unchanged.
 * - IIM_BAD_PACKING: `subfile` or `max` is above 9,223,372,036,854,775,807, or a known size has a
 *   maximum. `out` is unchanged.
 * - IIM_NO_MEMORY: `out` is unchanged. Memory is allocated for the datasets, the lines and the
 *   envelope itself.
 */
void iim_pack(iim_packing packing, const uint8_t *script, size_t script_len, uint8_t *out,
              size_t out_len, iim_answer *answer);

/**
 * Returns the number of bytes that iim_pack() would write.
 *
 * @param packing     how to pack the envelope
 * @param script      the script
 * @param script_len  its length in bytes
 * @param answer      receives the result
 *
 * Status: IIM_DONE, with `answer->written`, or any other status of iim_pack() except IIM_SHORT.
 */
void iim_pack_size(iim_packing packing, const uint8_t *script, size_t script_len,
                   iim_answer *answer);

/* ---- The tables */

/** The bytes that a dataset may have. docs/reference/format.md defines each kind. */
enum {
    IIM_KIND_GRAPHIC = 1,
    IIM_KIND_SPACED = 2,
    IIM_KIND_SPACED_LINES = 3,
    IIM_KIND_LETTERS = 4,
    IIM_KIND_DIGITS = 5,
    IIM_KIND_DATE = 6,
    IIM_KIND_PART_DATE = 7,
    IIM_KIND_TIME = 8,
    IIM_KIND_BINARY = 9,
    IIM_KIND_OCTETS = 10,
    IIM_KIND_MODE = 11,
    IIM_KIND_SIZE = 12,
    IIM_KIND_SIZE_FROM_ONE = 13
};

/** Whether a record must have a dataset. */
enum {
    IIM_DUTY_MANDATORY = 1,
    IIM_DUTY_OPTIONAL = 2,
    IIM_DUTY_BY_MODE = 3 /**< if and only if 7:10 states that the size is known at the start */
};

/** The row of a dataset in the tables. */
typedef struct iim_rule {
    uint64_t min; /**< the least number of bytes */
    uint64_t max; /**< the greatest number of bytes */
    uint8_t kind; /**< IIM_KIND_GRAPHIC, ... */
    uint8_t duty; /**< IIM_DUTY_MANDATORY, ... */
    bool repeats; /**< whether it may occur more than once */
} iim_rule;

/**
 * Looks up the row of the dataset `rec`:`set`. Allocates no memory.
 *
 * @param rec   the record
 * @param set   the number of the dataset within it
 * @param rule  receives the row; all its members are 0 if there is no row
 * @return      whether the dataset has a row
 */
bool iim_row(uint8_t rec, uint8_t set, iim_rule *rule);

/**
 * Checks whether bytes are a valid value of the dataset `rec`:`set`. Allocates no memory.
 *
 * @param rec     the record
 * @param set     the number of the dataset within it
 * @param octets  the value
 * @param len     its length in bytes
 * @return        true if and only if the dataset has a row and the bytes are as it requires
 */
bool iim_admits(uint8_t rec, uint8_t set, const uint8_t *octets, size_t len);

/* ---- Names */

/*
 * Each function below writes a name of ASCII characters and a NUL into `out` if they fit, and
 * otherwise leaves `out` unchanged. It returns the number of characters of the name, without the
 * NUL. For a number that has no name it returns 0, and writes only the NUL. Every name and its NUL
 * fit in 64 bytes. The functions allocate no memory.
 */

/**
 * Writes the name of a cause, such as `CountRange` for 13.
 *
 * @param cause  the number of the cause
 * @param out    receives the name and a NUL, if they fit
 * @param len    capacity of `out`
 * @return       number of characters of the name, without the NUL; 0 if the cause is unknown
 */
size_t iim_cause_name(uint8_t cause, char *out, size_t len);

/**
 * Writes the meaning of a cause, as in docs/reference/causes.md: a sentence without a full stop.
 * Every sentence and its NUL fit in 128 bytes.
 *
 * @param cause  the number of the cause
 * @param out    receives the sentence and a NUL, if they fit
 * @param len    capacity of `out`
 * @return       number of characters of the sentence, without the NUL; 0 if the cause is unknown
 */
size_t iim_cause_text(uint8_t cause, char *out, size_t len);

/**
 * Writes the name of a layer, such as `dataset` for IIM_LAYER_DATASET.
 *
 * @param layer  the number of the layer
 * @param out    receives the name and a NUL, if they fit
 * @param len    capacity of `out`
 * @return       number of characters of the name, without the NUL; 0 if the layer is unknown
 */
size_t iim_layer_name(uint8_t layer, char *out, size_t len);

/**
 * Writes the name of a dataset of the tables of the standard, such as `Headline` for 2:105.
 *
 * @param rec  the record
 * @param set  the number of the dataset within it
 * @param out  receives the name and a NUL, if they fit
 * @param len  capacity of `out`
 * @return     number of characters of the name, without the NUL; 0 if the dataset is unknown
 */
size_t iim_dataset_name(uint8_t rec, uint8_t set, char *out, size_t len);

/**
 * Writes the line that `iimwire check` prints for a refusal, without its line end, and a NUL, such
 * as `1 refused at octet 46 by layer record on 1:70, cause 14 Missing`. Every line and its NUL fit
 * in 128 bytes.
 *
 * @param number  number of the envelope in its input, from 1
 * @param answer  the answer with the refusal: its status is IIM_REFUSED, of a call that reads an
 *                envelope, or IIM_TRUNCATED
 * @param out     receives the line and a NUL, if they fit; otherwise its contents are unspecified
 * @param len     capacity of `out`
 * @return        number of characters of the line, without the NUL; 0 for any other status
 */
size_t iim_error_text(uint64_t number, const iim_answer *answer, char *out, size_t len);

/**
 * Returns the version of the interface that the library implements. Allocates no memory.
 *
 * @return  the IIM_VERSION of that interface
 */
uint32_t iim_version(void);

#ifdef __cplusplus
}
#endif

#endif
