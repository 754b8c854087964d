// Types of the package. README.md describes it.

/** Limits on records 1 and 2 of an envelope, together. */
export interface Limits {
  /** Bytes of data. */
  readonly octets: number;
  /** Number of datasets. */
  readonly fields: number;
}
/** The limits of wire copy: 65,536 bytes, 512 datasets. */
export const WIRE: Limits;
/** The version of the interface of the module. */
export const VERSION: number;

/** Bytes in chunks: a web stream, any iterable of chunks, or one chunk. */
export type Source =
  | ReadableStream<Uint8Array>
  | AsyncIterable<Uint8Array>
  | Iterable<Uint8Array>
  | Uint8Array;

/** A dataset of records 1 and 2. */
export interface Dataset {
  readonly record: number;
  readonly number: number;
  readonly data: Uint8Array;
}

/** The header and the trailer of a message. `part` is a number of `iim.h`. */
export interface Header {
  readonly part: number;
  readonly source: Uint8Array;
  readonly number: Uint8Array;
  readonly priority: Uint8Array;
  readonly category: Uint8Array;
  readonly words: Uint8Array;
  readonly info: Uint8Array;
  readonly trailer: Uint8Array;
}

/** The sizes of an object; `null` for each that the envelope does not state. */
export interface Sizes {
  readonly mode: bigint | null;
  readonly subfile: bigint | null;
  readonly announced: bigint | null;
  readonly maximum: bigint | null;
  readonly subfiles: bigint;
  readonly total: bigint;
}

/** A complete envelope. */
export interface Envelope {
  /** Its number in the input, from 1. */
  readonly nth: number;
  /** The offset of its first byte in the input. */
  readonly at: number;
  /** Its length in bytes. */
  readonly length: number;
  /** Its saved state, from which its datasets are read. */
  readonly ticket: Uint8Array;
  /** Its story if `collectStory` is set, otherwise `null`. Lines are joined by LF. */
  readonly story: Uint8Array | null;
  readonly datasets: Dataset[];
  readonly header: Header;
  readonly sizes: Sizes;
  /** Returns the data of the first dataset with these numbers, or `null`. */
  first(record: number, number: number): Uint8Array | null;
}

/** The base class of the errors that report invalid input. */
export class IimError extends Error {}

/** Input is invalid. The message is the line that `iimwire check` prints. */
export class RefusedError extends IimError {
  /** The number of the envelope in the input, from 1. */
  readonly nth: number;
  /** The offset of its first byte in the input. */
  readonly at: number;
  /** The offset of the rejected byte from the first byte of the envelope. */
  readonly octet: number;
  /** The offset of the rejected byte from the first byte of the input. */
  readonly octetInInput: number;
  /** The layer that rejects it, such as "message". */
  readonly layer: string;
  readonly record: number;
  readonly number: number;
  /** Both numbers of the dataset named, such as "8:10". */
  readonly dataset: string;
  readonly cause: number;
  readonly causeName: string;
  /** The meaning of the cause. */
  readonly causeText: string;
  /** The saved state before the rejected byte. */
  readonly ticket: Uint8Array;
  /** The datasets received before the rejected byte. */
  readonly datasets: Dataset[];
}

/** The input ends inside an envelope: more bytes may complete it. */
export class TruncatedError extends RefusedError {}

/** Bytes are not a saved receiver, or are not one within the limits. */
export class TicketError extends IimError {
  readonly cause: number;
  readonly causeName: string;
}

/** A script is invalid. The message is the line that `iimwire pack` prints. */
export class ScriptError extends IimError {
  /** The number of the invalid line, from 1. */
  readonly line: number;
  readonly cause: number;
  readonly causeName: string;
}

/** The memory of the module cannot grow. No byte was consumed, and the call may be repeated. */
export class MemoryError extends IimError {}

export interface ReceiverOptions {
  readonly limits?: Limits;
  /** Whether to store the story of the envelope in progress. */
  readonly collectStory?: boolean;
  /** Called with each part of a story, and the number of its envelope. */
  readonly onText?: ((text: Uint8Array, nth: number) => void) | null;
}

/** Receives envelopes from chunks of any length. */
export class Receiver {
  constructor(options?: ReceiverOptions);
  /** The number of the envelope in progress, from 1. */
  readonly nth: number;
  /** The offset in the input of its first byte. */
  readonly at: number;
  /** The offset in the input of the next byte. */
  readonly offset: number;
  readonly limits: Limits;
  /** Consumes a chunk: the envelopes that end in it, and the refusal of a byte, or `null`. */
  feed(chunk: Uint8Array): { envelopes: Envelope[]; refusal: RefusedError | null };
  /** Ends the input: an error if an envelope is incomplete, otherwise `null`. */
  end(): TruncatedError | null;
  /** Returns the receiver as bytes. */
  save(): Uint8Array;
  /** Returns a receiver that was saved, here or by the Python package. */
  static resume(saved: Uint8Array, options?: Omit<ReceiverOptions, "limits">): Receiver;
}

/** Returns the length of the envelope at the beginning of bytes. Throws `RefusedError`. */
export function check(octets: Uint8Array, options?: { readonly limits?: Limits }): number;

/** Yields the envelopes of a source. Throws `RefusedError` at the first invalid byte. */
export function read(source: Source, options?: ReceiverOptions): AsyncGenerator<Envelope, void, void>;

/** The row of an audit for an envelope: the columns of `iimwire audit`. */
export interface AuditRow {
  readonly at: number;
  readonly length: number;
  readonly service: Uint8Array;
  readonly number: Uint8Array;
  readonly dateSent: Uint8Array;
  readonly priority: string | null;
  readonly size: number;
  readonly subfiles: number;
  readonly announced: number;
  readonly counted: number;
  /** Complete seconds since it was sent, or `null`. */
  readonly age: number | null;
  readonly copy: "free" | "held" | "expired";
  /** Seconds since 1970, or `null`. */
  readonly release: number | null;
  readonly expires: number | null;
}

/** Yields a row for each envelope of a source. Throws `RefusedError` at the first invalid byte. */
export function audit(
  source: Source,
  options?: { readonly now?: Date | number; readonly limits?: Limits },
): AsyncGenerator<AuditRow, void, void>;

/** Returns the envelope of a script. Throws `ScriptError`. */
export function pack(
  script: Uint8Array | string,
  options?: {
    readonly subfile?: number | bigint;
    readonly unknown?: boolean;
    readonly maximum?: number | bigint | null;
  },
): Uint8Array;

/** A file that is read at any offset. */
export interface RandomAccess {
  readonly size: number;
  /** Returns `count` bytes from an offset on, or fewer at the end. */
  take(at: number, count: number): Uint8Array;
}

export interface Item {
  readonly at: number;
  readonly octets: number;
  readonly kind: "dataset" | "part" | "line";
  readonly label: string;
  readonly value: string;
  readonly dataset?: [number, number | null];
  /** A bigint if it is above 2^53. */
  readonly count?: number | bigint | null;
  readonly text?: string;
  readonly text_octets?: number;
  readonly is_refused?: true;
}

/** An explanation, in the form of `iim-explain --json`. */
export interface Explanation {
  readonly form: number;
  readonly size: number;
  readonly verdict: string;
  readonly accepted: number;
  readonly refused: {
    readonly envelope: number;
    readonly at: number;
    readonly octet: number;
    readonly octet_in_file: number;
    readonly ends_early: boolean;
    readonly layer: string;
    readonly dataset: string;
    readonly name: string | null;
    readonly cause: number;
    readonly cause_name: string;
    readonly meaning: string;
    readonly reason: string;
    readonly advice: string | null;
    readonly accepted_next: number[];
    readonly fixes: {
      readonly kind: string;
      readonly text: string;
      readonly accepts_envelope: boolean;
      readonly single: { readonly first: number; readonly last: number; readonly values: number[] };
    }[];
  } | null;
  readonly sections: { readonly title: string; readonly lines: string[] }[];
  readonly ask: string | null;
  readonly envelopes: {
    readonly envelope: number;
    readonly at: number;
    readonly octets: number;
    readonly id: [string | null, string | null, string | null];
    readonly is_refused: boolean;
  }[];
  readonly envelopes_left_out: number;
  readonly shown: {
    readonly envelope: number;
    readonly at: number;
    readonly octets: number;
    readonly encoding: { readonly name: string; readonly source: "given" | "declared" | "guessed" };
    readonly items: Item[];
    readonly notes: string[];
  }[];
}

/** Explains a file: what its envelopes have, and why one is refused. */
export function explain(
  source: Uint8Array | RandomAccess,
  options?: {
    readonly limits?: Limits;
    /** The encoding of text; `null` for the one that 1:90 declares, or a guess. */
    readonly encoding?: string | null;
    /** The number of the envelope to show, or `null` for the refused one. */
    readonly wanted?: number | null;
    /** Whether to show accepted envelopes, too, and all fixes. */
    readonly all?: boolean;
  },
): Explanation;

/** Returns what the tables state of a dataset, or `null`. `kind` and `duty` are numbers of `iim.h`. */
export function dataset(
  record: number,
  number: number,
): {
  readonly name: string | null;
  readonly least: bigint;
  readonly greatest: bigint;
  readonly kind: number;
  readonly duty: number;
  readonly repeats: boolean;
} | null;

/** Returns the number of bytes of the memory of the module. */
export function memoryBytes(): number;
