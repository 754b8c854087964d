// The errors of the package.

/** The base class of the errors that report invalid input. */
export class IimError extends Error {
  constructor(message) {
    super(message);
    this.name = new.target.name;
  }
}

/** Input is invalid. The message is the line that `iimwire check` prints. */
export class RefusedError extends IimError {
  constructor(refusal, ticket, datasets) {
    const { nth, octet, layer, dataset, cause, causeName } = refusal;
    super(`${nth} refused at octet ${octet} by layer ${layer} on ${dataset}, cause ${cause} ${causeName}`);
    Object.assign(this, refusal, { ticket, datasets, octetInInput: refusal.at + octet });
  }
}

/** The input ends inside an envelope: more bytes may complete it. */
export class TruncatedError extends RefusedError {}

/** Bytes are not a ticket or a saved receiver. */
export class TicketError extends IimError {
  constructor(cause, causeName) {
    super(cause ? `no ticket: cause ${cause} ${causeName}` : causeName);
    Object.assign(this, { cause, causeName });
  }
}

/** A script is invalid. The message is the line that `iimwire pack` prints. */
export class ScriptError extends IimError {
  constructor(line, cause, causeName) {
    super(`refused: script line ${line} cause ${cause} ${causeName}`);
    Object.assign(this, { line, cause, causeName });
  }
}

/** The memory of the module cannot grow. The call may be repeated. */
export class MemoryError extends IimError {
  constructor() {
    super("the module could not allocate memory");
  }
}
