// A program that uses all types of the package.
import * as iim from "iim";
import { IimError, Receiver, RefusedError, TruncatedError, audit, check, explain, pack, read } from "iim";
const octets: Uint8Array = pack("text", { subfile: 7n, unknown: true, maximum: null });
const length: number = check(octets, { limits: iim.WIRE });
async function all(stream: ReadableStream<Uint8Array>): Promise<string[]> {
  const found: string[] = [];
  for await (const envelope of read(stream, { onText: (text, nth) => void [text.length, nth] })) {
    const headline: Uint8Array | null = envelope.first(2, 105);
    if (headline) found.push(new TextDecoder().decode(headline));
  }
  for await (const row of audit([octets], { now: new Date() })) found.push(row.copy);
  return found;
}
const receiver = Receiver.resume(new Receiver({ collectStory: true }).save());
const { envelopes, refusal } = receiver.feed(octets);
const cause: number = refusal === null ? envelopes.length : refusal.cause;
const end: TruncatedError | null = receiver.end();
const error: IimError | null = end;
const fixes: string[] = explain({ size: 0, take: () => octets }).refused?.fixes.map((each) => each.text) ?? [];
export { RefusedError, all, cause, error, fixes, length };
