/* Packs a test case as a script: what is packed must be accepted, and no byte may be written unless all have room. */
#include "fuzz.h"

/* The limits under which packed envelopes of short scripts are read. */
static const iim_limits WIDE = {65536, 8192};

/* Returns the way of packing that a number selects. Of an object of unknown size the packer asks for the memory of a full subfile. */
static iim_packing packing_of(uint32_t number) {
    const uint64_t sizes[8] = {0, 1, 2, 7, 100, 1024, 65536, 1 << 20};
    bool is_unknown = number >> 3 & 1, has_max = number >> 4 & 1;
    return (iim_packing){sizes[number & 7], is_unknown, has_max && number % 64 != 0, (uint64_t)1 << (number >> 5 & 31)};
}

/* Packs into a buffer with a byte too few: nothing may be written. */
static void pack_short(iim_packing packing, const uint8_t *script, size_t len, size_t written) {
    uint8_t *out = room(written - 1);
    iim_answer a;
    memset(out, '*', written - 1);
    iim_pack(packing, script, len, out, written - 1, &a);
    must_hold(a.status == IIM_SHORT && a.written == written, "a buffer that is too short", &a);
    for (size_t i = 0; i + 1 < written; i++)
        must_hold(out[i] == '*', "is as it was", &a);
    give_back(out);
}

/* Reads back what was packed. */
static void read_back(const uint8_t *packed, size_t len) {
    uint8_t *text = room(len), *next = room(WIDE.octets + 6 * WIDE.fields + 256);
    iim_answer checked, fed;
    iim_check(WIDE, packed, len, &checked);
    must_hold(checked.status == IIM_DONE && checked.octet == len, "what is packed is one envelope", &checked);
    iim_feed(WIDE, NULL, 0, 0, packed, len, text, len, next, WIDE.octets + 6 * WIDE.fields + 256, &fed);
    report(&fed);
    must_hold(fed.status == IIM_DONE && fed.used == len, "and is fed as one", &fed);
    ask_all(next, fed.ticket);
    report_state(next, fed.ticket, len);
    give_back(text), give_back(next);
}

int LLVMFuzzerTestOneInput(const uint8_t *data, size_t size) {
    uint32_t seed = take_seed(data, &size);
    iim_packing packing = packing_of(next_number(&seed) % 4 == 0 ? next_number(&seed) : 0);
    uint8_t *script = copy_of(data, size);
    iim_answer told, a;
    iim_pack_size(packing, script, size, &told);
    report(&told);
    must_hold(told.status == IIM_DONE || told.status == IIM_REFUSED || told.status == IIM_BAD_PACKING, "a script is packed or refused", &told);
    uint8_t *out = room(told.status == IIM_DONE ? told.written : 0);
    iim_pack(packing, script, size, out, told.status == IIM_DONE ? told.written : 0, &a);
    must_hold(a.status == told.status && a.written == told.written && a.octet == told.octet && a.cause == told.cause, "iim_pack and iim_pack_size agree", &a);
    if (a.status == IIM_DONE) {
        read_back(out, a.written);
        pack_short(packing, script, size, a.written);
    }
    give_back(script), give_back(out);
    return 0;
}
