/**
 * @file
 * The sentence of a status of iim.h.
 *
 * The function has a body, and iim.h has declarations only, which other languages can read.
 */
#ifndef IIM_STRERROR_H
#define IIM_STRERROR_H

#include "iim.h"

/**
 * Returns a sentence for a status, without a full stop: a constant string, which needs no memory.
 * For what is wrong with an envelope, use iim_error_text() or iim_cause_text().
 *
 * @param status  a status of an answer, or the result of a call
 * @return        the sentence; `unknown status` for any other number
 */
static inline const char *iim_strerror(int status) {
    static const char *const texts[] = {
        "complete",
        "the envelope can continue",
        "a byte, or a line of a script, is rejected",
        "the input ends inside an envelope",
        "there is no such dataset",
        "a buffer is too short",
        "an allocation failed",
        "not a ticket from which the call can continue",
        "the options for packing are invalid",
        "the instant is invalid",
        "the unpacker is closed, or open where it must be closed",
        "a byte was rejected before",
    };
    const int count = (int)(sizeof texts / sizeof texts[0]);
    return status >= 0 && status < count ? texts[status] : "unknown status";
}

#endif
