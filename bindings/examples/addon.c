/*
 * Makes the library available to Node: the module iim.node, with one function.
 *
 *   cc -shared -fPIC -I/usr/include/node -Ibindings/c -o iim.node bindings/examples/addon.c bindings/out/libiim.a
 *
 * read(Buffer) reads the envelope at the beginning of the buffer. It returns { octets, headline },
 * with the headline as a Buffer or null, or { refusal }, the line that `iimwire check` prints.
 */
#include "iim.h"

#include <inttypes.h>
#include <node_api.h>
#include <stdio.h>
#include <stdlib.h>

enum { FIELDS = 512, TICKET = 65536 + 6 * FIELDS + 256 };

/* Each worker of Node calls the functions on its own thread, and all workers share this module. */
static _Thread_local uint8_t ticket[TICKET];

static void set(napi_env env, napi_value object, const char *name, napi_value value) {
    napi_set_named_property(env, object, name, value);
}

/* Returns the line of a refusal, without the number of the envelope. */
static napi_value refusal(napi_env env, const iim_answer *answer) {
    char layer[64], cause[64], line[256];
    napi_value text;
    iim_layer_name(answer->layer, layer, sizeof layer);
    iim_cause_name(answer->cause, cause, sizeof cause);
    snprintf(line, sizeof line, "refused at octet %" PRIu64 " by layer %s on %d:%02d, cause %d %s", answer->octet, layer, answer->rec,
             answer->set, answer->cause, cause);
    napi_create_string_latin1(env, line, NAPI_AUTO_LENGTH, &text);
    return text;
}

/* Returns the headline in the ticket, or null. */
static napi_value headline(napi_env env, size_t len) {
    iim_dataset datasets[FIELDS];
    iim_answer answer;
    napi_value value;
    iim_fields(ticket, len, 0, datasets, FIELDS, &answer);
    for (size_t n = 0; n < answer.written; n++) {
        const iim_span data = datasets[n].data;
        if (datasets[n].rec == 2 && datasets[n].set == 105) {
            napi_create_buffer_copy(env, data.count, ticket + data.offset, NULL, &value);
            return value;
        }
    }
    napi_get_null(env, &value);
    return value;
}

static napi_value read_envelope(napi_env env, napi_callback_info info) {
    const iim_limits limits = {0, 0};
    iim_answer answer;
    size_t count = 1, len = 0;
    void *octets = NULL;
    napi_value word, object, number;
    if (napi_get_cb_info(env, info, &count, &word, NULL, NULL) != napi_ok || count != 1 ||
        napi_get_buffer_info(env, word, &octets, &len) != napi_ok) {
        napi_throw_type_error(env, NULL, "a Buffer is wanted");
        return NULL;
    }
    uint8_t *text = malloc(len + 1);
    if (text == NULL) {
        napi_throw_error(env, NULL, "out of memory");
        return NULL;
    }
    iim_feed(limits, NULL, 0, 0, octets, len, text, len, ticket, sizeof ticket, &answer);
    free(text);
    size_t ticket_len = answer.ticket;
    if (answer.status == IIM_MORE)
        iim_end(limits, ticket, ticket_len, answer.octet, &answer);
    napi_create_object(env, &object);
    if (answer.status == IIM_DONE) {
        napi_create_int64(env, (int64_t)answer.octet, &number);
        set(env, object, "octets", number);
        set(env, object, "headline", headline(env, ticket_len));
    } else {
        set(env, object, "refusal", refusal(env, &answer));
    }
    return object;
}

NAPI_MODULE_INIT() {
    napi_value function;
    napi_create_function(env, "read", NAPI_AUTO_LENGTH, read_envelope, NULL, &function);
    set(env, exports, "read", function);
    return exports;
}
