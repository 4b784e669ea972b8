/* The border between Node and the C library (clients/c/rudzkvano.h), in N-API. index.js is its only caller.

   Numbers cross the border in one Uint32Array that both sides hold, the words; texts as one string that has all texts of a call, with the
   place where each ends among the words. JavaScript counts these places in UTF-16 units and the library in bytes: they are the same where all
   texts are ASCII, and else they are converted here. A reply has words of its own, the page, with bytes in which its texts are if they are few,
   short and ASCII.

   The first HEAD words are the head. A call leaves its code in word 0. One call does what one step needs: a client that answers once is opened
   and the request begun, a reply is handed in and the next round is read, or the answer, and that client is closed. */
#define NAPI_VERSION 8
#include "../c/rudzkvano.h"
#include <node_api.h>
#include <stdbool.h>
#include <stdlib.h>
#include <string.h>

/* Codes beside those of the library. NEED_ROOM: a round is out that needs as many words as word 1 says; `look` reads it then. TEXT_TOO_LONG: a
   text is longer than a string may be. Where an answer took more than KEPT_BYTES, the rest is given back. */
enum { HEAD = 8, NEED_ROOM = 3, TEXT_TOO_LONG = -1000, MOST_ARGUMENTS = 5, KEPT_BYTES = 1 << 20 };

/* What one environment (Node's main thread, or a worker) shares with its JavaScript: the words, and the page that a reply is put together in, which
   has words and bytes. `bytes` is where other texts are put together and taken apart. `most_units` is how many UTF-16 units a string may have. */
typedef struct {
    napi_ref array, page_array, page_bytes_array;
    uint32_t *words, *page;
    uint8_t *page_bytes, *bytes;
    size_t words_len, page_len, page_bytes_len, room, most_units;
} border;

/* The queries of a server, by which its clients begin requests: freed with the last of these `users`, which are the server and the clients. */
typedef struct {
    rz_handle handle;
    size_t users;
} queries;

/* A server or a client, or nothing yet. `once`: the client is closed as soon as its answer is read, or the request is given up. `loads`: it was
   begun to load keys last, and not to answer a request. */
typedef struct {
    rz_handle handle;
    queries *queries;
    bool once, loads;
} held;

typedef struct {
    border *border;
    held *held;
    napi_value values[MOST_ARGUMENTS];
} call;

static napi_value refused(napi_env env, const char *why) {
    napi_throw_error(env, NULL, why);
    return NULL;
}

/* Reads the arguments of a call, the first of which is what `hold` returned where `handle` says so. */
static bool arguments(napi_env env, napi_callback_info info, call *call, bool handle) {
    size_t count = MOST_ARGUMENTS;
    void *data;
    if (napi_get_cb_info(env, info, &count, call->values, NULL, &data) != napi_ok) return false;
    call->border = data;
    return !handle || napi_get_value_external(env, call->values[0], (void **)&call->held) == napi_ok;
}

static napi_value tell(border *border, int32_t code) {
    border->words[0] = (uint32_t)code;
    return NULL;
}

/* ---- Texts. */

static bool make_room(border *border, size_t bytes) {
    if (bytes <= border->room) return true;
    void *at = realloc(border->bytes, bytes + bytes / 2);
    if (!at) return false;
    border->bytes = at;
    border->room = bytes + bytes / 2;
    return true;
}

/* Gives back what a large answer took. */
static void give_back(border *border) {
    if (border->room <= KEPT_BYTES) return;
    void *at = realloc(border->bytes, KEPT_BYTES);
    if (!at) return;
    border->bytes = at;
    border->room = KEPT_BYTES;
}

/* Writes a string to the bytes from a place on, as UTF-8. */
static bool put_text(napi_env env, border *border, napi_value value, size_t from, size_t *len) {
    size_t units, room = border->room - from;
    if (napi_get_value_string_utf8(env, value, (char *)border->bytes + from, room, len) != napi_ok) return false;
    /* what didn't fit left less than a character and the 0 after it */
    if (*len + 5 <= room) return true;
    if (napi_get_value_string_utf16(env, value, NULL, 0, &units) != napi_ok || !make_room(border, from + 3 * units + 5)) return false;
    return napi_get_value_string_utf8(env, value, (char *)border->bytes + from, border->room - from, len) == napi_ok;
}

/* Puts ends that count UTF-16 units as they count bytes. */
static void to_bytes(const uint8_t *bytes, size_t len, uint32_t *ends, size_t count) {
    size_t at = 0, units = 0;
    for (size_t i = 0; i < count; i++) {
        while (units < ends[i] && at < len) {
            units += bytes[at] < 0xF0 ? 1 : 2;
            at += bytes[at] < 0x80 ? 1 : bytes[at] < 0xE0 ? 2 : bytes[at] < 0xF0 ? 3 : 4;
        }
        ends[i] = (uint32_t)at;
    }
}

/* Puts ends that count bytes as they count UTF-16 units. */
static void to_units(const uint8_t *bytes, uint32_t *ends, size_t count) {
    size_t at = 0, units = 0;
    for (size_t i = 0; i < count; i++) {
        for (; at < ends[i]; at++) units += (bytes[at] & 0xC0) == 0x80 ? 0 : bytes[at] < 0xF0 ? 1 : 2;
        ends[i] = (uint32_t)units;
    }
}

static bool is_ascii(const uint8_t *bytes, size_t len) {
    uint8_t all = 0;
    for (size_t i = 0; i < len; i++) all |= bytes[i];
    return all < 0x80;
}

static size_t units_of(const uint8_t *bytes, size_t len) {
    size_t units = 0;
    for (size_t i = 0; i < len; i++) units += (bytes[i] & 0xC0) == 0x80 ? 0 : bytes[i] < 0xF0 ? 1 : 2;
    return units;
}

/* The first bytes as a string, and the ends of its texts in UTF-16 units; or TEXT_TOO_LONG. */
static napi_value string_of(napi_env env, border *border, size_t len, uint32_t *ends, size_t count) {
    napi_value string;
    const char *bytes = (const char *)border->bytes;
    if (len > border->most_units && units_of(border->bytes, len) > border->most_units) return tell(border, TEXT_TOO_LONG);
    bool ascii = is_ascii(border->bytes, len);
    if (!ascii) to_units(border->bytes, ends, count);
    napi_status status = (ascii ? napi_create_string_latin1 : napi_create_string_utf8)(env, bytes, len, &string);
    return status == napi_ok ? string : tell(border, TEXT_TOO_LONG);
}

/* ---- What is held. */

/* Closes a server or a client. */
static void let_go(held *held) {
    rz_close(&held->handle);
    if (held->queries && !--held->queries->users) {
        rz_close(&held->queries->handle);
        free(held->queries);
    }
    held->queries = NULL;
}

/* The number that two words are, of which the first is the lower half. */
static size_t number_at(const uint32_t *words) {
    return (size_t)words[1] << 32 | words[0];
}

/* Limits a client, by how many bytes an answer may have, how much work it may be, both in two words, and how many rounds it may take. */
static int32_t limit(rz_handle *client, const uint32_t *words) {
    size_t bytes = number_at(words), work = number_at(words + 2);
    int32_t code = bytes ? rz_limit_answers(client, bytes) : RZ_DONE;
    if (code >= 0 && work) code = rz_limit_work(client, work);
    if (code >= 0 && words[4]) code = rz_limit_rounds(client, words[4]);
    return code;
}

/* Opens a client of a server. The head has the number of limits on batches, which come after it, and the limits on answers. */
static int32_t open_client(border *border, held *client, held *server) {
    uint32_t *words = border->words;
    if (HEAD + (size_t)words[0] > border->words_len) return RZ_BAD_SIZE;
    int32_t code = rz_client(&server->handle, &client->handle, words + HEAD, words[0]);
    if (code < 0) return code;
    client->queries = server->queries;
    client->queries->users++;
    return limit(&client->handle, words + 1);
}

/* Opens the client of a call that names its server; else it is to be open. */
static int32_t opened(napi_env env, call *call) {
    held *server;
    if (napi_get_value_external(env, call->values[1], (void **)&server) == napi_ok) return open_client(call->border, call->held, server);
    return call->held->queries ? RZ_DONE : RZ_BAD_HANDLE;
}

/* ---- The steps of a request, or of keys that are loaded. */

/* The orders of the round that is out. The head has RZ_ROUND and the numbers of orders, keys and texts. After it come for each order its
   loader, for each order how many keys it has, for each key how many texts it has, and the ends of the texts. */
static napi_value read_round(napi_env env, border *border, rz_handle *client, const rz_sizes_t *sizes) {
    size_t ends = HEAD + 2 * sizes->orders + sizes->keys;
    uint32_t *words = border->words;
    if (ends + sizes->texts > border->words_len) {
        words[1] = (uint32_t)(ends + sizes->texts);
        return tell(border, NEED_ROOM);
    }
    if (!make_room(border, sizes->bytes)) return tell(border, RZ_NO_MEMORY);
    int32_t code = rz_orders(client, words + HEAD, sizes->orders, words + HEAD + sizes->orders, sizes->orders, words + HEAD + 2 * sizes->orders,
                             sizes->keys, words + ends, sizes->texts, border->bytes, sizes->bytes);
    if (code < 0) return tell(border, code);
    words[1] = (uint32_t)sizes->orders;
    words[2] = (uint32_t)sizes->keys;
    words[3] = (uint32_t)sizes->texts;
    tell(border, RZ_ROUND);
    return string_of(env, border, sizes->bytes, words + ends, sizes->texts);
}

/* The answer. The head has RZ_DONE. */
static napi_value read_answer(napi_env env, border *border, held *client, const rz_sizes_t *sizes) {
    if (!make_room(border, sizes->answer)) return tell(border, RZ_NO_MEMORY);
    int32_t code = rz_answer(&client->handle, border->bytes, sizes->answer);
    if (code < 0) return tell(border, code);
    if (client->once) let_go(client);
    tell(border, RZ_DONE);
    napi_value answer = string_of(env, border, sizes->answer, NULL, 0);
    give_back(border);
    return answer;
}

/* The outcomes of loaded keys. The head has RZ_DONE and the numbers of keys, rows, texts and faults. After it come for each key how many rows it
   has, for each row how many columns it has, and the ends of the texts of the rows and of the faults, which come after them. */
static napi_value read_outcomes(napi_env env, border *border, rz_handle *client) {
    rz_load_sizes_t sizes;
    int32_t code = rz_load_sizes(client, &sizes);
    if (code < 0) return tell(border, code);
    size_t ends = HEAD + sizes.keys + sizes.rows, texts = sizes.texts + sizes.faults, len = sizes.bytes + sizes.fault_bytes;
    uint32_t *words = border->words, *fault_ends = words + ends + sizes.texts;
    if (ends + texts > border->words_len) {
        words[1] = (uint32_t)(ends + texts);
        return tell(border, NEED_ROOM);
    }
    if (!make_room(border, len)) return tell(border, RZ_NO_MEMORY);
    code = rz_loaded(client, words + HEAD, sizes.keys, words + HEAD + sizes.keys, sizes.rows, words + ends, sizes.texts, border->bytes, sizes.bytes,
                     fault_ends, sizes.faults, border->bytes + sizes.bytes, sizes.fault_bytes);
    if (code < 0) return tell(border, code);
    for (size_t fault = 0; fault < sizes.faults; fault++) fault_ends[fault] += (uint32_t)sizes.bytes;
    words[1] = (uint32_t)sizes.keys;
    words[2] = (uint32_t)sizes.rows;
    words[3] = (uint32_t)sizes.texts;
    words[4] = (uint32_t)sizes.faults;
    tell(border, RZ_DONE);
    napi_value outcomes = string_of(env, border, len, words + ends, texts);
    give_back(border);
    return outcomes;
}

static napi_value read_state(napi_env env, border *border, held *client, int32_t code) {
    rz_sizes_t sizes;
    if (code >= 0 && code != RZ_WAITING) code = rz_sizes(&client->handle, &sizes);
    if (code != RZ_DONE) return tell(border, code);
    if (sizes.orders) return read_round(env, border, &client->handle, &sizes);
    return client->loads ? read_outcomes(env, border, &client->handle) : read_answer(env, border, client, &sizes);
}

static napi_value go_on(napi_env env, border *border, held *client, int32_t code) {
    if (code < 0) return tell(border, code);
    return read_state(env, border, client, rz_next(&client->handle));
}

/* Goes on with what was begun, if it was. */
static napi_value go_begun(napi_env env, border *border, held *client, int32_t code, bool loads) {
    if (code >= 0) client->loads = loads;
    return go_on(env, border, client, code);
}

/* look(client): a round, or outcomes, that needed room. */
static napi_value look(napi_env env, napi_callback_info info) {
    call call;
    if (!arguments(env, info, &call, true)) return refused(env, "look");
    return read_state(env, call.border, call.held, RZ_ROUND);
}

/* begin(client, server, line): begins the answer to JSON text, and goes on. Where there is a server, the client is first opened, as `client` does. */
static napi_value begin(napi_env env, napi_callback_info info) {
    call call;
    size_t len;
    if (!arguments(env, info, &call, true) || !put_text(env, call.border, call.values[2], 0, &len)) return refused(env, "begin");
    int32_t code = opened(env, &call);
    if (code >= 0) code = rz_begin(&call.held->handle, &call.held->queries->handle, call.border->bytes, len);
    return go_begun(env, call.border, call.held, code, false);
}

/* beginRequest(client, server, query, operation, variables): begins the answer to a query in the same way. */
static napi_value begin_request(napi_env env, napi_callback_info info) {
    call call;
    size_t lens[3], at = 0;
    if (!arguments(env, info, &call, true)) return refused(env, "beginRequest");
    for (int i = 0; i < 3; at += lens[i++])
        if (!put_text(env, call.border, call.values[i + 2], at, &lens[i])) return refused(env, "beginRequest");
    const uint8_t *query = call.border->bytes, *operation = query + lens[0], *variables = operation + lens[1];
    int32_t code = opened(env, &call);
    if (code >= 0) code = rz_begin_request(&call.held->handle, &call.held->queries->handle, query, lens[0], operation, lens[1], variables, lens[2]);
    return go_begun(env, call.border, call.held, code, false);
}

/* beginLoad(client, text): begins to load keys, and goes on. The head has the loader, how many keys and texts there are, and the text's length in
   UTF-16 units. After it come for each key how many texts it has, and the ends. */
static napi_value begin_load(napi_env env, napi_callback_info info) {
    call call;
    size_t len;
    if (!arguments(env, info, &call, true) || !put_text(env, call.border, call.values[1], 0, &len)) return refused(env, "beginLoad");
    uint32_t *words = call.border->words;
    size_t keys = words[1], texts = words[2];
    if (HEAD + keys + texts > call.border->words_len) return tell(call.border, RZ_BAD_SIZE);
    uint32_t *shapes = words + HEAD, *ends = shapes + keys;
    if (len != words[3]) to_bytes(call.border->bytes, len, ends, texts);
    int32_t code = rz_begin_load(&call.held->handle, words[0], shapes, keys, ends, texts, call.border->bytes, len);
    return go_begun(env, call.border, call.held, code, true);
}

/* Takes the rows for an order from the page, whose texts are these. */
static int32_t take_reply(rz_handle *client, uint32_t *page, const uint8_t *bytes, size_t len) {
    size_t keys = page[2], texts = page[3];
    uint32_t *rows = page + HEAD, *ends = rows + keys, row;
    if (page[5]) return rz_take_keyed_rows(client, page[0], page[1], rows[0], rows + 1, keys - 1, ends, texts, bytes, len, &row);
    return rz_take_rows(client, page[0], page[1], rows, keys, ends, texts, bytes, len);
}

/* reply(client, text): takes the rows for an order, and goes on. The head of the page has the order, how many columns, keys and texts there are, the
   length of the texts, whether the rows are keyed, and whether the page's bytes have the texts: else these are `text`, whose length counts UTF-16
   units. After the head come the numbers of rows and the ends. Keyed rows are in any order, counted as those of one key, and after their number come
   the places of the keys with a fault, counted as keys. */
static napi_value reply(napi_env env, napi_callback_info info) {
    call call;
    if (!arguments(env, info, &call, true)) return refused(env, "reply");
    border *border = call.border;
    uint32_t *page = border->page;
    size_t keys = page[2], texts = page[3], len = page[4];
    bool has_bytes = page[6];
    if (HEAD + keys + texts > border->page_len || (page[5] && !keys)) return tell(border, RZ_BAD_SIZE);
    if (has_bytes && len > border->page_bytes_len) return tell(border, RZ_BAD_SIZE);
    if (!has_bytes && !put_text(env, border, call.values[1], 0, &len)) return refused(env, "reply");
    if (len != page[4]) to_bytes(border->bytes, len, page + HEAD + keys, texts);
    const uint8_t *bytes = has_bytes ? border->page_bytes : border->bytes;
    return go_on(env, border, call.held, take_reply(&call.held->handle, page, bytes, len));
}

/* fail(client, text): takes it that the batch of an order failed, and goes on. The head has the order. */
static napi_value fail(napi_env env, napi_callback_info info) {
    call call;
    size_t len;
    if (!arguments(env, info, &call, true) || !put_text(env, call.border, call.values[1], 0, &len)) return refused(env, "fail");
    return go_on(env, call.border, call.held, rz_take_failed(&call.held->handle, call.border->words[0], call.border->bytes, len));
}

/* cancel(client): gives up what was begun. */
static napi_value cancel(napi_env env, napi_callback_info info) {
    call call;
    if (!arguments(env, info, &call, true)) return refused(env, "cancel");
    give_back(call.border);
    if (call.held->once) let_go(call.held);
    return tell(call.border, call.held->once ? RZ_DONE : rz_cancel(&call.held->handle));
}

/* ---- What is known. */

/* The head has the loader, how many texts the key has, how many columns, rows and texts there are, and the lengths of the key and of the texts
   in UTF-16 units. After it come the ends of the key's texts, and of the others. */
typedef struct {
    call call;
    const uint8_t *key, *bytes;
    size_t key_len, len, key_texts, texts;
    uint32_t *key_ends, *ends;
} known;

static bool read_known(napi_env env, napi_callback_info info, known *known) {
    if (!arguments(env, info, &known->call, true)) return false;
    border *border = known->call.border;
    if (!put_text(env, border, known->call.values[1], 0, &known->key_len)) return false;
    if (!put_text(env, border, known->call.values[2], known->key_len, &known->len)) return false;
    known->key_texts = border->words[1];
    known->texts = border->words[4];
    if (HEAD + known->key_texts + known->texts > border->words_len) return false;
    known->key = border->bytes;
    known->bytes = border->bytes + known->key_len;
    known->key_ends = border->words + HEAD;
    known->ends = known->key_ends + known->key_texts;
    if (border->words[5] != known->key_len) to_bytes(known->key, known->key_len, known->key_ends, known->key_texts);
    if (border->words[6] != known->len) to_bytes(known->bytes, known->len, known->ends, known->texts);
    return true;
}

/* prime(client, key, texts): leaves in word 1 whether the item was added. */
static napi_value prime(napi_env env, napi_callback_info info) {
    known it;
    if (!read_known(env, info, &it)) return refused(env, "prime");
    uint32_t *words = it.call.border->words;
    return tell(it.call.border, rz_prime(&it.call.held->handle, words[0], it.key_ends, it.key_texts, it.key, it.key_len, words[2], words[3], it.ends,
                                         it.texts, it.bytes, it.len, &words[1]));
}

/* clear(client, key, ""): leaves in word 1 whether something was known. */
static napi_value clear(napi_env env, napi_callback_info info) {
    known it;
    if (!read_known(env, info, &it)) return refused(env, "clear");
    uint32_t *words = it.call.border->words;
    return tell(it.call.border, rz_clear(&it.call.held->handle, words[0], it.key_ends, it.key_texts, it.key, it.key_len, &words[1]));
}

/* clearAll(client): the head has the loader. */
static napi_value clear_all(napi_env env, napi_callback_info info) {
    call call;
    if (!arguments(env, info, &call, true)) return refused(env, "clearAll");
    return tell(call.border, rz_clear_all(&call.held->handle, call.border->words[0]));
}

/* restart(client) */
static napi_value restart(napi_env env, napi_callback_info info) {
    call call;
    if (!arguments(env, info, &call, true)) return refused(env, "restart");
    return tell(call.border, rz_restart(&call.held->handle));
}

/* log(client): the batches of the loader that the head has. The head gets the numbers of batches, keys and texts. After it come for each batch
   its round, whether its replies were stored, and how many keys it has, for each key how many texts it has, and the ends. */
static napi_value read_log(napi_env env, napi_callback_info info) {
    call call;
    if (!arguments(env, info, &call, true)) return refused(env, "log");
    uint32_t *words = call.border->words, loader = words[0];
    rz_log_sizes_t sizes;
    int32_t code = rz_log_sizes(&call.held->handle, loader, &sizes);
    if (code < 0) return tell(call.border, code);
    size_t ends = HEAD + 3 * sizes.batches + sizes.keys;
    if (ends + sizes.texts > call.border->words_len) {
        words[1] = (uint32_t)(ends + sizes.texts);
        return tell(call.border, NEED_ROOM);
    }
    if (!make_room(call.border, sizes.bytes)) return tell(call.border, RZ_NO_MEMORY);
    uint32_t *rounds = words + HEAD, *stored = rounds + sizes.batches, *keys = stored + sizes.batches, *texts = keys + sizes.batches;
    code = rz_log(&call.held->handle, loader, rounds, sizes.batches, stored, sizes.batches, keys, sizes.batches, texts, sizes.keys, words + ends,
                  sizes.texts, call.border->bytes, sizes.bytes);
    words[1] = (uint32_t)sizes.batches;
    words[2] = (uint32_t)sizes.keys;
    words[3] = (uint32_t)sizes.texts;
    tell(call.border, code);
    return string_of(env, call.border, sizes.bytes, words + ends, sizes.texts);
}

/* ---- Servers and clients. */

static void free_held(napi_env env, void *data, void *hint) {
    (void)env, (void)hint;
    let_go(data);
    free(data);
}

/* hold(once): what a server or a client may be put into. What it holds is freed with it, if it wasn't closed. */
static napi_value hold(napi_env env, napi_callback_info info) {
    call call;
    bool once;
    napi_value value;
    if (!arguments(env, info, &call, false) || napi_get_value_bool(env, call.values[0], &once) != napi_ok) return refused(env, "hold");
    held *made = calloc(1, sizeof *made);
    if (!made || napi_create_external(env, made, free_held, NULL, &value) != napi_ok) {
        free(made);
        return refused(env, "out of memory");
    }
    made->once = once;
    return value;
}

/* What is wrong with the texts that the bytes begin with, in a sentence. */
static napi_value sentence_on(napi_env env, border *border, const rz_fault *fault, size_t schema, size_t bindings) {
    napi_value sentence = NULL;
    size_t texts = schema + bindings;
    size_t len = rz_fault_text(fault, border->bytes, schema, border->bytes + schema, bindings, NULL, 0);
    if (!make_room(border, texts + len)) return tell(border, RZ_NO_MEMORY);
    uint8_t *bytes = border->bytes;
    len = rz_fault_text(fault, bytes, schema, bytes + schema, bindings, bytes + texts, len);
    napi_create_string_utf8(env, (const char *)bytes + texts, len, &sentence);
    tell(border, RZ_BAD_SCHEMA);
    return sentence;
}

/* Makes the queries of a server that was opened. */
static int32_t open_queries(held *server) {
    queries *made = calloc(1, sizeof *made);
    if (!made) return RZ_NO_MEMORY;
    server->queries = made;
    made->users = 1;
    return rz_queries(&server->handle, &made->handle);
}

/* open(server, schema, bindings): the fault's number, line, column and in_bindings are left in the words 1 to 4, and it returns what it says. */
static napi_value open_server(napi_env env, napi_callback_info info) {
    call call;
    size_t schema, bindings;
    if (!arguments(env, info, &call, true) || !put_text(env, call.border, call.values[1], 0, &schema)) return refused(env, "open");
    if (!put_text(env, call.border, call.values[2], schema, &bindings)) return refused(env, "open");
    rz_fault fault = {0};
    int32_t code = rz_open(&call.held->handle, call.border->bytes, schema, call.border->bytes + schema, bindings, &fault);
    if (code >= 0) code = open_queries(call.held);
    uint32_t *words = call.border->words;
    words[1] = fault.number;
    words[2] = (uint32_t)fault.line;
    words[3] = (uint32_t)fault.column;
    words[4] = fault.in_bindings;
    if (code == RZ_BAD_SCHEMA) return sentence_on(env, call.border, &fault, schema, bindings);
    return tell(call.border, code);
}

/* loaders(server): the head gets how many there are. After it come for each loader its kind, and the ends of the four texts of each. */
static napi_value read_loaders(napi_env env, napi_callback_info info) {
    call call;
    if (!arguments(env, info, &call, true)) return refused(env, "loaders");
    rz_loader_sizes sizes;
    int32_t code = rz_loaders_sizes(&call.held->handle, &sizes);
    if (code < 0) return tell(call.border, code);
    uint32_t *words = call.border->words, *kinds = words + HEAD, *ends = kinds + sizes.loaders;
    if (HEAD + 5 * sizes.loaders > call.border->words_len) {
        words[1] = (uint32_t)(HEAD + 5 * sizes.loaders);
        return tell(call.border, NEED_ROOM);
    }
    if (!make_room(call.border, sizes.bytes)) return tell(call.border, RZ_NO_MEMORY);
    code = rz_loaders(&call.held->handle, kinds, sizes.loaders, ends, 4 * sizes.loaders, call.border->bytes, sizes.bytes);
    words[1] = (uint32_t)sizes.loaders;
    tell(call.border, code);
    return string_of(env, call.border, sizes.bytes, ends, 4 * sizes.loaders);
}

/* client(client, server): opens a client. */
static napi_value client(napi_env env, napi_callback_info info) {
    call call;
    if (!arguments(env, info, &call, true)) return refused(env, "client");
    return tell(call.border, opened(env, &call));
}

/* close(server or client) */
static napi_value close_held(napi_env env, napi_callback_info info) {
    call call;
    if (!arguments(env, info, &call, true)) return refused(env, "close");
    let_go(call.held);
    return NULL;
}

/* ---- The module. */

/* codeName(code), codeText(code) */
static napi_value words_on(napi_env env, napi_callback_info info, size_t (*on)(int32_t, uint8_t *, size_t)) {
    call call;
    int32_t code;
    napi_value string = NULL;
    if (!arguments(env, info, &call, false) || napi_get_value_int32(env, call.values[0], &code) != napi_ok) return refused(env, "code");
    size_t len = on(code, call.border->bytes, call.border->room);
    napi_create_string_utf8(env, (const char *)call.border->bytes, len, &string);
    return string;
}
static napi_value code_name(napi_env env, napi_callback_info info) { return words_on(env, info, rz_code_name); }
static napi_value code_text(napi_env env, napi_callback_info info) { return words_on(env, info, rz_code_text); }

static napi_value version(napi_env env, napi_callback_info info) {
    (void)info;
    napi_value number = NULL;
    napi_create_uint32(env, rz_version(), &number);
    return number;
}

/* The elements of an array that JavaScript holds too, of at least so many, in place of the one that is held now. */
static void *hold_array(napi_env env, napi_value value, napi_typedarray_type wanted, size_t least, napi_ref *array, size_t *len) {
    napi_typedarray_type type;
    void *elements;
    if (napi_get_typedarray_info(env, value, &type, len, &elements, NULL, NULL) != napi_ok || type != wanted || *len < least) return NULL;
    if (*array) napi_delete_reference(env, *array);
    return napi_create_reference(env, value, 1, array) == napi_ok ? elements : NULL;
}

/* share(array): these are the words from now on. */
static napi_value share(napi_env env, napi_callback_info info) {
    call call;
    if (!arguments(env, info, &call, false)) return refused(env, "share");
    call.border->words = hold_array(env, call.values[0], napi_uint32_array, HEAD, &call.border->array, &call.border->words_len);
    return call.border->words ? NULL : refused(env, "share");
}

/* sharePage(words, bytes): these are the page from now on. */
static napi_value share_page(napi_env env, napi_callback_info info) {
    call call;
    if (!arguments(env, info, &call, false)) return refused(env, "sharePage");
    border *border = call.border;
    border->page = hold_array(env, call.values[0], napi_uint32_array, HEAD, &border->page_array, &border->page_len);
    border->page_bytes = hold_array(env, call.values[1], napi_uint8_array, 1, &border->page_bytes_array, &border->page_bytes_len);
    return border->page && border->page_bytes ? NULL : refused(env, "sharePage");
}

/* limitTexts(units): no string has more UTF-16 units than this. */
static napi_value limit_texts(napi_env env, napi_callback_info info) {
    call call;
    uint32_t most;
    if (!arguments(env, info, &call, false) || napi_get_value_uint32(env, call.values[0], &most) != napi_ok) return refused(env, "limitTexts");
    call.border->most_units = most;
    return NULL;
}

/* room(): how many bytes the buffer of texts has. */
static napi_value room(napi_env env, napi_callback_info info) {
    call call;
    napi_value number = NULL;
    if (!arguments(env, info, &call, false)) return refused(env, "room");
    napi_create_double(env, (double)call.border->room, &number);
    return number;
}

static void free_border(napi_env env, void *data, void *hint) {
    (void)env, (void)hint;
    border *border = data;
    free(border->bytes);
    free(border);
}

NAPI_MODULE_INIT() {
    static const struct {
        const char *name;
        napi_callback call;
    } calls[] = {{"share", share}, {"sharePage", share_page}, {"limitTexts", limit_texts}, {"room", room}, {"version", version},
                 {"codeName", code_name}, {"codeText", code_text}, {"hold", hold}, {"open", open_server}, {"loaders", read_loaders},
                 {"client", client}, {"close", close_held}, {"begin", begin}, {"beginRequest", begin_request}, {"beginLoad", begin_load},
                 {"look", look}, {"reply", reply}, {"fail", fail}, {"cancel", cancel}, {"prime", prime}, {"clear", clear},
                 {"clearAll", clear_all}, {"restart", restart}, {"log", read_log}};
    if (rz_version() < RZ_VERSION || rz_version() >> 16 != RZ_VERSION >> 16) return refused(env, "the library is older or newer than rudzkvano.h");
    border *border = calloc(1, sizeof *border);
    if (!border || !make_room(border, 4096)) return refused(env, "out of memory");
    border->most_units = INT32_MAX;
    if (napi_set_instance_data(env, border, free_border, NULL) != napi_ok) return refused(env, "out of memory");
    for (size_t i = 0; i < sizeof calls / sizeof *calls; i++) {
        napi_value function;
        if (napi_create_function(env, calls[i].name, NAPI_AUTO_LENGTH, calls[i].call, border, &function) != napi_ok) return NULL;
        if (napi_set_named_property(env, exports, calls[i].name, function) != napi_ok) return NULL;
    }
    return exports;
}
