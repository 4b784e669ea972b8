/* Every call, right and wrong, after every other: each move below is made on each of four handles, from each of nine states, after each other
   move; and then in long walks of moves drawn at random. A model of the handles tells which code is wanted. At the end of each sequence every
   client still answers a request as it should, and by all queries one is still answered so.

   abuse SCHEMA BINDINGS STRIDE

   makes one sequence of STRIDE; the schema and the bindings are those of examples/. */
#include "host.h"
#include <stdio.h>
#include <stdlib.h>
#include <string.h>

enum { HANDLES = 4, EMPTY = 0, SERVER = 1, CLIENT = 2, QUERIES = 3 };
enum { IDLE = 0, BEGUN = 1, OUT = 2, ANSWERED = 3, LOADED = 4 };
/* What a client was asked: what is no request, a request, or keys to load. */
enum { NO_REQUEST = 0, REQUEST = 1, LOAD = 2 };
/* What a client may know: the user 1, the user 2, all users. */
enum { USER_1 = 1, USER_2 = 2, ALL_USERS = 4 };

/* What is known of a handle. A client has a phase, what it knows and what failed since it was asked last, what that was, and of the round that is
   out what each order asks for and whether it has its reply. */
typedef struct { int kind, phase, known, failed, asked, orders, asks[2], replied[2], fails[2]; } handle_model;
typedef struct { rz_handle at[HANDLES]; handle_model of[HANDLES]; } world;

static byte_buffer schema, bindings;
/* The server and queries of it, and queries of a server with one loader. */
static rz_handle kept, kept_queries, other_queries;
static size_t calls, wrong;

static const char *LINE = "{\"query\":\"{user(id:1){name best{name}} users{id}}\"}";
static const char *ANSWER = "{\"data\":{\"user\":{\"name\":\"Ada\",\"best\":{\"name\":\"Ada\"}},\"users\":[{\"id\":\"1\"}]}}";
static const char *REPLY = "idnamebest1Ada2";
static const uint32_t REPLY_ENDS[] = {2, 6, 10, 11, 14, 15};

#define TEXT(words) (const uint8_t *)(words), strlen(words)

/* Compares a code with the one that is wanted. Returns whether the call was made. */
static int check(const char *call, int32_t code, int32_t wanted) {
    calls++;
    if (code != wanted && wrong++ < 20) printf("%s gives %d and not %d\n", call, (int)code, (int)wanted);
    return code >= 0 && code == wanted;
}
#define CHECK(call, wanted) check(#call, call, wanted)

static void is_same(const char *what, size_t found, size_t wanted) {
    if (found != wanted && wrong++ < 20) printf("%s is %zu and not %zu\n", what, found, wanted);
}

/* ---- The model. */

/* The code of a call on a client, where a client gives this one. */
static int32_t of_client(const handle_model *model, int32_t code) { return model->kind == CLIENT ? code : RZ_BAD_HANDLE; }
static int32_t of_server(const handle_model *model, int32_t code) { return model->kind == SERVER ? code : RZ_BAD_HANDLE; }
static int is_busy(const handle_model *model) { return model->phase == BEGUN || model->phase == OUT; }
static int32_t unless_busy(const handle_model *model, int32_t code) { return of_client(model, is_busy(model) ? RZ_BUSY : code); }
/* The same of a call that begins by the queries of the next handle. */
static int32_t if_lent(const world *w, int h, int32_t code) {
    return w->of[(h + 1) % HANDLES].kind == QUERIES ? unless_busy(&w->of[h], code) : RZ_BAD_HANDLE;
}
static int32_t if_order(const handle_model *model, int order, int32_t code) {
    return of_client(model, model->phase == OUT && order < model->orders ? code : RZ_NO_ORDER);
}

static void ask_for(handle_model *model, int what) {
    model->asks[model->orders] = what;
    model->replied[model->orders] = model->fails[model->orders] = 0;
    model->orders++;
}

/* Makes the next round of what the request needs and lacks. */
static void make_round(handle_model *model) {
    int there = model->known | model->failed;
    model->orders = 0;
    if (!(there & USER_1)) ask_for(model, USER_1);
    else if (!(model->failed & USER_1) && !(there & USER_2)) ask_for(model, USER_2);
    if (!(there & ALL_USERS)) ask_for(model, ALL_USERS);
    model->phase = model->orders ? OUT : ANSWERED;
}

/* Makes the round of the keys that are loaded and aren't known: the users 1 and 2, an order for each. */
static void make_load_round(handle_model *model) {
    model->orders = 0;
    if (!(model->known & USER_1)) ask_for(model, USER_1);
    if (!(model->known & USER_2)) ask_for(model, USER_2);
    model->phase = model->orders ? OUT : LOADED;
}

/* Stores the round that is out. */
static void store_round(handle_model *model) {
    for (int order = 0; order < model->orders; order++)
        if (model->fails[order]) model->failed |= model->asks[order];
        else model->known |= model->asks[order];
}

static int lacks_reply(const handle_model *model) {
    for (int order = 0; order < model->orders; order++)
        if (!model->replied[order]) return 1;
    return 0;
}

/* What rz_next makes of a client, and its code. */
static int32_t go_on(handle_model *model) {
    if (model->kind != CLIENT) return RZ_BAD_HANDLE;
    if (model->phase == IDLE) return RZ_IDLE;
    if (model->phase == ANSWERED || model->phase == LOADED) return RZ_DONE;
    if (model->phase == OUT && lacks_reply(model)) return RZ_WAITING;
    int has_round = model->phase == OUT;
    if (has_round) store_round(model);
    if (model->asked == REQUEST) make_round(model);
    else if (model->asked == LOAD && !has_round) make_load_round(model);
    else model->phase = model->asked == LOAD ? LOADED : ANSWERED;
    return model->phase == OUT ? RZ_ROUND : RZ_DONE;
}

/* The answer or the outcomes are let go, where a client isn't busy. */
static void lets_go(handle_model *model) {
    if (model->kind == CLIENT && !is_busy(model)) model->phase = IDLE;
}

static void begun(handle_model *model, int asked) {
    model->phase = BEGUN;
    model->failed = model->orders = 0;
    model->asked = asked;
}

/* ---- Moves on servers. */

static void hold(handle_model *model, int kind) {
    *model = (handle_model){0};
    model->kind = kind;
}

static void opens(world *w, int h) {
    rz_fault fault = {0};
    if (CHECK(rz_open(&w->at[h], schema.at, schema.len, bindings.at, bindings.len, &fault), RZ_DONE)) hold(&w->of[h], SERVER);
}

static void opens_wrongly(world *w, int h) {
    rz_fault fault = {0};
    CHECK(rz_open(&w->at[h], (const uint8_t *)"\xff", 1, bindings.at, bindings.len, &fault), RZ_NOT_UTF8);
    CHECK(rz_open(&w->at[h], schema.at, schema.len, (const uint8_t *)"\xc3", 1, &fault), RZ_NOT_UTF8);
    is_same("the number of no fault", fault.number, 0);
    CHECK(rz_open(&w->at[h], TEXT("type"), bindings.at, bindings.len, &fault), RZ_BAD_SCHEMA);
    is_same("the number of the fault", fault.number, 1);
    CHECK(rz_open(&w->at[h], schema.at, schema.len, TEXT("bindings 9"), &fault), RZ_BAD_SCHEMA);
    is_same("the number of the fault", fault.number, 8);
}

static void shares(world *w, int h) {
    int other = (h + 1) % HANDLES;
    if (CHECK(rz_share(&w->at[h], &w->at[other]), of_server(&w->of[h], RZ_DONE))) hold(&w->of[other], SERVER);
}

static void reads_loaders(world *w, int h) {
    rz_loader_sizes sizes = {6, 0};
    uint32_t kinds[16], ends[64];
    uint8_t bytes[512];
    if (CHECK(rz_loaders_sizes(&w->at[h], &sizes), of_server(&w->of[h], RZ_DONE))) is_same("the number of loaders", sizes.loaders, 6);
    CHECK(rz_loaders(&w->at[h], kinds, 6, ends, 24, bytes, sizes.bytes), of_server(&w->of[h], RZ_DONE));
    CHECK(rz_loaders(&w->at[h], kinds, 5, ends, 24, bytes, sizes.bytes), of_server(&w->of[h], RZ_BAD_SIZE));
    CHECK(rz_loaders(&w->at[h], kinds, 6, ends, 25, bytes, sizes.bytes), of_server(&w->of[h], RZ_BAD_SIZE));
    CHECK(rz_loaders(&w->at[h], kinds, 6, ends, 24, bytes, sizes.bytes + 1), of_server(&w->of[h], RZ_BAD_SIZE));
}

static void makes_client(world *w, int h) {
    int other = (h + 1) % HANDLES;
    uint32_t limits[6] = {1, 0, 65535, 2, 3, 4};
    if (CHECK(rz_client(&w->at[h], &w->at[other], limits, 6), of_server(&w->of[h], RZ_DONE))) hold(&w->of[other], CLIENT);
}

static void makes_client_wrongly(world *w, int h) {
    int other = (h + 1) % HANDLES;
    uint32_t limits[7] = {0, 0, 0, 0, 0, 65536, 0};
    CHECK(rz_client(&w->at[h], &w->at[other], limits, 5), of_server(&w->of[h], RZ_BAD_SIZE));
    CHECK(rz_client(&w->at[h], &w->at[other], limits, 7), of_server(&w->of[h], RZ_BAD_SIZE));
    CHECK(rz_client(&w->at[h], &w->at[other], limits, 6), of_server(&w->of[h], RZ_BAD_LIMIT));
}

static void makes_queries(world *w, int h) {
    int other = (h + 2) % HANDLES;
    if (CHECK(rz_queries(&w->at[h], &w->at[other]), of_server(&w->of[h], RZ_DONE))) hold(&w->of[other], QUERIES);
}

static void closes(world *w, int h) {
    rz_close(&w->at[h]);
    hold(&w->of[h], EMPTY);
    is_same("a closed handle", w->at[h].at != NULL, 0);
}

/* ---- Moves on requests. */

static void begins(world *w, int h) {
    rz_handle *queries = &w->at[(h + 1) % HANDLES];
    if (CHECK(rz_begin(&w->at[h], queries, TEXT(LINE)), if_lent(w, h, RZ_DONE))) begun(&w->of[h], REQUEST);
}

static void begins_no_request(world *w, int h) {
    rz_handle *queries = &w->at[(h + 1) % HANDLES];
    if (CHECK(rz_begin(&w->at[h], queries, (const uint8_t *)"{\xff", 2), if_lent(w, h, RZ_DONE))) begun(&w->of[h], NO_REQUEST);
}

static void begins_parts(world *w, int h) {
    rz_handle *queries = &w->at[(h + 1) % HANDLES];
    const char *query = "query A($i:ID!){user(id:$i){name best{name}} users{id}} query B{users{id}}";
    if (CHECK(rz_begin_request(&w->at[h], queries, TEXT(query), TEXT("A"), TEXT("{\"i\":1}")), if_lent(w, h, RZ_DONE)))
        begun(&w->of[h], REQUEST);
}

static void begins_wrong_parts(world *w, int h) {
    rz_handle *queries = &w->at[(h + 1) % HANDLES];
    if (CHECK(rz_begin_request(&w->at[h], queries, TEXT("{users{id}}"), TEXT(""), TEXT("[")), if_lent(w, h, RZ_DONE)))
        begun(&w->of[h], NO_REQUEST);
}

/* By nothing, and by a server. */
static void begins_by_none(world *w, int h) {
    rz_handle empty = {0};
    CHECK(rz_begin(&w->at[h], &empty, TEXT(LINE)), RZ_BAD_HANDLE);
    CHECK(rz_begin(&w->at[h], &kept, TEXT(LINE)), RZ_BAD_HANDLE);
    CHECK(rz_begin_request(&w->at[h], &empty, TEXT("{a}"), TEXT(""), TEXT("")), RZ_BAD_HANDLE);
    is_same("an empty handle", empty.at != NULL, 0);
}

/* What there is stays, an answer and outcomes too. */
static void begins_by_others(world *w, int h) {
    const handle_model *model = &w->of[h];
    CHECK(rz_begin(&w->at[h], &other_queries, TEXT(LINE)), unless_busy(model, RZ_OTHER_SERVER));
    CHECK(rz_begin_request(&w->at[h], &other_queries, TEXT("{a}"), TEXT(""), TEXT("")), unless_busy(model, RZ_OTHER_SERVER));
}

/* ---- Moves on loads. */

static const uint32_t LOAD_TEXTS[] = {1, 1, 1}, LOAD_ENDS[] = {1, 2, 3};

static void loads(world *w, int h) {
    if (CHECK(rz_begin_load(&w->at[h], 0, LOAD_TEXTS, 3, LOAD_ENDS, 3, TEXT("121")), unless_busy(&w->of[h], RZ_DONE))) begun(&w->of[h], LOAD);
}

/* What there is stays here too. */
static void loads_wrongly(world *w, int h) {
    const uint32_t three[] = {1, 3}, falls[] = {1, 3, 2};
    const handle_model *model = &w->of[h];
    CHECK(rz_begin_load(&w->at[h], 6, LOAD_TEXTS, 3, LOAD_ENDS, 3, TEXT("121")), unless_busy(model, RZ_NO_LOADER));
    CHECK(rz_begin_load(&w->at[h], SIZE_MAX, three, 2, falls, 3, (const uint8_t *)"\xff", 1), unless_busy(model, RZ_NO_LOADER));
    CHECK(rz_begin_load(&w->at[h], 0, LOAD_TEXTS, 3, LOAD_ENDS, 3, TEXT("12\xff")), unless_busy(model, RZ_NOT_UTF8));
    CHECK(rz_begin_load(&w->at[h], 0, LOAD_TEXTS, 3, falls, 3, TEXT("12")), unless_busy(model, RZ_BAD_ENDS));
    CHECK(rz_begin_load(&w->at[h], 0, LOAD_TEXTS, 3, LOAD_ENDS, 3, TEXT("1212")), unless_busy(model, RZ_BAD_ENDS));
    CHECK(rz_begin_load(&w->at[h], 0, three, 2, LOAD_ENDS, 3, TEXT("121")), unless_busy(model, RZ_BAD_KEY));
    CHECK(rz_begin_load(&w->at[h], 0, LOAD_TEXTS, 3, LOAD_ENDS, 2, TEXT("12")), unless_busy(model, RZ_TOO_FEW_TEXTS));
    CHECK(rz_begin_load(&w->at[h], 0, LOAD_TEXTS, 2, LOAD_ENDS, 3, TEXT("121")), unless_busy(model, RZ_TEXTS_LEFT));
}

static void reads_outcomes(world *w, int h) {
    const handle_model *model = &w->of[h];
    int is_loaded = model->phase == LOADED;
    rz_load_sizes_t sizes = {0};
    uint32_t rows[3] = {9, 9, 9}, columns[8], ends[64], fault_ends[4];
    uint8_t bytes[128], fault_bytes[16];
    if (CHECK(rz_load_sizes(&w->at[h], &sizes), of_client(model, is_loaded ? RZ_DONE : RZ_IDLE))) is_same("the number of outcomes", sizes.keys, 3);
    CHECK(rz_loaded(&w->at[h], rows, sizes.keys, columns, sizes.rows, ends, sizes.texts, bytes, sizes.bytes, fault_ends, sizes.faults + 1,
                    fault_bytes, sizes.fault_bytes), of_client(model, is_loaded ? RZ_BAD_SIZE : RZ_IDLE));
    CHECK(rz_loaded(&w->at[h], rows, sizes.keys, columns, sizes.rows, ends, sizes.texts, bytes, sizes.bytes + 1, fault_ends, sizes.faults,
                    fault_bytes, sizes.fault_bytes), of_client(model, is_loaded ? RZ_BAD_SIZE : RZ_IDLE));
    is_same("a number of rows that wasn't copied", rows[0], 9);
    if (!CHECK(rz_loaded(&w->at[h], rows, sizes.keys, columns, sizes.rows, ends, sizes.texts, bytes, sizes.bytes, fault_ends, sizes.faults,
                         fault_bytes, sizes.fault_bytes), of_client(model, is_loaded ? RZ_DONE : RZ_IDLE))) return;
    for (int key = 0; key < 3; key++) is_same("the rows of a key", rows[key], model->failed & (key == 1 ? USER_2 : USER_1) ? RZ_BATCH_FAULT : 1);
}

/* ---- Moves on rounds and answers. */

static void goes_on(world *w, int h) {
    int32_t wanted = go_on(&w->of[h]);
    CHECK(rz_next(&w->at[h]), wanted);
}

static void cancels(world *w, int h) {
    handle_model *model = &w->of[h];
    if (CHECK(rz_cancel(&w->at[h]), of_client(model, is_busy(model) ? RZ_DONE : RZ_IDLE))) model->phase = IDLE;
}

static void reads_orders(world *w, int h) {
    const handle_model *model = &w->of[h];
    rz_sizes_t sizes = {0};
    uint32_t loaders[2], keys[2], texts[2], ends[2];
    uint8_t bytes[8];
    int32_t wanted = of_client(model, is_busy(model) ? RZ_DONE : RZ_NO_ORDER);
    size_t orders = model->phase == OUT ? (size_t)model->orders : 0;
    if (CHECK(rz_sizes(&w->at[h], &sizes), of_client(model, RZ_DONE))) {
        is_same("the number of orders", sizes.orders, orders);
        is_same("the number of keys", sizes.keys, orders);
        is_same("an answer", sizes.answer != 0, model->phase == ANSWERED);
    }
    if (CHECK(rz_orders(&w->at[h], loaders, sizes.orders, keys, sizes.orders, texts, sizes.keys, ends, sizes.texts, bytes, sizes.bytes), wanted))
        for (size_t order = 0; order < orders; order++) is_same("the loader", loaders[order], model->asks[order] == ALL_USERS);
}

static void reads_orders_wrongly(world *w, int h) {
    const handle_model *model = &w->of[h];
    uint32_t words[64];
    uint8_t bytes[64];
    int32_t wanted = of_client(model, is_busy(model) ? RZ_BAD_SIZE : RZ_NO_ORDER);
    CHECK(rz_orders(&w->at[h], words, 3, words + 8, 3, words + 16, 3, words + 24, 3, bytes, 3), wanted);
    CHECK(rz_orders(&w->at[h], words, 0, words + 8, 0, words + 16, 0, words + 24, 0, bytes, 9), wanted);
}

static void takes(world *w, int h, int order, int fails) {
    handle_model *model = &w->of[h];
    int32_t wanted = if_order(model, order, model->phase == OUT && model->replied[order] ? RZ_REPLIED : RZ_DONE);
    const uint32_t rows[] = {1};
    int is_taken = fails ? CHECK(rz_take_failed(&w->at[h], (size_t)order, TEXT("down")), wanted)
                         : CHECK(rz_take_rows(&w->at[h], (size_t)order, 3, rows, 1, REPLY_ENDS, 6, TEXT(REPLY)), wanted);
    if (!is_taken) return;
    model->replied[order] = 1;
    model->fails[order] = fails;
}

static void takes_first(world *w, int h) { takes(w, h, 0, 0); }
static void takes_second(world *w, int h) { takes(w, h, 1, 0); }
static void takes_failed_first(world *w, int h) { takes(w, h, 0, 1); }
static void takes_failed_second(world *w, int h) { takes(w, h, 1, 1); }

static int32_t if_waits(const handle_model *model, int32_t code) {
    return if_order(model, 0, model->phase == OUT && model->replied[0] ? RZ_REPLIED : code);
}

/* A row of the user 1, by its key: an order for the user 2 refuses it. */
static void takes_keyed(world *w, int h) {
    handle_model *model = &w->of[h];
    uint32_t row = 9;
    int32_t wanted = if_waits(model, model->asks[0] == USER_2 ? RZ_NOT_ASKED : RZ_DONE);
    if (CHECK(rz_take_keyed_rows(&w->at[h], 0, 3, 1, NULL, 0, REPLY_ENDS, 6, TEXT(REPLY), &row), wanted)) {
        model->replied[0] = 1;
        model->fails[0] = 0;
    }
    is_same("the row", row, wanted == RZ_NOT_ASKED ? 1 : 9);
}

/* Each order has one key. */
static void takes_wrong_faults(world *w, int h) {
    const uint32_t first[] = {0}, past[] = {1}, twice[] = {0, 0};
    const handle_model *model = &w->of[h];
    uint32_t row = 9;
    CHECK(rz_take_keyed_rows(&w->at[h], 0, 3, 1, past, 1, REPLY_ENDS, 6, TEXT(REPLY), &row), if_waits(model, RZ_BAD_FAULTS));
    CHECK(rz_take_keyed_rows(&w->at[h], 0, 3, 1, twice, 2, REPLY_ENDS, 6, TEXT(REPLY), &row), if_waits(model, RZ_BAD_FAULTS));
    CHECK(rz_take_keyed_rows(&w->at[h], 0, 3, 1, first, 1, REPLY_ENDS, 6, TEXT(REPLY), &row), if_waits(model, RZ_TOO_FEW_TEXTS));
    CHECK(rz_take_keyed_rows(&w->at[h], 0, 3, 0, first, 1, REPLY_ENDS, 6, TEXT(REPLY), &row), if_waits(model, RZ_TEXTS_LEFT));
    is_same("the row", row, 9);
}

static void takes_no_order(world *w, int h) {
    const uint32_t rows[] = {1};
    int32_t wanted = of_client(&w->of[h], RZ_NO_ORDER);
    CHECK(rz_take_rows(&w->at[h], 2, 3, rows, 1, REPLY_ENDS, 6, TEXT(REPLY)), wanted);
    CHECK(rz_take_rows(&w->at[h], SIZE_MAX, 3, rows, 1, REPLY_ENDS, 6, TEXT(REPLY)), wanted);
    CHECK(rz_take_failed(&w->at[h], SIZE_MAX, TEXT("down")), wanted);
}

static void takes_wrong_counts(world *w, int h) {
    const uint32_t rows[] = {1, 1}, many[] = {UINT32_MAX - 1}, faults[] = {RZ_KEY_FAULT};
    const handle_model *model = &w->of[h];
    CHECK(rz_take_rows(&w->at[h], 0, 3, rows, 0, REPLY_ENDS, 6, TEXT(REPLY)), if_order(model, 0, RZ_BAD_COUNT));
    CHECK(rz_take_rows(&w->at[h], 0, 3, rows, 2, REPLY_ENDS, 6, TEXT(REPLY)), if_order(model, 0, RZ_BAD_COUNT));
    CHECK(rz_take_rows(&w->at[h], 0, 3, many, 1, REPLY_ENDS, 6, TEXT(REPLY)), if_order(model, 0, RZ_TOO_FEW_TEXTS));
    CHECK(rz_take_rows(&w->at[h], 0, SIZE_MAX, rows, 1, REPLY_ENDS, 6, TEXT(REPLY)), if_order(model, 0, RZ_TOO_FEW_TEXTS));
    CHECK(rz_take_rows(&w->at[h], 0, 4, rows, 1, REPLY_ENDS, 6, TEXT(REPLY)), if_order(model, 0, RZ_TOO_FEW_TEXTS));
    CHECK(rz_take_rows(&w->at[h], 0, 2, rows, 1, REPLY_ENDS, 6, TEXT(REPLY)), if_order(model, 0, RZ_TEXTS_LEFT));
    CHECK(rz_take_rows(&w->at[h], 0, 3, faults, 1, REPLY_ENDS, 6, TEXT(REPLY)), if_order(model, 0, RZ_TEXTS_LEFT));
    CHECK(rz_take_rows(&w->at[h], 0, 0, rows, 1, REPLY_ENDS, 6, TEXT(REPLY)), if_order(model, 0, RZ_NO_COLUMN));
}

static void takes_wrong_texts(world *w, int h) {
    const uint32_t rows[] = {1}, falls[] = {2, 6, 10, 14, 11, 15}, past[] = {2, 6, 10, 11, 14, 99}, inside[] = {2, 6, 10, 12, 14, 15};
    const handle_model *model = &w->of[h];
    CHECK(rz_take_rows(&w->at[h], 0, 3, rows, 1, falls, 6, TEXT(REPLY)), if_order(model, 0, RZ_BAD_ENDS));
    CHECK(rz_take_rows(&w->at[h], 0, 3, rows, 1, past, 6, TEXT(REPLY)), if_order(model, 0, RZ_BAD_ENDS));
    CHECK(rz_take_rows(&w->at[h], 0, 3, rows, 1, inside, 6, TEXT("idnamebest1\xc3\xa4" "a2")), if_order(model, 0, RZ_BAD_ENDS));
    CHECK(rz_take_rows(&w->at[h], 0, 3, rows, 1, REPLY_ENDS, 6, TEXT("idnamebest1A\xff" "a2")), if_order(model, 0, RZ_NOT_UTF8));
    CHECK(rz_take_failed(&w->at[h], 0, (const uint8_t *)"\xff", 1), if_order(model, 0, RZ_NOT_UTF8));
}

static void reads_answer(world *w, int h) {
    const handle_model *model = &w->of[h];
    rz_sizes_t sizes = {0};
    uint8_t bytes[512];
    rz_sizes(&w->at[h], &sizes);
    CHECK(rz_answer(&w->at[h], bytes, sizes.answer), of_client(model, model->phase == ANSWERED ? RZ_DONE : RZ_IDLE));
    CHECK(rz_answer(&w->at[h], bytes, sizes.answer + 1), of_client(model, model->phase == ANSWERED ? RZ_BAD_SIZE : RZ_IDLE));
    CHECK(rz_answer(&w->at[h], bytes, 0), of_client(model, model->phase == ANSWERED ? RZ_BAD_SIZE : RZ_IDLE));
}

/* ---- Moves on what is known. */

static void limits(world *w, int h) {
    CHECK(rz_limit_answers(&w->at[h], 5), unless_busy(&w->of[h], RZ_DONE));
    CHECK(rz_limit_work(&w->at[h], SIZE_MAX), unless_busy(&w->of[h], RZ_DONE));
    CHECK(rz_limit_rounds(&w->at[h], UINT32_MAX), unless_busy(&w->of[h], RZ_DONE));
    lets_go(&w->of[h]);
}

static void restarts(world *w, int h) {
    if (CHECK(rz_restart(&w->at[h]), unless_busy(&w->of[h], RZ_DONE))) w->of[h].known = w->of[h].failed = 0;
    lets_go(&w->of[h]);
}

static void primes(world *w, int h) {
    handle_model *model = &w->of[h];
    const uint32_t key_ends[] = {1};
    uint32_t primed = 9;
    if (CHECK(rz_prime(&w->at[h], 0, key_ends, 1, TEXT("1"), 3, 1, REPLY_ENDS, 6, TEXT(REPLY), &primed), unless_busy(model, RZ_DONE))) {
        if (!(model->failed & USER_1)) is_same("primed", primed, !(model->known & USER_1));
        if (primed) model->known |= USER_1;
    }
    lets_go(model);
}

static void clears(world *w, int h) {
    handle_model *model = &w->of[h];
    const uint32_t key_ends[] = {1};
    uint32_t was_known = 9;
    if (CHECK(rz_clear(&w->at[h], 0, key_ends, 1, TEXT("1"), &was_known), unless_busy(model, RZ_DONE))) {
        if (!(model->failed & USER_1)) is_same("was known", was_known, (model->known & USER_1) != 0);
        model->known &= ~USER_1;
    }
    lets_go(model);
}

static void clears_all(world *w, int h) {
    if (CHECK(rz_clear_all(&w->at[h], 0), unless_busy(&w->of[h], RZ_DONE))) w->of[h].known &= ALL_USERS;
    lets_go(&w->of[h]);
}

/* Keys and items that are none. An answer or outcomes stay. */
static void knows_wrong_texts(world *w, int h) {
    const uint32_t key_ends[] = {1, 2, 3};
    uint32_t told = 9;
    const handle_model *model = &w->of[h];
    CHECK(rz_prime(&w->at[h], 0, key_ends, 3, TEXT("123"), 3, 1, REPLY_ENDS, 6, TEXT(REPLY), &told), unless_busy(model, RZ_BAD_KEY));
    CHECK(rz_prime(&w->at[h], 0, key_ends, 2, TEXT("12"), 3, 1, REPLY_ENDS, 6, TEXT(REPLY), &told), unless_busy(model, RZ_BAD_KEY));
    CHECK(rz_prime(&w->at[h], 0, key_ends, 2, TEXT("1"), 3, 1, REPLY_ENDS, 6, TEXT(REPLY), &told), unless_busy(model, RZ_BAD_ENDS));
    CHECK(rz_prime(&w->at[h], 0, key_ends, 1, TEXT("1"), 3, 2, REPLY_ENDS, 6, TEXT(REPLY), &told), unless_busy(model, RZ_TOO_FEW_TEXTS));
    CHECK(rz_prime(&w->at[h], 0, key_ends, 1, TEXT("1"), 0, 1, REPLY_ENDS, 6, TEXT(REPLY), &told), unless_busy(model, RZ_NO_COLUMN));
    CHECK(rz_clear(&w->at[h], 0, key_ends, 3, TEXT("123"), &told), unless_busy(model, RZ_BAD_KEY));
    CHECK(rz_clear(&w->at[h], 0, key_ends, 0, TEXT(""), &told), unless_busy(model, RZ_BAD_KEY));
    CHECK(rz_clear(&w->at[h], 0, key_ends, 1, (const uint8_t *)"\xff", 1, &told), unless_busy(model, RZ_NOT_UTF8));
    is_same("told", told, 9);
}

static void knows_no_loader(world *w, int h) {
    const uint32_t key_ends[] = {1};
    uint32_t told = 9;
    const handle_model *model = &w->of[h];
    CHECK(rz_prime(&w->at[h], 6, key_ends, 1, TEXT("1"), 3, 1, REPLY_ENDS, 6, TEXT(REPLY), &told), unless_busy(model, RZ_NO_LOADER));
    CHECK(rz_clear(&w->at[h], SIZE_MAX, key_ends, 1, TEXT("1"), &told), unless_busy(model, RZ_NO_LOADER));
    CHECK(rz_clear_all(&w->at[h], 6), unless_busy(model, RZ_NO_LOADER));
    is_same("told", told, 9);
}

static void reads_log(world *w, int h) {
    const handle_model *model = &w->of[h];
    rz_log_sizes_t sizes = {0};
    uint32_t words[6][64];
    uint8_t bytes[64];
    CHECK(rz_log_sizes(&w->at[h], 9, &sizes), unless_busy(model, RZ_NO_LOADER));
    CHECK(rz_log_sizes(&w->at[h], 0, &sizes), unless_busy(model, RZ_DONE));
    size_t batches = sizes.batches;
    uint32_t *rounds = words[0], *stored = words[1], *keys = words[2], *texts = words[3], *ends = words[4];
    CHECK(rz_log(&w->at[h], 0, rounds, batches, stored, batches, keys, batches, texts, sizes.keys, ends, sizes.texts, bytes, sizes.bytes),
          unless_busy(model, RZ_DONE));
    CHECK(rz_log(&w->at[h], 0, rounds, batches + 1, stored, batches, keys, batches, texts, sizes.keys, ends, sizes.texts, bytes, sizes.bytes),
          unless_busy(model, RZ_BAD_SIZE));
    CHECK(rz_log(&w->at[h], 9, rounds, 0, stored, 0, keys, 0, texts, 0, ends, 0, bytes, 0), unless_busy(model, RZ_NO_LOADER));
}

/* ---- Sequences. */

typedef void move(world *w, int h);

static move *const MOVES[] = {
    opens, opens_wrongly, shares, reads_loaders, makes_queries, makes_client, makes_client_wrongly, closes, begins, begins_no_request, begins_parts,
    begins_wrong_parts, begins_by_none, begins_by_others, goes_on, cancels, reads_orders, takes_first, takes_second, takes_no_order,
    takes_failed_first, takes_failed_second, takes_wrong_counts, reads_answer, reads_orders_wrongly, takes_wrong_texts, takes_keyed,
    takes_wrong_faults, limits, restarts, primes, clears, clears_all, knows_wrong_texts, knows_no_loader, reads_log, loads, loads_wrongly,
    reads_outcomes,
};
enum { MOVE_COUNT = sizeof MOVES / sizeof *MOVES, STATES = 9, PLACES = MOVE_COUNT * HANDLES, WALKS = 1000, WALK = 300 };

static void go_until_done(world *w, int h) {
    for (int turn = 0; turn < 3; turn++) {
        goes_on(w, h);
        takes_first(w, h);
        takes_second(w, h);
    }
}

/* A server, a client in one of the states, queries, and an empty handle. */
static void start(world *w, int state) {
    *w = (world){0};
    MUST(rz_share(&kept, &w->at[0]));
    w->of[0].kind = SERVER;
    makes_client(w, 0);
    makes_queries(w, 0);
    if (state >= 1) begins(w, 1);
    if (state >= 2) goes_on(w, 1);
    if (state >= 3) takes_second(w, 1);
    if (state >= 4) takes_first(w, 1);
    if (state >= 5) go_until_done(w, 1);
    if (state >= 6) restarts(w, 1);
    if (state >= 6) loads(w, 1);
    if (state >= 7) goes_on(w, 1);
    if (state >= 8) go_until_done(w, 1);
}

/* Whatever was done, a client answers as it should, by queries that are as they were. */
static void still_answers(rz_handle *client, rz_handle *queries) {
    host host = {.client = *client};
    const uint32_t rows[] = {1};
    *client = (rz_handle){0};
    rz_cancel(&host.client);
    CHECK(rz_limit_answers(&host.client, 0), RZ_DONE);
    CHECK(rz_limit_work(&host.client, 0), RZ_DONE);
    CHECK(rz_limit_rounds(&host.client, 0), RZ_DONE);
    CHECK(rz_restart(&host.client), RZ_DONE);
    CHECK(rz_begin(&host.client, queries, TEXT(LINE)), RZ_DONE);
    CHECK(rz_next(&host.client), RZ_ROUND);
    CHECK(rz_take_rows(&host.client, 1, 3, rows, 1, REPLY_ENDS, 6, TEXT(REPLY)), RZ_DONE);
    CHECK(rz_take_rows(&host.client, 0, 3, rows, 1, REPLY_ENDS, 6, TEXT(REPLY)), RZ_DONE);
    CHECK(rz_next(&host.client), RZ_ROUND);
    CHECK(rz_take_rows(&host.client, 0, 3, rows, 1, REPLY_ENDS, 6, TEXT(REPLY)), RZ_DONE);
    CHECK(try_begun(&host), RZ_DONE);
    is_same("the answer", (size_t)is_answer(&host, text_of(ANSWER)), 1);
    is_same("the number of rounds", host.rounds, 2);
    close_host(&host);
}

static void finish(world *w) {
    for (int h = 0; h < HANDLES; h++) {
        rz_handle client = {0};
        if (w->of[h].kind == CLIENT) still_answers(&w->at[h], &kept_queries);
        if (w->of[h].kind == QUERIES) {
            MUST(rz_client(&kept, &client, NULL, 0));
            still_answers(&client, &w->at[h]);
        }
        closes(w, h);
    }
}

/* Two moves from a state. */
static void sequence(int state, int first, int second) {
    world w;
    size_t before = wrong;
    start(&w, state);
    MOVES[first / HANDLES](&w, first % HANDLES);
    MOVES[second / HANDLES](&w, second % HANDLES);
    finish(&w);
    if (wrong != before && wrong < 20)
        printf("in state %d, move %d on handle %d and then %d on %d\n", state, first / HANDLES, first % HANDLES, second / HANDLES, second % HANDLES);
}

/* The next number below a bound, of a sequence that is always the same. */
static int drawn(uint64_t *state, int below) {
    *state = *state * 6364136223846793005u + 1442695040888963407u;
    return (int)((*state >> 33) % (uint64_t)below);
}

/* Moves drawn at random, with those that go on more often than others. */
static void walk(int number) {
    world w;
    uint64_t state = (uint64_t)number;
    size_t before = wrong;
    start(&w, 0);
    for (int step = 0; step < WALK; step++) {
        int h = drawn(&state, HANDLES), move = drawn(&state, 2 * MOVE_COUNT);
        if (move < MOVE_COUNT) MOVES[move](&w, h);
        else go_until_done(&w, h);
    }
    finish(&w);
    if (wrong != before && wrong < 20) printf("in walk %d\n", number);
}

static void open_kept(char **words) {
    const char *one_loader = "bindings 1\nloader byId users by id\nfield Query.user one byId arg id\n";
    rz_handle other = {0};
    rz_fault fault;
    schema = read_file(words[1]);
    bindings = read_file(words[2]);
    kept = open_server(words[1], words[2]);
    kept_queries = open_queries(&kept);
    MUST(rz_open(&other, TEXT("type Query{user(id:ID!):User} type User{name:String!}"), TEXT(one_loader), &fault));
    other_queries = open_queries(&other);
    rz_close(&other);
}

static void close_kept(void) {
    rz_close(&kept);
    rz_close(&kept_queries);
    rz_close(&other_queries);
    free(schema.at);
    free(bindings.at);
}

int main(int argc, char **argv) {
    if (argc != 4) {
        fprintf(stderr, "abuse SCHEMA BINDINGS STRIDE\n");
        return 2;
    }
    int stride = atoi(argv[3]), sequences = 0, walks = 0;
    open_kept(argv);
    for (int number = 0; number < STATES * PLACES * PLACES; number += stride, sequences++)
        sequence(number % STATES, number / STATES % PLACES, number / STATES / PLACES);
    for (int number = 0; number < WALKS; number += stride, walks++) walk(number);
    close_kept();
    printf("%d sequences and %d walks, %zu calls, %zu wrong\n", sequences, walks, calls, wrong);
    return wrong != 0;
}
