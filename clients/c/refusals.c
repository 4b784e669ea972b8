/* Calls that a caller gets wrong, and the code of each; and that nothing is lost by them: after each, the request goes on and is answered.
   Prints what isn't as wanted, and how many calls were made. To be run under valgrind too: no byte may be left.

   refusals SCHEMA BINDINGS, those of examples/ */
#include "rudzkvano.h"
#include <stdio.h>
#include <stdlib.h>
#include <string.h>

static int calls, wrong;

static void wants(int line, const char *call, long got, long wanted) {
    calls++;
    if (got != wanted) {
        wrong++;
        printf("line %d: %s gives %ld and not %ld\n", line, call, got, wanted);
    }
}
#define WANTS(call, wanted) wants(__LINE__, #call, (long)(call), wanted)

#define TEXT(s) (const uint8_t *)(s), strlen(s)

static uint8_t *read_file(const char *path, size_t *len) {
    FILE *file = fopen(path, "rb");
    if (!file) { perror(path); exit(2); }
    fseek(file, 0, SEEK_END);
    *len = (size_t)ftell(file);
    rewind(file);
    uint8_t *bytes = malloc(*len + 1);
    if (fread(bytes, 1, *len, file) != *len) exit(2);
    fclose(file);
    return bytes;
}

static const char *LINE = "{\"query\":\"{user(id:1){name best{name}}}\"}";

/* Queries of the server, which are lent to each begin. */
static rz_handle queries;

/* Calls on a client, with a handle that holds none. */
static void no_client(rz_handle *handle) {
    rz_sizes_t sizes;
    rz_log_sizes_t log;
    rz_load_sizes_t load;
    uint32_t word, none[1];
    uint8_t byte[1];
    WANTS(rz_next(handle), RZ_BAD_HANDLE);
    WANTS(rz_begin(handle, &queries, TEXT(LINE)), RZ_BAD_HANDLE);
    WANTS(rz_begin_request(handle, &queries, TEXT("{a}"), TEXT(""), TEXT("")), RZ_BAD_HANDLE);
    WANTS(rz_sizes(handle, &sizes), RZ_BAD_HANDLE);
    WANTS(rz_orders(handle, none, 0, none, 0, none, 0, none, 0, byte, 0), RZ_BAD_HANDLE);
    WANTS(rz_take_rows(handle, 0, 0, none, 0, none, 0, byte, 0), RZ_BAD_HANDLE);
    WANTS(rz_take_keyed_rows(handle, 0, 0, 0, NULL, 0, none, 0, byte, 0, &word), RZ_BAD_HANDLE);
    WANTS(rz_take_failed(handle, 0, TEXT("down")), RZ_BAD_HANDLE);
    WANTS(rz_answer(handle, byte, 0), RZ_BAD_HANDLE);
    WANTS(rz_cancel(handle), RZ_BAD_HANDLE);
    WANTS(rz_restart(handle), RZ_BAD_HANDLE);
    WANTS(rz_limit_answers(handle, 1), RZ_BAD_HANDLE);
    WANTS(rz_limit_work(handle, 1), RZ_BAD_HANDLE);
    WANTS(rz_limit_rounds(handle, 1), RZ_BAD_HANDLE);
    WANTS(rz_prime(handle, 0, none, 0, byte, 0, 0, 0, none, 0, byte, 0, &word), RZ_BAD_HANDLE);
    WANTS(rz_clear(handle, 0, none, 0, byte, 0, &word), RZ_BAD_HANDLE);
    WANTS(rz_clear_all(handle, 0), RZ_BAD_HANDLE);
    WANTS(rz_log_sizes(handle, 0, &log), RZ_BAD_HANDLE);
    WANTS(rz_log(handle, 0, none, 0, none, 0, none, 0, none, 0, none, 0, byte, 0), RZ_BAD_HANDLE);
    WANTS(rz_begin_load(handle, 0, none, 0, none, 0, byte, 0), RZ_BAD_HANDLE);
    WANTS(rz_load_sizes(handle, &load), RZ_BAD_HANDLE);
    WANTS(rz_loaded(handle, none, 0, none, 0, none, 0, byte, 0, none, 0, byte, 0), RZ_BAD_HANDLE);
}

/* Calls on a server, with a handle that holds none. The handle that they would put something into stays empty. */
static void no_server(rz_handle *handle) {
    rz_handle other = {0};
    rz_loader_sizes loaders;
    uint32_t none[1];
    uint8_t byte[1];
    WANTS(rz_share(handle, &other), RZ_BAD_HANDLE);
    WANTS(rz_queries(handle, &other), RZ_BAD_HANDLE);
    WANTS(rz_client(handle, &other, none, 0), RZ_BAD_HANDLE);
    WANTS(rz_loaders_sizes(handle, &loaders), RZ_BAD_HANDLE);
    WANTS(rz_loaders(handle, none, 0, none, 0, byte, 0), RZ_BAD_HANDLE);
    WANTS(other.at != NULL, 0);
}

/* Handles that are empty, or hold an object of another kind. */
static void handles(rz_handle *server, rz_handle *client) {
    rz_handle empty = {0}, others = {0};
    rz_close(&empty);
    WANTS(rz_queries(server, &others), RZ_DONE);
    no_client(&empty);
    no_client(server);
    no_client(&others);
    no_server(&empty);
    no_server(client);
    no_server(&others);
    WANTS(rz_queries(client, &others), RZ_BAD_HANDLE);
    WANTS(rz_begin(client, &others, TEXT(LINE)), RZ_DONE);
    WANTS(rz_cancel(client), RZ_DONE);
    rz_close(&others);
}

/* Schemas, bindings and limits that are refused. What the handle held stays. */
static void opening(rz_handle *server, const uint8_t *schema, size_t schema_len, const uint8_t *bindings, size_t bindings_len) {
    rz_handle opened = {0}, client = {0};
    rz_fault fault = {0};
    rz_loader_sizes loaders;
    uint32_t limits[16] = {0};
    WANTS(rz_open(&opened, (const uint8_t *)"\xff", 1, bindings, bindings_len, &fault), RZ_NOT_UTF8);
    WANTS(rz_open(&opened, schema, schema_len, (const uint8_t *)"\xff", 1, &fault), RZ_NOT_UTF8);
    WANTS(rz_open(&opened, TEXT("type Query { a: Nope }"), bindings, bindings_len, &fault), RZ_BAD_SCHEMA);
    WANTS(fault.number, 3);
    WANTS(fault.line, 1);
    WANTS(fault.column, 17);
    WANTS(fault.in_bindings, 0);
    const char unknown[] = "there is no type \"Nope\"";
    uint8_t sentence[64] = {0};
    WANTS(rz_fault_text(&fault, TEXT("type Query { a: Nope }"), bindings, bindings_len, NULL, 0), strlen(unknown));
    WANTS(rz_fault_text(&fault, TEXT("type Query { a: Nope }"), bindings, bindings_len, sentence, 3), strlen(unknown));
    WANTS(memcmp(sentence, "the\0", 4), 0);
    WANTS(rz_fault_text(&fault, TEXT("type Query { a: Nope }"), bindings, bindings_len, sentence, 64), strlen(unknown));
    WANTS(memcmp(sentence, unknown, sizeof unknown), 0);
    WANTS(rz_fault_text(&fault, (const uint8_t *)"\xff", 1, bindings, bindings_len, sentence, 64), 0);
    WANTS(rz_open(server, schema, schema_len, TEXT("bindings 1\nloader x"), &fault), RZ_BAD_SCHEMA);
    WANTS(fault.number, 8);
    WANTS(fault.line, 2);
    WANTS(fault.in_bindings, 1);
    WANTS(opened.at != NULL, 0);
    WANTS(rz_loaders_sizes(server, &loaders), RZ_DONE);
    WANTS(rz_client(server, &client, limits, loaders.loaders + 1), RZ_BAD_SIZE);
    limits[0] = 65536;
    WANTS(rz_client(server, &client, limits, loaders.loaders), RZ_BAD_LIMIT);
    WANTS(client.at != NULL, 0);
    WANTS(rz_loaders(server, limits, loaders.loaders, limits, 0, (uint8_t *)limits, loaders.bytes), RZ_BAD_SIZE);
}

/* Calls out of turn. */
static void turns(rz_handle *client) {
    rz_sizes_t sizes;
    uint32_t none[1], word;
    uint8_t byte[1];
    WANTS(rz_next(client), RZ_IDLE);
    WANTS(rz_cancel(client), RZ_IDLE);
    WANTS(rz_answer(client, byte, 0), RZ_IDLE);
    WANTS(rz_take_rows(client, 0, 0, none, 0, none, 0, byte, 0), RZ_NO_ORDER);
    WANTS(rz_begin(client, &queries, TEXT(LINE)), RZ_DONE);
    WANTS(rz_begin(client, &queries, TEXT(LINE)), RZ_BUSY);
    WANTS(rz_begin_request(client, &queries, TEXT("{a}"), TEXT(""), TEXT("")), RZ_BUSY);
    WANTS(rz_take_failed(client, 0, TEXT("down")), RZ_NO_ORDER);
    WANTS(rz_answer(client, byte, 0), RZ_IDLE);
    WANTS(rz_next(client), RZ_ROUND);
    WANTS(rz_next(client), RZ_WAITING);
    WANTS(rz_begin(client, &queries, TEXT(LINE)), RZ_BUSY);
    WANTS(rz_restart(client), RZ_BUSY);
    WANTS(rz_limit_answers(client, 9), RZ_BUSY);
    WANTS(rz_limit_work(client, 9), RZ_BUSY);
    WANTS(rz_limit_rounds(client, 9), RZ_BUSY);
    WANTS(rz_clear_all(client, 0), RZ_BUSY);
    WANTS(rz_clear(client, 0, none, 0, byte, 0, &word), RZ_BUSY);
    WANTS(rz_sizes(client, &sizes), RZ_DONE);
    WANTS(sizes.orders, 1);
    WANTS(sizes.answer, 0);
    WANTS(rz_orders(client, none, 0, none, 0, none, 0, none, 0, byte, 0), RZ_BAD_SIZE);
    WANTS(rz_answer(client, byte, 0), RZ_IDLE);
}

/* Replies that are refused: each leaves the order waiting. The columns are id, name and best; the one key has one row. */
static void replies(rz_handle *client) {
    uint32_t rows[2] = {1, 0}, faults[1] = {RZ_KEY_FAULT}, many[1] = {0xFFFFFFFEu};
    uint32_t ends[7] = {2, 6, 10, 11, 14, 15, 15}, falls[6] = {2, 6, 10, 14, 11, 15}, past[6] = {2, 6, 10, 11, 14, 99};
    uint32_t inside[6] = {2, 6, 10, 11, 12, 15};
    const char *bytes = "idnamebest1Ada2";
    WANTS(rz_take_rows(client, 1, 3, rows, 1, ends, 6, TEXT(bytes)), RZ_NO_ORDER);
    WANTS(rz_take_rows(client, SIZE_MAX, 3, rows, 1, ends, 6, TEXT(bytes)), RZ_NO_ORDER);
    WANTS(rz_take_failed(client, 1, TEXT("down")), RZ_NO_ORDER);
    WANTS(rz_take_failed(client, 0, (const uint8_t *)"\xff", 1), RZ_NOT_UTF8);
    WANTS(rz_take_rows(client, 0, 3, rows, 2, ends, 6, TEXT(bytes)), RZ_BAD_COUNT);
    WANTS(rz_take_rows(client, 0, 3, rows, 0, ends, 6, TEXT(bytes)), RZ_BAD_COUNT);
    WANTS(rz_take_rows(client, 0, 3, rows, 1, ends, 6, TEXT("idnamebest1A\xff" "a2")), RZ_NOT_UTF8);
    WANTS(rz_take_rows(client, 0, 3, rows, 1, falls, 6, TEXT(bytes)), RZ_BAD_ENDS);
    WANTS(rz_take_rows(client, 0, 3, rows, 1, past, 6, TEXT(bytes)), RZ_BAD_ENDS);
    WANTS(rz_take_rows(client, 0, 3, rows, 1, inside, 6, TEXT("idnamebest1\xc3\xa4" "a2")), RZ_BAD_ENDS);
    WANTS(rz_take_rows(client, 0, 3, rows, 1, ends, 6, TEXT("idnamebest1Ada2left")), RZ_BAD_ENDS);
    WANTS(rz_take_rows(client, 0, 3, many, 1, ends, 6, TEXT(bytes)), RZ_TOO_FEW_TEXTS);
    WANTS(rz_take_rows(client, 0, SIZE_MAX, rows, 1, ends, 6, TEXT(bytes)), RZ_TOO_FEW_TEXTS);
    WANTS(rz_take_rows(client, 0, 0, rows, 1, ends, 6, TEXT(bytes)), RZ_NO_COLUMN);
    WANTS(rz_take_rows(client, 0, 3, rows, 1, ends, 5, TEXT("idnamebest1Ada")), RZ_TOO_FEW_TEXTS);
    WANTS(rz_take_rows(client, 0, 3, rows, 1, ends, 7, TEXT(bytes)), RZ_TEXTS_LEFT);
    WANTS(rz_take_rows(client, 0, 3, faults, 1, ends, 3, TEXT("idnamebest")), RZ_TOO_FEW_TEXTS);
    WANTS(rz_next(client), RZ_WAITING);
    WANTS(rz_take_rows(client, 0, 3, rows, 1, ends, 6, TEXT(bytes)), RZ_DONE);
    WANTS(rz_take_rows(client, 0, 3, rows, 1, ends, 6, TEXT(bytes)), RZ_REPLIED);
    WANTS(rz_take_failed(client, 0, TEXT("down")), RZ_REPLIED);
}

/* The second round, a failed batch, and the answer. */
static void answer(rz_handle *client) {
    rz_sizes_t sizes;
    uint8_t text[256];
    WANTS(rz_next(client), RZ_ROUND);
    WANTS(rz_take_failed(client, 0, TEXT("the table is down")), RZ_DONE);
    WANTS(rz_next(client), RZ_DONE);
    WANTS(rz_next(client), RZ_DONE);
    WANTS(rz_take_failed(client, 0, TEXT("down")), RZ_NO_ORDER);
    WANTS(rz_cancel(client), RZ_IDLE);
    WANTS(rz_sizes(client, &sizes), RZ_DONE);
    WANTS(sizes.rounds, 2);
    WANTS(sizes.orders, 0);
    WANTS(rz_answer(client, text, sizes.answer - 1), RZ_BAD_SIZE);
    WANTS(rz_answer(client, text, sizes.answer), RZ_DONE);
    printf("%.*s\n", (int)sizes.answer, (char *)text);
}

/* What is known, and what was asked. */
static void known(rz_handle *client) {
    uint32_t ends[3] = {1, 2, 3}, fault_ends[2] = {2, 6}, none[1], word = 9, rounds[4], stored[4], keys[4], texts[8], at[8];
    uint8_t byte[1], bytes[64], text[256];
    rz_log_sizes_t log;
    rz_sizes_t sizes;
    WANTS(rz_log_sizes(client, 99, &log), RZ_NO_LOADER);
    WANTS(rz_log_sizes(client, 0, &log), RZ_DONE);
    WANTS(log.batches, 2);
    WANTS(log.keys, 2);
    WANTS(rz_log(client, 0, rounds, 1, stored, 2, keys, 2, texts, 2, at, 2, bytes, log.bytes), RZ_BAD_SIZE);
    WANTS(rz_log(client, 0, rounds, 2, stored, 2, keys, 2, texts, 2, at, 2, bytes, log.bytes), RZ_DONE);
    WANTS(rounds[0], 1);
    WANTS(rounds[1], 2);
    WANTS(stored[1], 1);
    WANTS(bytes[0], '1');
    WANTS(rz_clear_all(client, 99), RZ_NO_LOADER);
    WANTS(rz_clear(client, 99, ends, 1, TEXT("1"), &word), RZ_NO_LOADER);
    WANTS(rz_clear(client, 0, ends, 3, TEXT("123"), &word), RZ_BAD_KEY);
    WANTS(rz_clear(client, 0, ends, 2, TEXT("12"), &word), RZ_BAD_KEY);
    WANTS(rz_clear(client, 0, ends, 0, TEXT(""), &word), RZ_BAD_KEY);
    WANTS(rz_clear(client, 1, ends, 1, TEXT("1"), &word), RZ_BAD_KEY);
    WANTS(rz_clear(client, 0, ends, 2, TEXT("1"), &word), RZ_BAD_ENDS);
    WANTS(rz_clear(client, 0, ends, 1, (const uint8_t *)"\xff", 1, &word), RZ_NOT_UTF8);
    WANTS(rz_prime(client, 99, ends, 1, TEXT("1"), 1, 0, fault_ends, 1, TEXT("id"), &word), RZ_NO_LOADER);
    WANTS(rz_prime(client, 0, ends, 2, TEXT("12"), 1, 0, fault_ends, 1, TEXT("id"), &word), RZ_BAD_KEY);
    WANTS(rz_prime(client, 0, ends, 1, TEXT("1"), 1, 1, fault_ends, 1, TEXT("id"), &word), RZ_TOO_FEW_TEXTS);
    WANTS(word, 9);
    /* what is refused lets no answer go */
    WANTS(rz_answer(client, byte, 0), RZ_BAD_SIZE);
    WANTS(rz_clear(client, 0, ends, 1, TEXT("1"), &word), RZ_DONE);
    WANTS(rz_answer(client, byte, 0), RZ_IDLE);
    WANTS(word, 1);
    WANTS(rz_clear(client, 0, ends, 1, TEXT("1"), &word), RZ_DONE);
    WANTS(word, 0);
    WANTS(rz_prime(client, 0, ends, 1, TEXT("1"), 1, RZ_KEY_FAULT, fault_ends, 2, TEXT("idgone"), &word), RZ_DONE);
    WANTS(word, 1);
    WANTS(rz_prime(client, 0, ends, 1, TEXT("1"), 1, 0, fault_ends, 1, TEXT("id"), &word), RZ_DONE);
    WANTS(word, 0);
    WANTS(rz_begin(client, &queries, TEXT(LINE)), RZ_DONE);
    WANTS(rz_next(client), RZ_DONE);
    WANTS(rz_sizes(client, &sizes), RZ_DONE);
    WANTS(sizes.rounds, 0);
    WANTS(rz_answer(client, text, sizes.answer), RZ_DONE);
    printf("%.*s\n", (int)sizes.answer, (char *)text);
    WANTS(rz_restart(client), RZ_DONE);
    WANTS(rz_log_sizes(client, 0, &log), RZ_DONE);
    WANTS(log.batches, 0);
    WANTS(rz_orders(client, none, 0, none, 0, none, 0, none, 0, byte, 0), RZ_NO_ORDER);
}

/* Prints the answer that is there. */
static void print_answer(rz_handle *client) {
    rz_sizes_t sizes;
    uint8_t text[512];
    WANTS(rz_sizes(client, &sizes), RZ_DONE);
    WANTS(sizes.answer < sizeof text, 1);
    WANTS(rz_answer(client, text, sizes.answer), RZ_DONE);
    printf("%.*s\n", (int)sizes.answer, (char *)text);
}

/* Begins a request by its parts, which is answered at once. */
static void answer_parts(rz_handle *client, const char *query, const char *operation, const char *variables) {
    WANTS(rz_begin_request(client, &queries, TEXT(query), TEXT(operation), TEXT(variables)), RZ_DONE);
    WANTS(rz_next(client), RZ_DONE);
    print_answer(client);
}

/* Requests that aren't valid are answered at once. */
static void parts(rz_handle *client) {
    const char *two = "query A{__typename} query B($b:Boolean!){b:__typename@include(if:$b)}";
    answer_parts(client, two, "A", "");
    answer_parts(client, two, "B", "{\"b\":true}");
    answer_parts(client, two, "B", "");
    answer_parts(client, two, "C", "");
    answer_parts(client, "{nosuch}", "", "{}");
    answer_parts(client, "", "", "null");
    answer_parts(client, "{__typename}", "", "[]");
    answer_parts(client, "{__typename}", "", "{\"a\":1");
    answer_parts(client, "{__typename}", "", "{} {}");
    answer_parts(client, "{\xff}", "", "");
    answer_parts(client, "{__typename}", "\xff", "");
}

/* A request that is given up can be begun again; of an array each value has its answer, within the limit, or what it does wrong. */
static void requests(rz_handle *client) {
    WANTS(rz_begin(client, &queries, TEXT("{")), RZ_DONE);
    WANTS(rz_next(client), RZ_DONE);
    print_answer(client);
    WANTS(rz_limit_answers(client, 20), RZ_DONE);
    WANTS(rz_begin(client, &queries, TEXT(LINE)), RZ_DONE);
    WANTS(rz_next(client), RZ_ROUND);
    WANTS(rz_cancel(client), RZ_DONE);
    WANTS(rz_next(client), RZ_IDLE);
    WANTS(rz_begin(client, &queries, TEXT("[{\"query\":\"{user(id:1){name}}\"},{\"query\":\"{nosuch}\"},3]")), RZ_DONE);
    WANTS(rz_next(client), RZ_ROUND);
    WANTS(rz_take_failed(client, 0, TEXT("down")), RZ_DONE);
    WANTS(rz_next(client), RZ_DONE);
    print_answer(client);
}

/* A reply of more rows than there can be, to an order of two keys. */
static void many_rows(rz_handle *client) {
    const uint32_t rows[] = {UINT32_MAX - 1, 2}, ends[] = {2};
    WANTS(rz_begin(client, &queries, TEXT("{\"query\":\"{a:user(id:1){id} b:user(id:2){id}}\"}")), RZ_DONE);
    WANTS(rz_next(client), RZ_ROUND);
    WANTS(rz_take_rows(client, 0, 1, rows, 2, ends, 1, TEXT("id")), RZ_TOO_MANY_ROWS);
    WANTS(rz_take_rows(client, 0, 0, rows, 2, ends, 1, TEXT("id")), RZ_TOO_MANY_ROWS);
    WANTS(rz_take_rows(client, 0, 1, rows, 1, ends, 1, TEXT("id")), RZ_BAD_COUNT);
    WANTS(rz_next(client), RZ_WAITING);
    WANTS(rz_cancel(client), RZ_DONE);
}

/* Rows in any order, for the ids 1, 2 and 3, of which 3 has none: what is refused, with the number of the row, and then the answer. */
static void keyed_rows(rz_handle *client) {
    const uint32_t ends[] = {4, 6, 9, 10, 13, 14}, other[] = {4, 6, 9, 10, 13, 14, 17, 18}, twice[] = {2, 4, 5, 6};
    uint32_t row = 9;
    WANTS(rz_take_keyed_rows(client, 0, 2, 0, NULL, 0, ends, 0, TEXT(""), &row), RZ_NO_ORDER);
    WANTS(rz_begin(client, &queries, TEXT("{\"query\":\"{a:user(id:1){name} b:user(id:2){name} c:user(id:3){name}}\"}")), RZ_DONE);
    WANTS(rz_next(client), RZ_ROUND);
    WANTS(rz_take_keyed_rows(client, 1, 2, 2, NULL, 0, ends, 6, TEXT("nameidBob2Ada1"), &row), RZ_NO_ORDER);
    WANTS(rz_take_keyed_rows(client, 0, 2, 2, NULL, 0, ends, 6, TEXT("nameidBob2Ada\xff"), &row), RZ_NOT_UTF8);
    WANTS(rz_take_keyed_rows(client, 0, 2, 2, NULL, 0, ends, 6, TEXT("nameidBob2Ada1left"), &row), RZ_BAD_ENDS);
    WANTS(rz_take_keyed_rows(client, 0, 0, 2, NULL, 0, ends, 0, TEXT(""), &row), RZ_NO_COLUMN);
    WANTS(rz_take_keyed_rows(client, 0, 2, 3, NULL, 0, ends, 6, TEXT("nameidBob2Ada1"), &row), RZ_TOO_FEW_TEXTS);
    WANTS(rz_take_keyed_rows(client, 0, 2, UINT32_MAX, NULL, 0, ends, 6, TEXT("nameidBob2Ada1"), &row), RZ_TOO_FEW_TEXTS);
    WANTS(rz_take_keyed_rows(client, 0, 2, 1, NULL, 0, ends, 6, TEXT("nameidBob2Ada1"), &row), RZ_TEXTS_LEFT);
    WANTS(rz_take_keyed_rows(client, 0, 2, 2, NULL, 0, ends, 6, TEXT("nameIDBob2Ada1"), &row), RZ_NO_KEY_COLUMN);
    WANTS(row, 9);
    WANTS(rz_take_keyed_rows(client, 0, 2, 3, NULL, 0, other, 8, TEXT("nameidBob2Ada1Eve4"), &row), RZ_NOT_ASKED);
    WANTS(row, 3);
    WANTS(rz_take_keyed_rows(client, 0, 2, 1, NULL, 0, twice, 4, TEXT("idid41"), &row), RZ_NOT_ASKED);
    WANTS(row, 1);
    WANTS(rz_next(client), RZ_WAITING);
    WANTS(rz_take_keyed_rows(client, 0, 2, 2, NULL, 0, ends, 6, TEXT("nameidBob2Ada1"), &row), RZ_DONE);
    WANTS(rz_take_keyed_rows(client, 0, 2, 2, NULL, 0, ends, 6, TEXT("nameidBob2Ada1"), &row), RZ_REPLIED);
    WANTS(row, 1);
    WANTS(rz_next(client), RZ_DONE);
    print_answer(client);
    WANTS(rz_restart(client), RZ_DONE);
}

/* Faults of keys beside rows in any order: what is refused; then one in the place of a row, and one of a key without rows; then one alone. */
static void keyed_faults(rz_handle *client) {
    const uint32_t ends[] = {4, 6, 9, 10, 13, 14, 18, 21}, other[] = {4, 6, 9, 10, 13, 14, 17, 18, 22}, alone[] = {4};
    const uint32_t second[] = {1}, both[] = {1, 2}, same[] = {1, 1}, falls[] = {2, 1}, past[] = {3}, far[] = {1, UINT32_MAX};
    uint32_t row = 9;
    WANTS(rz_begin(client, &queries, TEXT("{\"query\":\"{a:user(id:1){name} b:user(id:2){name} c:user(id:3){name}}\"}")), RZ_DONE);
    WANTS(rz_next(client), RZ_ROUND);
    WANTS(rz_take_keyed_rows(client, 1, 2, 2, past, 1, ends, 7, TEXT("nameidBob2Ada1cast"), &row), RZ_NO_ORDER);
    WANTS(rz_take_keyed_rows(client, 0, 2, 2, past, 1, ends, 7, TEXT("nameidBob2Ada1cast"), &row), RZ_BAD_FAULTS);
    WANTS(rz_take_keyed_rows(client, 0, 2, 2, far, 2, ends, 8, TEXT("nameidBob2Ada1castoff"), &row), RZ_BAD_FAULTS);
    WANTS(rz_take_keyed_rows(client, 0, 2, 2, same, 2, ends, 8, TEXT("nameidBob2Ada1castoff"), &row), RZ_BAD_FAULTS);
    WANTS(rz_take_keyed_rows(client, 0, 2, 2, falls, 2, ends, 8, TEXT("nameidBob2Ada1castoff"), &row), RZ_BAD_FAULTS);
    WANTS(rz_take_keyed_rows(client, 0, 2, 2, past, 1, ends, 7, TEXT("nameidBob2Ada1ca\xfft"), &row), RZ_BAD_FAULTS);
    WANTS(rz_take_keyed_rows(client, 0, 2, 2, second, 1, ends, 7, TEXT("nameidBob2Ada1ca\xfft"), &row), RZ_NOT_UTF8);
    WANTS(rz_take_keyed_rows(client, 0, 2, 2, second, 1, ends, 7, TEXT("nameidBob2Ada1castoff"), &row), RZ_BAD_ENDS);
    WANTS(rz_take_keyed_rows(client, 0, 0, 2, second, 1, alone, 1, TEXT("cast"), &row), RZ_NO_COLUMN);
    WANTS(rz_take_keyed_rows(client, 0, 2, 2, both, 2, ends, 7, TEXT("nameidBob2Ada1cast"), &row), RZ_TOO_FEW_TEXTS);
    WANTS(rz_take_keyed_rows(client, 0, 2, 2, second, 1, ends, 8, TEXT("nameidBob2Ada1castoff"), &row), RZ_TEXTS_LEFT);
    WANTS(rz_take_keyed_rows(client, 0, 2, 2, NULL, 0, ends, 7, TEXT("nameidBob2Ada1cast"), &row), RZ_TEXTS_LEFT);
    WANTS(rz_take_keyed_rows(client, 0, 2, 2, second, 1, ends, 7, TEXT("nameIDBob2Ada1cast"), &row), RZ_NO_KEY_COLUMN);
    WANTS(row, 9);
    WANTS(rz_take_keyed_rows(client, 0, 2, 3, second, 1, other, 9, TEXT("nameidBob2Ada1Eve4cast"), &row), RZ_NOT_ASKED);
    WANTS(row, 3);
    WANTS(rz_next(client), RZ_WAITING);
    WANTS(rz_take_keyed_rows(client, 0, 2, 2, both, 2, ends, 8, TEXT("nameidBob2Ada1castoff"), &row), RZ_DONE);
    WANTS(rz_take_keyed_rows(client, 0, 2, 2, past, 1, ends, 7, TEXT("nameidBob2Ada1cast"), &row), RZ_REPLIED);
    WANTS(row, 3);
    WANTS(rz_next(client), RZ_DONE);
    print_answer(client);
    WANTS(rz_restart(client), RZ_DONE);
    WANTS(rz_begin(client, &queries, TEXT("{\"query\":\"{a:user(id:1){name} b:user(id:2){name}}\"}")), RZ_DONE);
    WANTS(rz_next(client), RZ_ROUND);
    WANTS(rz_take_keyed_rows(client, 0, 0, 0, second, 1, alone, 1, TEXT("cast"), &row), RZ_DONE);
    WANTS(rz_next(client), RZ_DONE);
    print_answer(client);
    WANTS(rz_restart(client), RZ_DONE);
}

/* A null pointer to no elements is as good as any. */
static void nulls(rz_handle *server) {
    rz_handle client = {0}, opened = {0};
    rz_fault fault;
    rz_sizes_t sizes;
    uint32_t loaders[1], keys[1], texts[1], rows[1] = {0}, ends[1], row;
    uint8_t bytes[1];
    WANTS(rz_code_name(RZ_NO_MEMORY, NULL, 0), 12);
    WANTS(rz_open(&opened, NULL, 0, NULL, 0, &fault), RZ_BAD_SCHEMA);
    WANTS(rz_client(server, &client, NULL, 0), RZ_DONE);
    WANTS(rz_begin(&client, &queries, NULL, 0), RZ_DONE);
    WANTS(rz_next(&client), RZ_DONE);
    WANTS(rz_answer(&client, NULL, 0), RZ_BAD_SIZE);
    WANTS(rz_begin_request(&client, &queries, TEXT("{user(id:1){name}}"), NULL, 0, NULL, 0), RZ_DONE);
    WANTS(rz_orders(&client, NULL, 0, NULL, 0, NULL, 0, NULL, 0, NULL, 0), RZ_DONE);
    WANTS(rz_next(&client), RZ_ROUND);
    WANTS(rz_sizes(&client, &sizes), RZ_DONE);
    WANTS(rz_orders(&client, loaders, 1, keys, 1, texts, 1, ends, 1, bytes, 1), RZ_DONE);
    WANTS(rz_take_rows(&client, 0, 0, NULL, 0, NULL, 0, NULL, 0), RZ_BAD_COUNT);
    WANTS(rz_take_keyed_rows(&client, 0, 0, 1, NULL, 0, NULL, 0, NULL, 0, &row), RZ_NO_COLUMN);
    WANTS(rz_take_rows(&client, 0, 0, rows, 1, NULL, 0, NULL, 0), RZ_DONE);
    WANTS(rz_next(&client), RZ_DONE);
    WANTS(rz_begin_load(&client, 0, NULL, 0, NULL, 0, NULL, 0), RZ_DONE);
    WANTS(rz_next(&client), RZ_DONE);
    WANTS(rz_loaded(&client, NULL, 0, NULL, 0, NULL, 0, NULL, 0, NULL, 0, NULL, 0), RZ_DONE);
    WANTS(rz_clear(&client, 0, NULL, 0, NULL, 0, &row), RZ_BAD_KEY);
    rz_close(&client);
}

/* The outcomes of keys that were loaded, in buffers that are large enough. */
typedef struct { rz_load_sizes_t sizes; uint32_t rows[8], columns[8], ends[32], fault_ends[8]; uint8_t bytes[128], fault_bytes[64]; } loaded;

/* Copies the outcomes, with buffers that are less by less_rows, less_bytes and less_faults than the sizes that are told. */
static int32_t copy_loaded(rz_handle *client, loaded *to, size_t less_rows, size_t less_bytes, size_t less_faults) {
    const rz_load_sizes_t *sizes = &to->sizes;
    return rz_loaded(client, to->rows, sizes->keys - less_rows, to->columns, sizes->rows, to->ends, sizes->texts, to->bytes,
                     sizes->bytes - less_bytes, to->fault_ends, sizes->faults - less_faults, to->fault_bytes, sizes->fault_bytes);
}

/* Prints the outcomes that are there: of each key its rows, each with its columns, or its fault. */
static void print_loaded(rz_handle *client) {
    loaded of = {0};
    size_t row = 0, text = 0, start = 0, fault = 0, fault_start = 0, names[8] = {0}, width = 0;
    WANTS(rz_load_sizes(client, &of.sizes), RZ_DONE);
    WANTS(copy_loaded(client, &of, 0, 0, 0), RZ_DONE);
    for (size_t key = 0; key < of.sizes.keys; key++) {
        if (of.rows[key] >= RZ_BATCH_FAULT) {
            size_t end = of.fault_ends[fault++];
            printf("%s ", of.rows[key] == RZ_KEY_FAULT ? "key fault" : "batch fault");
            printf("%.*s;", (int)(end - fault_start), (char *)of.fault_bytes + fault_start);
            fault_start = end;
            continue;
        }
        for (size_t last = row + of.rows[key]; row < last; row++) {
            if (of.columns[row] != RZ_SAME_COLUMNS) {
                width = of.columns[row];
                for (size_t column = 0; column < width; column++) names[column] = text++;
                start = of.ends[text - 1];
            }
            for (size_t column = 0; column < width; column++, start = of.ends[text++]) {
                size_t name = names[column] ? of.ends[names[column] - 1] : 0;
                printf(" %.*s", (int)(of.ends[names[column]] - name), (char *)of.bytes + name);
                printf("=%.*s", (int)(of.ends[text] - start), (char *)of.bytes + start);
            }
        }
        printf(";");
    }
    WANTS(text, of.sizes.texts);
    printf("\n");
}

/* Begins to load keys of one letter each, by the loader 0. */
static int32_t begin_keys(rz_handle *client, const char *letters) {
    uint32_t texts[8], ends[8];
    size_t count = strlen(letters);
    for (size_t key = 0; key < count; key++) {
        texts[key] = 1;
        ends[key] = (uint32_t)key + 1;
    }
    return rz_begin_load(client, 0, texts, count, ends, count, TEXT(letters));
}

/* Keys that are no keys of a loader: what was loaded before stays. */
static void no_keys(rz_handle *client) {
    const uint32_t texts[] = {1, 3, 1}, ends[] = {1, 2, 3}, falls[] = {2, 1, 3}, pair[] = {2}, none[] = {0};
    WANTS(rz_begin_load(client, 99, texts, 1, ends, 1, TEXT("1")), RZ_NO_LOADER);
    WANTS(rz_begin_load(client, 0, texts, 1, ends, 1, (const uint8_t *)"\xff", 1), RZ_NOT_UTF8);
    WANTS(rz_begin_load(client, 0, texts, 3, falls, 3, TEXT("123")), RZ_BAD_ENDS);
    WANTS(rz_begin_load(client, 0, texts, 1, ends, 1, TEXT("12")), RZ_BAD_ENDS);
    WANTS(rz_begin_load(client, 0, texts, 2, ends, 3, TEXT("123")), RZ_BAD_KEY);
    WANTS(rz_begin_load(client, 0, pair, 1, ends, 2, TEXT("12")), RZ_BAD_KEY);
    WANTS(rz_begin_load(client, 0, none, 1, ends, 0, TEXT("")), RZ_BAD_KEY);
    WANTS(rz_begin_load(client, 1, texts, 1, ends, 1, TEXT("1")), RZ_BAD_KEY);
    WANTS(rz_begin_load(client, 0, texts, 1, ends, 0, TEXT("")), RZ_TOO_FEW_TEXTS);
    WANTS(rz_begin_load(client, 0, texts, 1, ends, 2, TEXT("12")), RZ_TEXTS_LEFT);
    WANTS(rz_next(client), RZ_DONE);
}

/* The round of a load: one of its three keys is known, and the other two are equal. */
static void load_round(rz_handle *client) {
    rz_sizes_t sizes;
    rz_load_sizes_t load;
    rz_log_sizes_t log;
    uint32_t number[1], keys[1], texts[1], ends[1], none[1], rows[] = {2}, row_ends[] = {2, 6, 7, 10, 11, 14};
    uint8_t byte[1];
    WANTS(begin_keys(client, "122"), RZ_DONE);
    WANTS(begin_keys(client, "3"), RZ_BUSY);
    WANTS(rz_begin(client, &queries, TEXT(LINE)), RZ_BUSY);
    WANTS(rz_take_failed(client, 0, TEXT("down")), RZ_NO_ORDER);
    WANTS(rz_next(client), RZ_ROUND);
    WANTS(rz_next(client), RZ_WAITING);
    WANTS(rz_load_sizes(client, &load), RZ_IDLE);
    WANTS(rz_loaded(client, none, 0, none, 0, none, 0, byte, 0, none, 0, byte, 0), RZ_IDLE);
    WANTS(rz_answer(client, byte, 0), RZ_IDLE);
    WANTS(rz_log_sizes(client, 0, &log), RZ_BUSY);
    WANTS(rz_sizes(client, &sizes), RZ_DONE);
    WANTS(sizes.orders, 1);
    WANTS(sizes.keys, 1);
    WANTS(rz_orders(client, number, 1, keys, 1, texts, 1, ends, 1, byte, 1), RZ_DONE);
    WANTS(number[0], 0);
    WANTS(byte[0], '2');
    WANTS(rz_take_rows(client, 1, 2, rows, 1, row_ends, 6, TEXT("idname2Bob2Bea")), RZ_NO_ORDER);
    WANTS(rz_take_rows(client, 0, 2, rows, 1, row_ends, 5, TEXT("idname2Bob2")), RZ_TOO_FEW_TEXTS);
    WANTS(rz_take_rows(client, 0, 2, rows, 1, row_ends, 6, TEXT("idname2Bob2Bea")), RZ_DONE);
    WANTS(rz_take_rows(client, 0, 2, rows, 1, row_ends, 6, TEXT("idname2Bob2Bea")), RZ_REPLIED);
    WANTS(rz_next(client), RZ_DONE);
    WANTS(rz_next(client), RZ_DONE);
    WANTS(rz_cancel(client), RZ_IDLE);
    WANTS(rz_answer(client, byte, 0), RZ_IDLE);
}

/* The outcomes of that round, as often as they are asked for, and the batch that was asked. */
static void load_outcomes(rz_handle *client) {
    loaded of = {0};
    rz_log_sizes_t log;
    WANTS(rz_load_sizes(client, &of.sizes), RZ_DONE);
    WANTS(of.sizes.rows, 5);
    WANTS(of.sizes.texts, 16);
    WANTS(copy_loaded(client, &of, 1, 0, 0), RZ_BAD_SIZE);
    WANTS(copy_loaded(client, &of, 0, 1, 0), RZ_BAD_SIZE);
    WANTS(copy_loaded(client, &of, 0, 0, 1), RZ_BAD_SIZE);
    WANTS(rz_log_sizes(client, 0, &log), RZ_DONE);
    WANTS(log.batches, 1);
    WANTS(log.keys, 1);
    print_loaded(client);
    no_keys(client);
    print_loaded(client);
}

/* A load of one key, whose reply says that the key or the batch has a fault. */
static void load_fault(rz_handle *client, const char *letters, int is_batch) {
    const uint32_t rows[] = {RZ_KEY_FAULT}, ends[] = {4};
    WANTS(begin_keys(client, letters), RZ_DONE);
    WANTS(rz_next(client), RZ_ROUND);
    if (is_batch) WANTS(rz_take_failed(client, 0, TEXT("down")), RZ_DONE);
    else WANTS(rz_take_rows(client, 0, 0, rows, 1, ends, 1, TEXT("gone")), RZ_DONE);
    WANTS(rz_next(client), RZ_DONE);
    print_loaded(client);
}

/* Keys that are loaded, by their outcomes: of rows, of faults, of none; and what lets them go. */
static void loads(rz_handle *client) {
    uint32_t key_end[] = {1}, ends[] = {2, 4, 6, 7, 10, 11}, word = 9;
    rz_load_sizes_t load;
    WANTS(rz_restart(client), RZ_DONE);
    WANTS(rz_load_sizes(client, &load), RZ_IDLE);
    WANTS(rz_prime(client, 0, key_end, 1, TEXT("1"), 3, 1, ends, 6, TEXT("idnoxx1Evey"), &word), RZ_DONE);
    load_round(client);
    load_outcomes(client);
    load_fault(client, "13", 0);
    load_fault(client, "43", 1);
    load_fault(client, "4", 1);
    WANTS(begin_keys(client, "23"), RZ_DONE);
    WANTS(rz_next(client), RZ_DONE);
    print_loaded(client);
    WANTS(begin_keys(client, ""), RZ_DONE);
    WANTS(rz_next(client), RZ_DONE);
    print_loaded(client);
    WANTS(begin_keys(client, "5"), RZ_DONE);
    WANTS(rz_next(client), RZ_ROUND);
    WANTS(rz_cancel(client), RZ_DONE);
    WANTS(rz_next(client), RZ_IDLE);
    WANTS(begin_keys(client, "1"), RZ_DONE);
    WANTS(rz_next(client), RZ_DONE);
    WANTS(rz_clear(client, 0, key_end, 1, TEXT("1"), &word), RZ_DONE);
    WANTS(rz_load_sizes(client, &load), RZ_IDLE);
}

/* ---- Queries that are lent. */

/* Begins the query of one user. */
static int32_t begin_user(rz_handle *client, rz_handle *lent) {
    return rz_begin_request(client, lent, TEXT("{user(id:1){name}}"), NULL, 0, NULL, 0);
}

/* What isn't to be lent to clients of examples/: an empty handle, a server, and of a server with one loader a client and queries. */
typedef struct { rz_handle empty, server, client, queries; } strangers;

static void open_strangers(strangers *others) {
    const char *schema = "type Query{user(id:ID!):User} type User{name:String!}";
    rz_fault fault;
    *others = (strangers){0};
    WANTS(rz_open(&others->server, TEXT(schema), TEXT("bindings 1\nloader byId users by id\nfield Query.user one byId arg id"), &fault), RZ_DONE);
    WANTS(rz_queries(&others->server, &others->queries), RZ_DONE);
    WANTS(rz_client(&others->server, &others->client, NULL, 0), RZ_DONE);
    WANTS(begin_user(&others->client, &others->queries), RZ_DONE);
    WANTS(rz_next(&others->client), RZ_ROUND);
}

/* Replies to an order of one key with a row of this name. */
static void reply_name(rz_handle *client, const char *name) {
    char bytes[32] = "name";
    const uint32_t rows[] = {1}, ends[] = {4, 4 + (uint32_t)strlen(name)};
    strcat(bytes, name);
    WANTS(rz_take_rows(client, 0, 1, rows, 1, ends, 2, TEXT(bytes)), RZ_DONE);
}

/* The client of the strangers goes on with its round, and is answered by their queries again. */
static void close_strangers(strangers *others) {
    reply_name(&others->client, "Zoe");
    WANTS(rz_next(&others->client), RZ_DONE);
    print_answer(&others->client);
    WANTS(begin_user(&others->client, &queries), RZ_OTHER_SERVER);
    WANTS(begin_user(&others->client, &others->queries), RZ_DONE);
    WANTS(rz_next(&others->client), RZ_DONE);
    print_answer(&others->client);
    rz_close(&others->server);
    rz_close(&others->queries);
    rz_close(&others->client);
}

/* Handles that hold no queries: this comes before all else. */
static void lend_none(rz_handle *client, strangers *others) {
    rz_handle *const none[] = {&others->empty, &others->server, &others->client};
    for (size_t place = 0; place < 3; place++) {
        WANTS(rz_begin(client, none[place], TEXT(LINE)), RZ_BAD_HANDLE);
        WANTS(rz_begin(client, none[place], (const uint8_t *)"\xff", 1), RZ_BAD_HANDLE);
        WANTS(begin_user(client, none[place]), RZ_BAD_HANDLE);
        WANTS(rz_begin(&others->empty, none[place], TEXT(LINE)), RZ_BAD_HANDLE);
    }
    WANTS(others->empty.at != NULL, 0);
}

/* The queries of the strangers: RZ_BUSY comes first. */
static void lend_others(rz_handle *client, strangers *others, int32_t code) {
    WANTS(rz_begin(client, &others->queries, TEXT(LINE)), code);
    WANTS(rz_begin(client, &others->queries, (const uint8_t *)"\xff", 1), code);
    WANTS(begin_user(client, &others->queries), code);
}

/* Wrong queries while something is asked, of which nothing changes. */
static void lend_busy(rz_handle *client, strangers *others) {
    lend_none(client, others);
    lend_others(client, others, RZ_BUSY);
    WANTS(rz_begin(client, &queries, TEXT(LINE)), RZ_BUSY);
    WANTS(begin_user(client, &queries), RZ_BUSY);
}

/* Queries of another server change nothing: an answer or outcomes stay. */
static void lend_idle(rz_handle *client, strangers *others) {
    rz_log_sizes_t log;
    lend_others(client, others, RZ_OTHER_SERVER);
    WANTS(rz_next(client), RZ_DONE);
    WANTS(rz_log_sizes(client, 0, &log), RZ_DONE);
    WANTS(log.batches, 1);
}

/* Wrong queries at each stage of a request and of a load, which go on as if nothing had been lent. */
static void wrong_queries(rz_handle *server) {
    strangers others;
    rz_handle client = {0};
    open_strangers(&others);
    WANTS(rz_client(server, &client, NULL, 0), RZ_DONE);
    lend_none(&client, &others);
    lend_others(&client, &others, RZ_OTHER_SERVER);
    WANTS(begin_user(&client, &queries), RZ_DONE);
    lend_busy(&client, &others);
    WANTS(rz_next(&client), RZ_ROUND);
    lend_busy(&client, &others);
    WANTS(rz_next(&client), RZ_WAITING);
    reply_name(&client, "Ada");
    lend_busy(&client, &others);
    WANTS(rz_next(&client), RZ_DONE);
    lend_none(&client, &others);
    lend_idle(&client, &others);
    print_answer(&client);
    WANTS(begin_keys(&client, "1"), RZ_DONE);
    lend_busy(&client, &others);
    WANTS(rz_next(&client), RZ_DONE);
    lend_none(&client, &others);
    lend_idle(&client, &others);
    print_loaded(&client);
    WANTS(begin_user(&client, &queries), RZ_DONE);
    WANTS(rz_next(&client), RZ_DONE);
    print_answer(&client);
    close_strangers(&others);
    rz_close(&client);
}

/* Begins the query of two users by shared queries, and wants so many orders of it. */
static void begin_users(rz_handle *client, const char *variables, size_t orders) {
    rz_sizes_t sizes;
    const char *query = "query($i:ID!,$j:ID!){a:user(id:$i){name} b:user(id:$j){name}}";
    WANTS(rz_begin_request(client, &queries, TEXT(query), NULL, 0, TEXT(variables)), RZ_DONE);
    WANTS(rz_next(client), orders ? RZ_ROUND : RZ_DONE);
    WANTS(rz_sizes(client, &sizes), RZ_DONE);
    WANTS(sizes.orders, orders);
}

/* Two clients with limits of their own answer the same query by the same queries at the same time, with values of their own. */
static void shared_queries(rz_handle *server) {
    rz_handle one = {0}, two = {0};
    const uint32_t limits[] = {1, 0, 0, 0, 0, 0}, rows[] = {1, 1}, ends[] = {4, 7, 9}, row_ends[] = {4, 7};
    WANTS(rz_client(server, &one, limits, 6), RZ_DONE);
    WANTS(rz_client(server, &two, NULL, 0), RZ_DONE);
    WANTS(rz_limit_answers(&two, 20), RZ_DONE);
    begin_users(&one, "{\"i\":3,\"j\":1}", 2);
    begin_users(&two, "{\"i\":2,\"j\":3}", 1);
    reply_name(&one, "Cy");
    WANTS(rz_take_rows(&one, 1, 1, rows, 1, row_ends, 2, TEXT("nameAda")), RZ_DONE);
    WANTS(rz_take_rows(&two, 0, 1, rows, 2, ends, 3, TEXT("nameBobCy")), RZ_DONE);
    WANTS(rz_next(&two), RZ_DONE);
    WANTS(rz_next(&one), RZ_DONE);
    print_answer(&one);
    print_answer(&two);
    WANTS(rz_limit_answers(&two, 0), RZ_DONE);
    begin_users(&two, "{\"i\":2,\"j\":3}", 0);
    print_answer(&two);
    rz_close(&one);
    rz_close(&two);
}

/* Queries that outlive the handle of their server, and are let go while a client is answering by them. */
static void closed_queries(rz_handle *server) {
    rz_handle shared = {0}, own = {0}, client = {0};
    WANTS(rz_share(server, &shared), RZ_DONE);
    WANTS(rz_queries(&shared, &own), RZ_DONE);
    WANTS(rz_client(&shared, &client, NULL, 0), RZ_DONE);
    rz_close(&shared);
    WANTS(begin_user(&client, &own), RZ_DONE);
    WANTS(rz_next(&client), RZ_ROUND);
    rz_close(&own);
    WANTS(own.at != NULL, 0);
    WANTS(begin_user(&client, &own), RZ_BAD_HANDLE);
    reply_name(&client, "Ada");
    WANTS(rz_next(&client), RZ_DONE);
    print_answer(&client);
    WANTS(begin_user(&client, &queries), RZ_DONE);
    WANTS(rz_queries(server, &queries), RZ_DONE);
    WANTS(rz_next(&client), RZ_DONE);
    print_answer(&client);
    WANTS(rz_queries(server, &client), RZ_DONE);
    WANTS(rz_next(&client), RZ_BAD_HANDLE);
    rz_close(&client);
}

static void lent_queries(rz_handle *server) {
    wrong_queries(server);
    shared_queries(server);
    closed_queries(server);
}

/* ---- Limits on work and rounds. */

/* Replies with Ada, whose best is the user 2. */
static void reply_ada(rz_handle *client) {
    const uint32_t rows[] = {1}, ends[] = {4, 8, 11, 12};
    WANTS(rz_take_rows(client, 0, 2, rows, 1, ends, 4, TEXT("namebestAda2")), RZ_DONE);
}

/* Two requests of an array have the work 3 each, and the third one has none, since it is wrong. */
static void limited_work(rz_handle *client) {
    const char *array = "[{\"query\":\"{user(id:1){name}}\"},{\"query\":\"{a:user(id:1){name}}\"},{\"query\":\"{nosuch}\"}]";
    WANTS(rz_limit_work(client, 5), RZ_DONE);
    WANTS(rz_begin(client, &queries, TEXT(array)), RZ_DONE);
    WANTS(rz_next(client), RZ_ROUND);
    reply_ada(client);
    WANTS(rz_next(client), RZ_DONE);
    print_answer(client);
    WANTS(rz_limit_work(client, 6), RZ_DONE);
    WANTS(rz_begin(client, &queries, TEXT(array)), RZ_DONE);
    WANTS(rz_next(client), RZ_DONE);
    print_answer(client);
}

/* A request needs two rounds. What the first one brought stays known: then it needs one. */
static void limited_rounds(rz_handle *client) {
    const char *line = "{\"query\":\"{user(id:1){best{name}}}\"}";
    rz_sizes_t sizes;
    WANTS(rz_limit_rounds(client, 1), RZ_DONE);
    WANTS(rz_restart(client), RZ_DONE);
    WANTS(rz_begin(client, &queries, TEXT(line)), RZ_DONE);
    WANTS(rz_next(client), RZ_ROUND);
    reply_ada(client);
    WANTS(rz_next(client), RZ_DONE);
    WANTS(rz_sizes(client, &sizes), RZ_DONE);
    WANTS(sizes.rounds, 1);
    print_answer(client);
    WANTS(rz_begin(client, &queries, TEXT(line)), RZ_DONE);
    WANTS(rz_next(client), RZ_ROUND);
    reply_name(client, "Bob");
    WANTS(rz_next(client), RZ_DONE);
    print_answer(client);
}

static void limited(rz_handle *server) {
    rz_handle client = {0};
    WANTS(rz_client(server, &client, NULL, 0), RZ_DONE);
    limited_work(&client);
    limited_rounds(&client);
    rz_close(&client);
}

/* ---- All together. */

/* The codes and their names. */
static void codes(void) {
    uint8_t name[64];
    WANTS(rz_version() >= RZ_VERSION, 1);
    WANTS(rz_code_name(0, name, 64), 0);
    WANTS(rz_code_name(-24, name, 64), 0);
    WANTS(rz_code_text(RZ_BAD_HANDLE, name, 3) > 3, 1);
    for (int32_t code = -1; code >= -23; code--) {
        size_t len = rz_code_name(code, name, 64);
        WANTS(len > 3 && len < 64 && memcmp(name, "RZ_", 3) == 0, 1);
        printf("%d %.*s\n", code, (int)len, (char *)name);
    }
}

int main(int argc, char **argv) {
    if (argc != 3) { fprintf(stderr, "refusals SCHEMA BINDINGS\n"); return 2; }
    size_t schema_len, bindings_len;
    uint8_t *schema = read_file(argv[1], &schema_len), *bindings = read_file(argv[2], &bindings_len);
    rz_handle server = {0}, other = {0}, client = {0};
    rz_fault fault;
    uint32_t none[1];
    codes();
    WANTS(rz_open(&server, schema, schema_len, bindings, bindings_len, &fault), RZ_DONE);
    WANTS(rz_share(&server, &other), RZ_DONE);
    rz_close(&server);
    WANTS(rz_share(&other, &server), RZ_DONE);
    WANTS(rz_client(&server, &client, none, 0), RZ_DONE);
    WANTS(rz_queries(&server, &queries), RZ_DONE);
    rz_close(&server);
    handles(&other, &client);
    opening(&other, schema, schema_len, bindings, bindings_len);
    turns(&client);
    replies(&client);
    answer(&client);
    known(&client);
    parts(&client);
    many_rows(&client);
    keyed_rows(&client);
    keyed_faults(&client);
    nulls(&other);
    requests(&client);
    loads(&client);
    lent_queries(&other);
    limited(&other);
    WANTS(rz_client(&other, &client, none, 0), RZ_DONE);
    WANTS(rz_next(&client), RZ_IDLE);
    rz_close(&client);
    rz_close(&client);
    WANTS(rz_next(&client), RZ_BAD_HANDLE);
    rz_close(&queries);
    rz_close(&other);
    free(schema);
    free(bindings);
    printf("%d calls, %d wrong\n", calls, wrong);
    return wrong != 0;
}
