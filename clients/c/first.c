/* The first answer from C, over two users in memory:

   cc first.c $(pkg-config --cflags --libs rudzkvano) */
#include <rudzkvano.h>
#include <stdio.h>
#include <stdlib.h>
#include <string.h>

static const char schema[] = "type Query { user(id: ID!): User } type User { id: ID! name: String! }";
static const char bindings[] = "bindings 1\nloader userById users by id\nfield Query.user one userById arg id\n";
static const char query[] = "{user(id:2){name} other:user(id:9){name}}";
static const char *const users[][2] = {{"1", "Ada"}, {"2", "Bob"}};

/* A text and its length, as calls take it. */
#define TEXT(text) (const uint8_t *)(text), strlen(text)

/* Ends where a call is refused. */
static int32_t must(int32_t code) {
    if (code < 0) {
        uint8_t name[64];
        fprintf(stderr, "%.*s\n", (int)rz_code_name(code, name, sizeof name), (const char *)name);
        exit(1);
    }
    return code;
}

/* The name of the user of an id, or NULL. */
static const char *name_of(const uint8_t *id, size_t length) {
    for (size_t user = 0; user < sizeof users / sizeof *users; user++)
        if (strlen(users[user][0]) == length && memcmp(users[user][0], id, length) == 0) return users[user][1];
    return NULL;
}

/* Replies to an order of one key: a row of the column `name`, or no row. */
static void reply(rz_handle *client, size_t order, const char *name) {
    char bytes[64] = "name";
    uint32_t rows = name != NULL, ends[2] = {4};
    strcat(bytes, name ? name : "");
    ends[1] = (uint32_t)strlen(bytes);
    must(rz_take_rows(client, order, 1, &rows, 1, ends, 1 + rows, (const uint8_t *)bytes, strlen(bytes)));
}

/* Replies to the orders of a round, each of which has one key. */
static void ask(rz_handle *client) {
    rz_sizes_t sizes;
    must(rz_sizes(client, &sizes));
    uint32_t *words = malloc(sizeof *words * (2 * sizes.orders + sizes.keys + sizes.texts));
    uint8_t *bytes = malloc(sizes.bytes + 1);
    if (!words || !bytes) exit(1);
    uint32_t *loaders = words, *keys = loaders + sizes.orders, *texts = keys + sizes.orders, *ends = texts + sizes.keys;
    must(rz_orders(client, loaders, sizes.orders, keys, sizes.orders, texts, sizes.keys, ends, sizes.texts, bytes, sizes.bytes));
    for (size_t order = 0, start = 0; order < sizes.orders; start = ends[order++])
        reply(client, order, name_of(bytes + start, ends[order] - start));
    free(words);
    free(bytes);
}

static void print_answer(rz_handle *client) {
    rz_sizes_t sizes;
    must(rz_sizes(client, &sizes));
    uint8_t *answer = malloc(sizes.answer);
    if (!answer) exit(1);
    must(rz_answer(client, answer, sizes.answer));
    printf("%.*s\n", (int)sizes.answer, (const char *)answer);
    free(answer);
}

int main(void) {
    if (rz_version() >> 16 != RZ_VERSION >> 16 || rz_version() < RZ_VERSION) {
        fprintf(stderr, "the library has version %#x, and its header %#x\n", (unsigned)rz_version(), RZ_VERSION);
        return 1;
    }
    rz_handle server = {0}, queries = {0}, client = {0};
    rz_fault fault;
    const uint32_t most_keys = 1;
    must(rz_open(&server, TEXT(schema), TEXT(bindings), &fault));
    must(rz_queries(&server, &queries));
    must(rz_client(&server, &client, &most_keys, 1));
    must(rz_begin_request(&client, &queries, TEXT(query), TEXT(""), TEXT("")));
    while (must(rz_next(&client)) == RZ_ROUND) ask(&client);
    print_answer(&client);
    rz_close(&client);
    rz_close(&queries);
    rz_close(&server);
    return 0;
}
