/* How much memory queries keep of a request: of 200 different ones of about 1,000 bytes, of several kinds.

       kept_plans SCHEMA BINDINGS

   over the schema and bindings of examples/. Memory is what malloc has given out. */
#define _GNU_SOURCE
#include "rudzkvano.h"
#include <malloc.h>
#include <stdio.h>
#include <stdlib.h>
#include <string.h>

enum { COUNT = 200, FULL = 900, ROOM = 4096 };

static void must(int32_t code, const char *what) {
    if (code < 0) {
        fprintf(stderr, "%s: %d\n", what, (int)code);
        exit(1);
    }
}

static char *read_file(const char *path, size_t *len) {
    FILE *file = fopen(path, "rb");
    if (!file) {
        perror(path);
        exit(1);
    }
    fseek(file, 0, SEEK_END);
    *len = (size_t)ftell(file);
    rewind(file);
    char *text = malloc(*len + 1);
    *len = fread(text, 1, *len, file);
    fclose(file);
    return text;
}

static size_t given_out(void) {
    struct mallinfo2 heap = mallinfo2();
    return heap.uordblks + heap.hblkhd;
}

/* ---- Queries, each of the number that makes it another one. */

static void add(char *query, const char *text) { strncat(query, text, ROOM - strlen(query) - 1); }

static void add_numbered(char *query, const char *form, int number) {
    char text[512];
    snprintf(text, sizeof text, form, number);
    add(query, text);
}

static void one_row(char *query, int number) {
    add_numbered(query, "{user(id:%d){", number);
    for (int field = 0; strlen(query) < FULL; field++) add_numbered(query, "a%d:name ", field);
    add(query, "}}");
}

static void levels(char *query, int number) {
    int depth = 2;
    add_numbered(query, "{user(id:%d){", number);
    for (; strlen(query) < FULL; depth++) add(query, "id name posts{title author{name}} best{");
    add(query, "id");
    while (depth-- > 0) add(query, "}");
}

static void a_page(char *query, int number) {
    add_numbered(query, "query Page%d($userId: ID!) {\n  user(id: $userId) {\n", number);
    for (int friend = 0; strlen(query) < FULL; friend++)
        add_numbered(query,
                     "    friend%d: best {\n      id\n      name\n      posts {\n        title\n        author {\n          name\n        }\n"
                     "      }\n    }\n",
                     friend);
    add(query, "  }\n}\n");
}

static void measure(rz_handle *server, const char *name, void (*write)(char *query, int number), const char *variables) {
    rz_handle queries = {0}, client = {0};
    const uint32_t none[1] = {0};
    size_t before = 0, bytes = 0;
    must(rz_queries(server, &queries), "rz_queries");
    must(rz_client(server, &client, none, 0), "rz_client");
    for (int number = 0; number <= COUNT; number++) {
        char query[ROOM] = "";
        write(query, number);
        if (number == 1) before = given_out();
        if (number >= 1) bytes += strlen(query);
        must(rz_begin_request(&client, &queries, (const uint8_t *)query, strlen(query), (const uint8_t *)"", 0, (const uint8_t *)variables,
                              strlen(variables)),
             "rz_begin_request");
        if (rz_next(&client) == RZ_ROUND) must(rz_cancel(&client), "rz_cancel");
        must(rz_restart(&client), "rz_restart");
    }
    printf("%-8s %6zu bytes of query, %8zu bytes kept\n", name, bytes / COUNT, (given_out() - before) / COUNT);
    rz_close(&client);
    rz_close(&queries);
}

int main(int count, char **words) {
    if (count != 3) {
        fprintf(stderr, "kept_plans SCHEMA BINDINGS\n");
        return 2;
    }
    size_t schema_len, bindings_len;
    char *schema = read_file(words[1], &schema_len), *bindings = read_file(words[2], &bindings_len);
    rz_handle server = {0};
    rz_fault fault;
    must(rz_open(&server, (const uint8_t *)schema, schema_len, (const uint8_t *)bindings, bindings_len, &fault), "rz_open");
    measure(&server, "one row", one_row, "");
    measure(&server, "levels", levels, "");
    measure(&server, "a page", a_page, "{\"userId\":\"1\"}");
    rz_close(&server);
    free(schema);
    free(bindings);
    return 0;
}
