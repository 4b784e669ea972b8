#include "host.h"
#include <stdio.h>
#include <stdlib.h>
#include <string.h>

/* ---- Buffers. */

static void *resized(void *block, size_t bytes) {
    void *at = realloc(block, bytes ? bytes : 1);
    if (!at) {
        fprintf(stderr, "out of memory\n");
        exit(2);
    }
    return at;
}

void *allocated(size_t bytes) { return resized(NULL, bytes); }

text text_of(const char *word) { return (text){word, strlen(word)}; }

static int same_text(text one, text other) { return one.len == other.len && (one.len == 0 || memcmp(one.at, other.at, one.len) == 0); }

void resize_bytes(byte_buffer *buffer, size_t len) {
    if (!buffer->at || len > buffer->room) {
        buffer->room = len + len / 2 + 64;
        buffer->at = resized(buffer->at, buffer->room);
    }
    buffer->len = len;
}

void resize_words(word_buffer *buffer, size_t len) {
    if (!buffer->at || len > buffer->room) {
        buffer->room = len + len / 2 + 64;
        buffer->at = resized(buffer->at, buffer->room * sizeof(uint32_t));
    }
    buffer->len = len;
}

void add_bytes(byte_buffer *to, const void *from, size_t len) {
    size_t start = to->len;
    resize_bytes(to, start + len);
    if (len) memcpy(to->at + start, from, len);
}

void add_word(word_buffer *to, uint32_t word) {
    resize_words(to, to->len + 1);
    to->at[to->len - 1] = word;
}

/* ---- Files and tables. */

byte_buffer read_file(const char *path) {
    byte_buffer read = {0};
    char part[65536];
    size_t len;
    FILE *file = fopen(path, "rb");
    if (!file) {
        perror(path);
        exit(2);
    }
    resize_bytes(&read, 0);
    while ((len = fread(part, 1, sizeof part, file))) add_bytes(&read, part, len);
    fclose(file);
    return read;
}

line_list read_lines(const char *path) {
    line_list lines = {.bytes = read_file(path)};
    const char *at = (const char *)lines.bytes.at, *end = at + lines.bytes.len;
    lines.at = allocated((lines.bytes.len + 1) * sizeof(text));
    while (at < end) {
        const char *feed = memchr(at, '\n', (size_t)(end - at));
        if (!feed) feed = end;
        lines.at[lines.count++] = (text){at, (size_t)(feed - at)};
        at = feed + 1;
    }
    return lines;
}

void free_lines(line_list *lines) {
    free(lines->at);
    free(lines->bytes.at);
}

/* A field in quotes, from after the first one; its text takes the place of what is read. Returns where it ends. */
static char *quoted_field(char *at, const char *end, text *field) {
    char *to = at;
    field->at = at;
    while (at < end) {
        if (*at == '"' && !(at + 1 < end && at[1] == '"')) break;
        at += *at == '"';
        *to++ = *at++;
    }
    field->len = (size_t)(to - field->at);
    return at < end ? at + 1 : at;
}

static char *plain_field(char *at, const char *end, text *field) {
    field->at = at;
    while (at < end && *at != ',' && *at != '\n' && *at != '\r') at++;
    field->len = (size_t)(at - field->at);
    return at;
}

static void add_field(table *to, size_t count, text field) {
    if ((count & (count - 1)) == 0) to->fields = resized(to->fields, (count ? 2 * count : 1) * sizeof(text));
    to->fields[count] = field;
}

/* A table of comma-separated values (RFC 4180). */
table read_table(const char *path) {
    table read = {0};
    size_t count = 0;
    read.bytes = read_file(path);
    char *at = (char *)read.bytes.at, *end = at + read.bytes.len;
    while (at < end) {
        text field;
        if (*at == '\n' || *at == '\r') {
            at++;
            continue;
        }
        do {
            at = at < end && *at == '"' ? quoted_field(at + 1, end, &field) : plain_field(at, end, &field);
            add_field(&read, count++, field);
        } while (at < end && *at++ == ',');
        if (!read.columns) read.columns = count;
    }
    read.rows = read.columns ? count / read.columns - 1 : 0;
    return read;
}

void free_table(table *table) {
    free(table->fields);
    free(table->bytes.at);
}

/* ---- Loaders. */

loader_list read_loaders(rz_handle *server) {
    loader_list list = {0};
    rz_loader_sizes sizes;
    word_buffer kinds = {0}, ends = {0};
    MUST(rz_loaders_sizes(server, &sizes));
    resize_words(&kinds, sizes.loaders);
    resize_words(&ends, 4 * sizes.loaders);
    resize_bytes(&list.bytes, sizes.bytes);
    MUST(rz_loaders(server, kinds.at, kinds.len, ends.at, ends.len, list.bytes.at, list.bytes.len));
    list.count = sizes.loaders;
    list.at = allocated(list.count * sizeof(loader));
    size_t start = 0;
    for (size_t number = 0; number < list.count; number++) {
        text texts[4];
        for (size_t place = 0; place < 4; place++) {
            size_t end = ends.at[4 * number + place];
            texts[place] = (text){(const char *)list.bytes.at + start, end - start};
            start = end;
        }
        list.at[number] = (loader){texts[0], texts[1], {texts[2], texts[3]}, kinds.at[number] % 4, kinds.at[number] >= 4};
    }
    free(kinds.at);
    free(ends.at);
    return list;
}

void free_loaders(loader_list *loaders) {
    free(loaders->at);
    free(loaders->bytes.at);
}

/* ---- Replies. */

static void clear_reply(reply *reply) {
    reply->columns = 0;
    resize_words(&reply->rows, 0);
    resize_words(&reply->ends, 0);
    resize_bytes(&reply->bytes, 0);
}

void add_text(reply *to, text one) {
    add_bytes(&to->bytes, one.at, one.len);
    add_word(&to->ends, (uint32_t)to->bytes.len);
}

void add_columns(reply *to, const table *of) {
    to->columns = of->columns;
    for (size_t place = 0; place < of->columns; place++) add_text(to, of->fields[place]);
}

static const text *row_of(const table *of, size_t row) { return of->fields + (row + 1) * of->columns; }

static unsigned char folded(char one, int folds) {
    unsigned char byte = (unsigned char)one;
    return folds && byte >= 'A' && byte <= 'Z' ? (unsigned char)(byte + 32) : byte;
}

static size_t hash_text(text one, int folds, size_t hash) {
    for (size_t place = 0; place < one.len; place++) hash = (hash ^ folded(one.at[place], folds)) * 1099511628211u;
    return (hash ^ 255) * 1099511628211u;
}

static int same_part(text one, text other, int folds) {
    if (!folds) return same_text(one, other);
    if (one.len != other.len) return 0;
    for (size_t place = 0; place < one.len; place++)
        if (folded(one.at[place], 1) != folded(other.at[place], 1)) return 0;
    return 1;
}

/* The key of a row, as its texts; 0 where one is null, which no key equals. */
static int key_of_row(const row_index *index, size_t row, text key[2]) {
    for (size_t part = 0; part < index->texts; part++) {
        key[part] = row_of(index->of, row)[index->places[part]];
        if (!key[part].len) return 0;
    }
    return 1;
}

/* The slot of a key, which has the first row of the key and the last, both from 1, or 0 and 0. */
static size_t slot_of(const row_index *index, const text *key) {
    size_t slot = 14695981039346656037u;
    for (size_t part = 0; part < index->texts; part++) slot = hash_text(key[part], index->folds, slot);
    slot &= index->slots - 1;
    for (; index->firsts[slot]; slot = (slot + 1) & (index->slots - 1)) {
        const text *row = row_of(index->of, index->firsts[slot] - 1);
        size_t part = 0;
        while (part < index->texts && same_part(row[index->places[part]], key[part], index->folds)) part++;
        if (part == index->texts) break;
    }
    return slot;
}

static size_t place_of_column(const table *of, text name) {
    for (size_t place = 0; place < of->columns; place++)
        if (same_text(of->fields[place], name)) return place;
    fprintf(stderr, "no column %.*s\n", (int)name.len, name.at);
    exit(2);
}

static void add_row(row_index *index, size_t row) {
    text key[2];
    if (!key_of_row(index, row, key)) return;
    size_t slot = slot_of(index, key);
    if (index->firsts[slot]) index->nexts[index->lasts[slot] - 1] = (uint32_t)row + 1;
    else index->firsts[slot] = (uint32_t)row + 1;
    index->lasts[slot] = (uint32_t)row + 1;
}

row_index index_rows(const table *of, const loader *by) {
    row_index index = {.of = of, .texts = by->texts, .slots = 16, .folds = by->folds};
    if (!by->texts) return index;
    for (size_t part = 0; part < by->texts; part++) index.places[part] = place_of_column(of, by->columns[part]);
    while (index.slots < 2 * of->rows) index.slots *= 2;
    index.firsts = allocated(index.slots * sizeof(uint32_t));
    index.lasts = allocated(index.slots * sizeof(uint32_t));
    index.nexts = allocated(of->rows * sizeof(uint32_t));
    memset(index.firsts, 0, index.slots * sizeof(uint32_t));
    memset(index.nexts, 0, of->rows * sizeof(uint32_t));
    for (size_t row = 0; row < of->rows; row++) add_row(&index, row);
    return index;
}

void free_index(row_index *index) {
    free(index->firsts);
    free(index->lasts);
    free(index->nexts);
}

static void add_fields(reply *to, const table *of, size_t row) {
    for (size_t place = 0; place < of->columns; place++) add_text(to, row_of(of, row)[place]);
}

void add_items(reply *to, const row_index *index, size_t keys, const text *texts) {
    if (!index->texts) {
        add_word(&to->rows, (uint32_t)index->of->rows);
        for (size_t row = 0; row < index->of->rows; row++) add_fields(to, index->of, row);
        return;
    }
    for (size_t key = 0; key < keys; key++) {
        uint32_t count = 0, next = index->firsts[slot_of(index, texts + key * index->texts)];
        for (; next; next = index->nexts[next - 1], count++) add_fields(to, index->of, next - 1);
        add_word(&to->rows, count);
    }
}

/* ---- Answers. */

int32_t must(int32_t code, const char *call) {
    if (code >= 0) return code;
    uint8_t name[32], words[128];
    size_t name_len = rz_code_name(code, name, sizeof name), words_len = rz_code_text(code, words, sizeof words);
    if (name_len > sizeof name) name_len = sizeof name;
    if (words_len > sizeof words) words_len = sizeof words;
    fprintf(stderr, "%s: %.*s, %.*s\n", call, (int)name_len, (char *)name, (int)words_len, (char *)words);
    exit(2);
}

rz_handle open_server(const char *schema_path, const char *bindings_path) {
    byte_buffer schema = read_file(schema_path), bindings = read_file(bindings_path);
    rz_handle server = {0};
    rz_fault fault = {0};
    int32_t code = rz_open(&server, schema.at, schema.len, bindings.at, bindings.len, &fault);
    if (code == RZ_BAD_SCHEMA)
        fprintf(stderr, "%s:%llu:%llu: S%u\n", fault.in_bindings ? bindings_path : schema_path, (unsigned long long)fault.line,
                (unsigned long long)fault.column, (unsigned)fault.number);
    must(code, "rz_open");
    free(schema.at);
    free(bindings.at);
    return server;
}

rz_handle open_queries(rz_handle *server) {
    rz_handle queries = {0};
    MUST(rz_queries(server, &queries));
    return queries;
}

host open_host(rz_handle *server, const uint32_t *limits, asker *ask, void *source) {
    host host = {.ask = ask, .source = source, .loaders = read_loaders(server)};
    const uint32_t none[1] = {0};
    MUST(rz_client(server, &host.client, limits ? limits : none, limits ? host.loaders.count : 0));
    clear_reply(&host.reply);
    return host;
}

void close_host(host *host) {
    rz_close(&host->client);
    free_loaders(&host->loaders);
    free(host->order_loaders.at);
    free(host->order_keys.at);
    free(host->key_texts.at);
    free(host->ends.at);
    free(host->bytes.at);
    free(host->answer.at);
    free(host->texts);
    free(host->reply.rows.at);
    free(host->reply.ends.at);
    free(host->reply.bytes.at);
}

/* Copies the orders of the round that is out, and finds the texts of their keys. */
static int32_t read_orders(host *host) {
    rz_sizes_t sizes;
    int32_t code = rz_sizes(&host->client, &sizes);
    if (code < 0) return code;
    resize_words(&host->order_loaders, sizes.orders);
    resize_words(&host->order_keys, sizes.orders);
    resize_words(&host->key_texts, sizes.keys);
    resize_words(&host->ends, sizes.texts);
    resize_bytes(&host->bytes, sizes.bytes);
    code = rz_orders(&host->client, host->order_loaders.at, sizes.orders, host->order_keys.at, sizes.orders, host->key_texts.at, sizes.keys,
                     host->ends.at, sizes.texts, host->bytes.at, sizes.bytes);
    if (sizes.texts > host->texts_room || !host->texts) {
        host->texts_room = 2 * sizes.texts + 16;
        host->texts = resized(host->texts, host->texts_room * sizeof(text));
    }
    size_t start = 0;
    for (size_t place = 0; place < sizes.texts; place++) {
        host->texts[place] = (text){(const char *)host->bytes.at + start, host->ends.at[place] - start};
        start = host->ends.at[place];
    }
    return code;
}

static int32_t reply_to(host *host, size_t order, const text *texts) {
    uint32_t number = host->order_loaders.at[order];
    reply *reply = &host->reply;
    clear_reply(reply);
    const char *failed = host->ask(host->source, &host->loaders.at[number], number, host->order_keys.at[order], texts, reply);
    if (failed) return rz_take_failed(&host->client, order, (const uint8_t *)failed, strlen(failed));
    return rz_take_rows(&host->client, order, reply->columns, reply->rows.at, reply->rows.len, reply->ends.at, reply->ends.len, reply->bytes.at,
                        reply->bytes.len);
}

/* Replies to each order of the round that is out. */
static int32_t reply_to_round(host *host) {
    int32_t code = read_orders(host);
    const text *texts = host->texts;
    for (size_t order = 0; order < host->order_loaders.len && code >= 0; order++) {
        code = reply_to(host, order, texts);
        texts += host->order_keys.at[order] * host->loaders.at[host->order_loaders.at[order]].texts;
    }
    return code;
}

/* Goes on until it is done. */
static int32_t run_rounds(host *host) {
    int32_t code;
    while ((code = rz_next(&host->client)) == RZ_ROUND)
        if ((code = reply_to_round(host)) < 0) return code;
    return code;
}

int32_t try_begun(host *host) {
    rz_sizes_t sizes;
    int32_t code = run_rounds(host);
    if (code < 0) return code;
    if ((code = rz_sizes(&host->client, &sizes)) < 0) return code;
    resize_bytes(&host->answer, sizes.answer);
    host->rounds = (size_t)sizes.rounds;
    return rz_answer(&host->client, host->answer.at, host->answer.len);
}

int32_t try_loaded(host *host, outcomes *to) {
    rz_load_sizes_t sizes;
    int32_t code = run_rounds(host);
    if (code < 0) return code;
    if ((code = rz_load_sizes(&host->client, &sizes)) < 0) return code;
    resize_words(&to->rows, sizes.keys);
    resize_words(&to->columns, sizes.rows);
    resize_words(&to->ends, sizes.texts);
    resize_bytes(&to->bytes, sizes.bytes);
    resize_words(&to->fault_ends, sizes.faults);
    resize_bytes(&to->fault_bytes, sizes.fault_bytes);
    return rz_loaded(&host->client, to->rows.at, sizes.keys, to->columns.at, sizes.rows, to->ends.at, sizes.texts, to->bytes.at, sizes.bytes,
                     to->fault_ends.at, sizes.faults, to->fault_bytes.at, sizes.fault_bytes);
}

void free_outcomes(outcomes *outcomes) {
    free(outcomes->rows.at);
    free(outcomes->columns.at);
    free(outcomes->ends.at);
    free(outcomes->fault_ends.at);
    free(outcomes->bytes.at);
    free(outcomes->fault_bytes.at);
}

void answer_begun(host *host) { must(try_begun(host), "the answer"); }

void answer_line(host *host, rz_handle *queries, text line) {
    MUST(rz_begin(&host->client, queries, (const uint8_t *)line.at, line.len));
    answer_begun(host);
}

int is_answer(const host *host, text wanted) { return same_text((text){(const char *)host->answer.at, host->answer.len}, wanted); }

void answer_file(host *host, rz_handle *queries, const char *path) {
    line_list lines = read_lines(path);
    for (size_t number = 0; number < lines.count; number++) {
        MUST(rz_restart(&host->client));
        answer_line(host, queries, lines.at[number]);
        fwrite(host->answer.at, 1, host->answer.len, stdout);
        putchar('\n');
    }
    free_lines(&lines);
}
