/* A host over SQLite, with one statement for each batch. It loads CSV files into a database in memory, and answers the lines of a file as
   query_cli does.

   sqlite_host SCHEMA BINDINGS REQUESTS NAME=FILE.. */
#include "host.h"
#include <sqlite3.h>
#include <stdio.h>
#include <stdlib.h>
#include <string.h>

/* The most parameters of a statement. */
enum { MOST_PARAMETERS = 32766 };

static void fail(sqlite3 *database) {
    fprintf(stderr, "sqlite: %s\n", sqlite3_errmsg(database));
    exit(2);
}

/* ---- Statements as text. */

static void add_words(byte_buffer *sql, const char *words) { add_bytes(sql, words, strlen(words)); }

static void add_name(byte_buffer *sql, text name) {
    add_words(sql, "\"");
    for (size_t place = 0; place < name.len; place++) {
        if (name.at[place] == '"') add_words(sql, "\"");
        add_bytes(sql, name.at + place, 1);
    }
    add_words(sql, "\"");
}

/* So many times these words, between commas. */
static void add_list(byte_buffer *sql, size_t count, const char *words) {
    for (size_t number = 0; number < count; number++) {
        if (number) add_words(sql, ",");
        add_words(sql, words);
    }
}

static void add_key_columns(byte_buffer *sql, const loader *by) {
    for (size_t part = 0; part < by->texts; part++) {
        if (part) add_words(sql, ",");
        add_name(sql, by->columns[part]);
        if (by->folds) add_words(sql, " collate nocase");
    }
}

static sqlite3_stmt *prepared(sqlite3 *database, byte_buffer *sql) {
    sqlite3_stmt *statement = NULL;
    if (sqlite3_prepare_v2(database, (const char *)sql->at, (int)sql->len, &statement, NULL) != SQLITE_OK) fail(database);
    free(sql->at);
    return statement;
}

static sqlite3_stmt *batch_statement(sqlite3 *database, const loader *by, size_t keys) {
    byte_buffer sql = {0};
    add_words(&sql, "select * from ");
    add_name(&sql, by->table);
    if (by->texts) {
        add_words(&sql, " where (");
        add_key_columns(&sql, by);
        add_words(&sql, by->texts == 1 ? ") in (" : ") in (values ");
        add_list(&sql, keys, by->texts == 1 ? "?" : "(?,?)");
        add_words(&sql, ")");
    }
    add_words(&sql, " order by rowid");
    return prepared(database, &sql);
}

/* ---- Tables. */

static void bind(sqlite3_stmt *statement, size_t place, text one) {
    if (one.len) sqlite3_bind_text(statement, (int)place + 1, one.at, (int)one.len, SQLITE_STATIC);
    else sqlite3_bind_null(statement, (int)place + 1);
}

static void create_table(sqlite3 *database, text name, const table *of) {
    byte_buffer sql = {0};
    add_words(&sql, "create table ");
    add_name(&sql, name);
    add_words(&sql, " (");
    for (size_t place = 0; place < of->columns; place++) {
        if (place) add_words(&sql, ",");
        add_name(&sql, of->fields[place]);
        add_words(&sql, " text");
    }
    add_words(&sql, ")");
    sqlite3_stmt *statement = prepared(database, &sql);
    if (sqlite3_step(statement) != SQLITE_DONE) fail(database);
    sqlite3_finalize(statement);
}

static void insert_rows(sqlite3 *database, text name, const table *of) {
    byte_buffer sql = {0};
    add_words(&sql, "insert into ");
    add_name(&sql, name);
    add_words(&sql, " values (");
    add_list(&sql, of->columns, "?");
    add_words(&sql, ")");
    sqlite3_stmt *statement = prepared(database, &sql);
    for (size_t row = 1; row <= of->rows; row++) {
        for (size_t place = 0; place < of->columns; place++) bind(statement, place, of->fields[row * of->columns + place]);
        if (sqlite3_step(statement) != SQLITE_DONE) fail(database);
        sqlite3_reset(statement);
    }
    sqlite3_finalize(statement);
}

/* Loads the table that a word NAME=FILE gives. */
static void load_table(sqlite3 *database, const char *word) {
    const char *sign = strchr(word, '=');
    if (!sign) {
        fprintf(stderr, "%s is no NAME=FILE\n", word);
        exit(2);
    }
    text name = {word, (size_t)(sign - word)};
    table read = read_table(sign + 1);
    create_table(database, name, &read);
    insert_rows(database, name, &read);
    free_table(&read);
}

/* ---- Batches. */

static void add_cell(byte_buffer *bytes, word_buffer *ends, const void *from, size_t len) {
    add_bytes(bytes, from, len);
    add_word(ends, (uint32_t)bytes->len);
}

/* What a statement finds, with the names of the columns. */
static table found_rows(sqlite3 *database, sqlite3_stmt *statement) {
    table found = {.columns = (size_t)sqlite3_column_count(statement)};
    word_buffer ends = {0};
    int step;
    resize_bytes(&found.bytes, 0);
    for (int place = 0; place < (int)found.columns; place++) {
        const char *name = sqlite3_column_name(statement, place);
        add_cell(&found.bytes, &ends, name, strlen(name));
    }
    for (; (step = sqlite3_step(statement)) == SQLITE_ROW; found.rows++)
        for (int place = 0; place < (int)found.columns; place++)
            add_cell(&found.bytes, &ends, sqlite3_column_text(statement, place), (size_t)sqlite3_column_bytes(statement, place));
    if (step != SQLITE_DONE) fail(database);
    found.fields = allocated(ends.len * sizeof(text));
    for (size_t place = 0, start = 0; place < ends.len; start = ends.at[place++])
        found.fields[place] = (text){(const char *)found.bytes.at + start, ends.at[place] - start};
    free(ends.at);
    return found;
}

/* Asks for the rows of a batch by one statement, and gives each key its own. */
static const char *ask_database(void *source, const loader *by, size_t number, size_t keys, const text *texts, reply *reply) {
    sqlite3 *database = source;
    (void)number;
    sqlite3_stmt *statement = batch_statement(database, by, keys);
    for (size_t place = 0; place < keys * by->texts; place++) bind(statement, place, texts[place]);
    table found = found_rows(database, statement);
    row_index index = index_rows(&found, by);
    add_columns(reply, &found);
    add_items(reply, &index, keys, texts);
    free_index(&index);
    free_table(&found);
    sqlite3_finalize(statement);
    return NULL;
}

/* For each loader how many keys a statement can have. */
static word_buffer most_keys(rz_handle *server) {
    loader_list loaders = read_loaders(server);
    word_buffer limits = {0};
    resize_words(&limits, 0);
    for (size_t number = 0; number < loaders.count; number++)
        add_word(&limits, loaders.at[number].texts ? MOST_PARAMETERS / (uint32_t)loaders.at[number].texts : 0);
    free_loaders(&loaders);
    return limits;
}

int main(int argc, char **argv) {
    sqlite3 *database = NULL;
    if (argc < 4) {
        fprintf(stderr, "sqlite_host SCHEMA BINDINGS REQUESTS NAME=FILE..\n");
        return 2;
    }
    if (sqlite3_open(":memory:", &database) != SQLITE_OK) fail(database);
    for (int word = 4; word < argc; word++) load_table(database, argv[word]);
    rz_handle server = open_server(argv[1], argv[2]), queries = open_queries(&server);
    word_buffer limits = most_keys(&server);
    host host = open_host(&server, limits.at, ask_database, database);
    answer_file(&host, &queries, argv[3]);
    close_host(&host);
    rz_close(&queries);
    rz_close(&server);
    free(limits.at);
    sqlite3_close(database);
    return 0;
}
