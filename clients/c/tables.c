#include "tables.h"
#include <stdio.h>
#include <stdlib.h>
#include <string.h>

table_set read_tables(int count, char **words) {
    table_set set = {.count = (size_t)count};
    set.names = allocated(set.count * sizeof(text));
    set.tables = allocated(set.count * sizeof(table));
    for (int number = 0; number < count; number++) {
        const char *sign = strchr(words[number], '=');
        if (!sign) {
            fprintf(stderr, "%s is no NAME=FILE\n", words[number]);
            exit(2);
        }
        set.names[number] = (text){words[number], (size_t)(sign - words[number])};
        set.tables[number] = read_table(sign + 1);
    }
    return set;
}

const table *table_named(const table_set *tables, text name) {
    for (size_t number = 0; number < tables->count; number++)
        if (tables->names[number].len == name.len && memcmp(tables->names[number].at, name.at, name.len) == 0) return &tables->tables[number];
    fprintf(stderr, "no table %.*s\n", (int)name.len, name.at);
    exit(2);
}

void index_tables(table_set *tables, rz_handle *server) {
    loader_list loaders = read_loaders(server);
    tables->loaders = loaders.count;
    tables->indexes = allocated(loaders.count * sizeof(row_index));
    for (size_t number = 0; number < loaders.count; number++)
        tables->indexes[number] = index_rows(table_named(tables, loaders.at[number].table), &loaders.at[number]);
    free_loaders(&loaders);
}

void free_tables(table_set *tables) {
    for (size_t number = 0; number < tables->loaders; number++) free_index(&tables->indexes[number]);
    for (size_t number = 0; number < tables->count; number++) free_table(&tables->tables[number]);
    free(tables->indexes);
    free(tables->names);
    free(tables->tables);
}

const char *ask_tables(void *tables, const loader *by, size_t number, size_t keys, const text *texts, reply *reply) {
    const row_index *index = &((const table_set *)tables)->indexes[number];
    (void)by;
    add_columns(reply, index->of);
    add_items(reply, index, keys, texts);
    return NULL;
}
