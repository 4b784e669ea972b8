/* Tables in memory, which a host asks. */
#ifndef TABLES_H
#define TABLES_H
#include "host.h"

/* Tables by their names, and for each loader of a server the index of its table. */
typedef struct { size_t count, loaders; text *names; table *tables; row_index *indexes; } table_set;

/* Reads tables, each given by a word NAME=FILE. */
table_set read_tables(int count, char **words);
void index_tables(table_set *tables, rz_handle *server);
void free_tables(table_set *tables);
/* The asker over a table_set. It only reads the set, so threads may share one. */
const char *ask_tables(void *tables, const loader *by, size_t number, size_t keys, const text *texts, reply *reply);

/* The table of this name. */
const table *table_named(const table_set *tables, text name);

#endif
