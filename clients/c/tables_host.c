/* A host over tables in memory, which are read from CSV files. It answers the lines of a file as query_cli does.

   tables_host SCHEMA BINDINGS REQUESTS NAME=FILE.. */
#include "tables.h"
#include <stdio.h>

int main(int argc, char **argv) {
    if (argc < 4) {
        fprintf(stderr, "tables_host SCHEMA BINDINGS REQUESTS NAME=FILE..\n");
        return 2;
    }
    rz_handle server = open_server(argv[1], argv[2]), queries = open_queries(&server);
    table_set tables = read_tables(argc - 4, argv + 4);
    index_tables(&tables, &server);
    host host = open_host(&server, NULL, ask_tables, &tables);
    answer_file(&host, &queries, argv[3]);
    close_host(&host);
    free_tables(&tables);
    rz_close(&queries);
    rz_close(&server);
    return 0;
}
