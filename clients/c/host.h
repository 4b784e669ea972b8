/* What the hosts here share: buffers that grow, files, CSV tables with indexes, and the loop that answers a request. A host ends where memory
   runs out, a file can't be read or a call is refused that shouldn't be. */
#ifndef HOST_H
#define HOST_H
#include "rudzkvano.h"

/* ---- Buffers. */

typedef struct { const char *at; size_t len; } text;
typedef struct { uint8_t *at; size_t len, room; } byte_buffer;
typedef struct { uint32_t *at; size_t len, room; } word_buffer;

void *allocated(size_t bytes);
text text_of(const char *word);
void add_bytes(byte_buffer *to, const void *from, size_t len);
void add_word(word_buffer *to, uint32_t word);
/* Has room for `len` elements, and this length. There is a place to point to even for none. */
void resize_bytes(byte_buffer *buffer, size_t len);
void resize_words(word_buffer *buffer, size_t len);

/* ---- Files and tables. */

byte_buffer read_file(const char *path);

/* The lines of a file, without their line feeds. */
typedef struct { byte_buffer bytes; size_t count; text *at; } line_list;
line_list read_lines(const char *path);
void free_lines(line_list *lines);

/* The names of the columns, and then the fields of the rows. An empty field is null. */
typedef struct { size_t columns, rows; text *fields; byte_buffer bytes; } table;
table read_table(const char *path);
void free_table(table *table);

/* ---- Loaders. */

/* A loader of a server: its name, its table, the columns that it is by, and whether their case of A to Z is left out. */
typedef struct { text name, table, columns[2]; size_t texts; int folds; } loader;
typedef struct { size_t count; loader *at; byte_buffer bytes; } loader_list;
loader_list read_loaders(rz_handle *server);
void free_loaders(loader_list *loaders);

/* ---- Replies. */

/* What rz_take_rows is given. */
typedef struct { size_t columns; word_buffer rows, ends; byte_buffer bytes; } reply;
void add_text(reply *to, text one);
void add_columns(reply *to, const table *of);

/* The rows of a table by the columns of a loader, each key's in order. */
typedef struct { const table *of; size_t places[2], texts, slots; int folds; uint32_t *firsts, *lasts, *nexts; } row_index;
row_index index_rows(const table *of, const loader *by);
void free_index(row_index *index);
/* Adds the items of keys, each of as many texts as the loader has columns. */
void add_items(reply *to, const row_index *index, size_t keys, const text *texts);

/* ---- Answers. */

/* Replies to the keys of a batch. Returns NULL, or why the batch failed as a whole. */
typedef const char *asker(void *source, const loader *by, size_t number, size_t keys, const text *texts, reply *reply);

/* A client with what it needs to answer. */
typedef struct {
    rz_handle client;
    loader_list loaders;
    asker *ask;
    void *source;
    word_buffer order_loaders, order_keys, key_texts, ends;
    byte_buffer bytes, answer;
    text *texts;
    size_t texts_room, rounds;
    reply reply;
} host;

/* Ends where a call is refused. */
int32_t must(int32_t code, const char *call);
#define MUST(call) must(call, #call)

rz_handle open_server(const char *schema_path, const char *bindings_path);
/* Queries of this server, of which a thread has one for all its clients. */
rz_handle open_queries(rz_handle *server);
/* A host with a new client of this server. limits has for each loader the most keys of a batch, or is NULL. */
host open_host(rz_handle *server, const uint32_t *limits, asker *ask, void *source);
void close_host(host *host);
/* Answers a request that is JSON text, by these queries. The answer and its rounds stay in the host up to the next one. */
void answer_line(host *host, rz_handle *queries, text line);
/* Answers what was begun; the second returns the code of the first call that is refused, and else RZ_DONE. */
void answer_begun(host *host);
int32_t try_begun(host *host);
int is_answer(const host *host, text wanted);

/* The outcomes of keys that were loaded, as rz_loaded lays them out. */
typedef struct { word_buffer rows, columns, ends, fault_ends; byte_buffer bytes, fault_bytes; } outcomes;
/* Loads what was begun. Returns the code of the first call that is refused, and else RZ_DONE. */
int32_t try_loaded(host *host, outcomes *to);
void free_outcomes(outcomes *outcomes);
/* Answers each line of a file in a session of its own, and writes the answers to standard output. */
void answer_file(host *host, rz_handle *queries, const char *path);

#endif
