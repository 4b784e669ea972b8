/* Rudzkvano for C: a GraphQL query executor with DataLoader batching, whose batches the caller runs.

   A server is a schema with its bindings. Queries are what requests ask of a server, kept for those that come again: a thread has one handle of
   them for each server, and lends it to all its clients. A client has a memory of what the loaders returned, and answers one request at a time:
   rz_begin or rz_begin_request starts it, by the queries that are lent to that call, and rz_next goes on until it returns RZ_DONE. Where it
   returns RZ_ROUND, a round of orders is out: rz_sizes and rz_orders say which loader is to be asked for which keys, and rz_take_rows or
   rz_take_failed takes the reply to each order, in any order. Then rz_next goes on. rz_answer copies the response, which is JSON text. A request
   that isn't valid is answered with its error.

   A client also loads keys of one loader: rz_begin_load starts it, it goes on as a request does, and rz_loaded copies an outcome for each key.

   Handles. An rz_handle of zeros is empty. What it holds is freed by rz_close, or when another object is put into it. It may be moved in memory,
   since nothing points to it: of two copies of a handle that holds something only one may be used from then on. A call gets each handle once:
   the handles of one call are different structs. A handle is passed to one call at a time, from any thread, and passing it on to another
   thread is ordered by a lock, a thread's start or its end. To answer on several threads, give each one a server handle of its own by
   rz_share, and queries of its own by rz_queries. While a call runs, the handles it was given are empty. No call may be made from a signal
   handler, nor in the child of a fork.

   Memory. The library calls malloc, realloc and free. All data is copied: into buffers of the caller, or out of them before the call
   returns. A length counts elements. A pointer to a buffer of no elements may be null, and no other. Buffers that a call fills are given at
   just the size that the call for sizes told, or the call returns RZ_BAD_SIZE; they have nothing in common with the call's other buffers.

   Texts are flat: one buffer of bytes (UTF-8), and for each text the place where it ends, counted in bytes from the buffer's start. A text
   begins where the one before it ends.

   Codes. RZ_DONE or more is how it went. Less than 0 is a refusal: nothing has changed, and an answer or outcomes that are there stay, unless
   the call says otherwise. RZ_BAD_HANDLE comes before any other. Of other refusals that are true the one that a call names first comes;
   but RZ_NO_MEMORY comes as soon as memory runs out. */
#ifndef RUDZKVANO_H
#define RUDZKVANO_H
#include <stddef.h>
#include <stdint.h>
#ifdef __cplusplus
extern "C" {
#endif

typedef struct { void *at; } rz_handle;

enum {
    RZ_DONE = 0,
    RZ_ROUND = 1,           /* rz_next: a round of orders is out */
    RZ_WAITING = 2,         /* rz_next: an order of the round that is out has no reply yet */
    RZ_NO_MEMORY = -1,      /* out of memory */
    RZ_BAD_HANDLE = -2,     /* a handle is empty, or holds an object of another kind */
    RZ_NOT_UTF8 = -3,       /* a text isn't UTF-8 */
    RZ_BAD_SCHEMA = -4,     /* the schema or the bindings are refused: the fault says why and where */
    RZ_BAD_SIZE = -5,       /* a buffer or a list hasn't the size that the call wants */
    RZ_BAD_LIMIT = -6,      /* a limit over 65,535 keys */
    RZ_BUSY = -7,           /* a request is being answered, or keys are loaded */
    RZ_IDLE = -8,           /* nothing is being answered or loaded, or it isn't done yet */
    RZ_STOPPED = -9,        /* memory ran out in this request or load: begin it again */
    RZ_NO_ORDER = -10,      /* no round is out, or it has no order of this number */
    RZ_REPLIED = -11,       /* the order has a reply */
    RZ_NO_LOADER = -12,     /* no loader of this number */
    RZ_BAD_KEY = -13,       /* a key has another number of texts than its loader has columns */
    RZ_BAD_ENDS = -14,      /* a text ends before it begins, past the bytes or inside a character, or the last one isn't the bytes' end */
    RZ_BAD_COUNT = -15,     /* rows for another number of keys than the order has */
    RZ_TOO_FEW_TEXTS = -16, /* fewer texts than columns, rows and faults, or keys take */
    RZ_TEXTS_LEFT = -17,    /* more texts than columns, rows and faults, or keys take */
    RZ_NO_COLUMN = -18,     /* rows of no column */
    RZ_TOO_MANY_ROWS = -19, /* more than 4,294,967,295 rows in one reply */
    RZ_NO_KEY_COLUMN = -20, /* rows in any order lack a column that their loader is by */
    RZ_NOT_ASKED = -21,     /* a row has a key that wasn't asked for */
    RZ_BAD_FAULTS = -22,    /* a fault is of no key of the order, or its key doesn't come after that of the fault before */
    RZ_OTHER_SERVER = -23   /* the queries are of a server with another number of loaders */
};

/* In the place of a number of rows: the key has a fault, and one text says which. */
#define RZ_KEY_FAULT UINT32_MAX

/* The same in rz_loaded: the batch in which the key was asked failed as a whole. */
#define RZ_BATCH_FAULT (UINT32_MAX - 1)

/* In the place of a number of columns: they are those of the row before. */
#define RZ_SAME_COLUMNS UINT32_MAX

/* ---- The library. */

/* The version of this header. It goes with a library whose rz_version is the same, or has the same major number and a larger rest. */
#define RZ_VERSION 131328u

/* The version of the library: 65536 * major + 256 * minor + patch. */
uint32_t rz_version(void);

/* The name of a code, as "RZ_BAD_ENDS", or a few words on it: as much as fits into bytes. Returns the whole length; 0 for a number that is
   no refusal. */
size_t rz_code_name(int32_t code, uint8_t *bytes, size_t bytes_len);
size_t rz_code_text(int32_t code, uint8_t *bytes, size_t bytes_len);

/* ---- Servers. */

/* line and column from 1, the column in characters; 0 where a fault has none. number n is the fault Sn of docs/BINDINGS.md. in_bindings is 1
   where the line is one of the bindings, and else 0. */
typedef struct { uint64_t line, column; uint32_t number, in_bindings; } rz_fault;

/* Reads a schema and its bindings. RZ_NOT_UTF8, RZ_BAD_SCHEMA (only then *fault is written), RZ_NO_MEMORY: server holds what it held. */
int32_t rz_open(rz_handle *server, const uint8_t *schema, size_t schema_len, const uint8_t *bindings, size_t bindings_len, rz_fault *fault);

/* What is wrong with a schema or with bindings, in a sentence with the names that stand there. fault is as rz_open wrote it, and the texts are the
   same. As much as fits into bytes. Returns the whole length; 0 where a text isn't UTF-8, or memory runs out. */
size_t rz_fault_text(const rz_fault *fault, const uint8_t *schema, size_t schema_len, const uint8_t *bindings, size_t bindings_len, uint8_t *bytes,
                     size_t bytes_len);

/* Puts the same server into another handle too. It is freed with the last of its handles, queries and clients. RZ_NO_MEMORY: other holds what it
   held. */
int32_t rz_share(rz_handle *server, rz_handle *other);

/* The loaders of the bindings, numbered from 0. kinds has one number for each: how many texts a key has (0 to 2), and 4 more where keys are
   compared without the case of A to Z. Each loader has four texts: its name, its table, and the two columns that it is by (empty for none). So
   kinds has `loaders` elements, and ends four times as many. RZ_NO_MEMORY, RZ_BAD_SIZE. */
typedef struct { size_t loaders, bytes; } rz_loader_sizes;
int32_t rz_loaders_sizes(rz_handle *server, rz_loader_sizes *sizes);
int32_t rz_loaders(rz_handle *server, uint32_t *kinds, size_t kinds_len, uint32_t *ends, size_t ends_len, uint8_t *bytes, size_t bytes_len);

/* ---- Queries. */

/* Puts queries of a server into a handle of their own, which keep nothing yet. They keep the plan of each request that is begun by them, prepared,
   if its query has at most 32,768 bytes and is valid: the same query for the same operation is then neither parsed nor checked nor prepared again,
   with whatever values of its variables, but for one that is true where it was false, or false where it was true, since @skip and @include look at
   these. At most 2,048 plans are kept, whose queries have 262,144 bytes together, and half as many documents; where one more doesn't fit, all are let
   go. No answer depends on what is kept. Any number of clients share them, and they may be closed while clients are answering. RZ_NO_MEMORY: queries
   holds what it held. */
int32_t rz_queries(rz_handle *server, rz_handle *queries);

/* ---- Clients. */

/* Puts a client of a server into a handle of its own. It knows nothing. limits has for each loader how many keys one order may have, and 0
   for no limit; or it has no element, and then there is none. RZ_BAD_SIZE where it has another length; RZ_BAD_LIMIT, RZ_NO_MEMORY: client holds
   what it held. */
int32_t rz_client(rz_handle *server, rz_handle *client, const uint32_t *limits, size_t limits_len);

/* From now on the text of an answer has at most `bytes` bytes, that of each value of an array by itself; 0 for no limit. A longer one is
   refused with "answer too long", in the answer. It lets an answer or outcomes go. RZ_BUSY. */
int32_t rz_limit_answers(rz_handle *client, size_t bytes);

/* From now on a request, or all requests of an array in sum, may be at most `positions` work; 0 for no limit. Work is the number of the positions of
   an answer: the response, its objects, lists, leaves, nulls and faults, and each field that waits for a load. As soon as it is more by what is
   known, nothing more is asked, and the answer is "too much work"; in an array it stands in the place of each value that does nothing wrong itself.
   The rounds until then stay known. Keys that are loaded have no limit. It lets an answer or outcomes go. RZ_BUSY. */
int32_t rz_limit_work(rz_handle *client, size_t positions);

/* From now on a request, or all requests of an array together, may take at most `rounds` rounds; 0 for no limit. What needs more is answered with
   "too many rounds", as by rz_limit_work; where its work is over the limit too, with "too much work". Keys that are loaded have no limit. It lets an
   answer or outcomes go. RZ_BUSY. */
int32_t rz_limit_rounds(rz_handle *client, uint32_t rounds);

/* Forgets all keys, logs and rounds, and lets an answer or outcomes go. The limits of the client stay. RZ_BUSY; RZ_NO_MEMORY, and then an answer or
   outcomes are let go, and all else is as it was. */
int32_t rz_restart(rz_handle *client);

/* ---- Requests. */

/* Begins the answer to a request that is JSON text, or to an array of 1 to 16 of these. The queries' server plans it, and is to be that of the
   client: another one with as many loaders isn't refused, and the orders are then for its loaders, by their numbers. What the text does wrong is
   answered. RZ_BUSY, RZ_OTHER_SERVER, RZ_NO_MEMORY. */
int32_t rz_begin(rz_handle *client, rz_handle *queries, const uint8_t *line, size_t line_len);

/* Begins the answer to a query. operation is the name of the operation to run, and empty for none. variables is the JSON text of an object, and
   empty for none. What these texts do wrong is answered, as in a request that is JSON text. RZ_BUSY, RZ_OTHER_SERVER, RZ_NO_MEMORY as above. */
int32_t rz_begin_request(rz_handle *client, rz_handle *queries, const uint8_t *query, size_t query_len, const uint8_t *operation,
                         size_t operation_len, const uint8_t *variables, size_t variables_len);

/* Gives up the request that is being answered, or the keys that are loaded. The finished rounds stay known, and the round that is out is lost.
   RZ_IDLE where there is none. */
int32_t rz_cancel(rz_handle *client);

/* Goes on. RZ_DONE: there is an answer, or what was to be loaded is. RZ_ROUND: a round is out. RZ_WAITING: an order of it has no reply yet, and
   nothing changes. RZ_IDLE where nothing was begun. RZ_NO_MEMORY, and RZ_STOPPED after a reply that memory ran out at: the request or the load is
   given up. The finished rounds stay known. */
int32_t rz_next(rz_handle *client);

/* What the buffers of rz_orders and rz_answer have to hold; 0 of a round where none is out, as before the first rz_next, and of an answer where
   there is none. rounds is how many rounds the answer took. */
typedef struct { size_t orders, keys, texts, bytes, answer; uint64_t rounds; } rz_sizes_t;
int32_t rz_sizes(rz_handle *client, rz_sizes_t *sizes);

/* The orders of the round that is out. For each order the number of its loader, and how many keys it has; for each key how many texts it has
   (0 asks for all rows, 2 are a pair); and the texts. RZ_NO_ORDER, RZ_BAD_SIZE. */
int32_t rz_orders(rz_handle *client, uint32_t *loaders, size_t loaders_len, uint32_t *keys, size_t keys_len, uint32_t *texts, size_t texts_len,
                  uint32_t *ends, size_t ends_len, uint8_t *bytes, size_t bytes_len);

/* Takes the reply to an order, numbered from 0: rows has for each key, in order, how many rows it has, or RZ_KEY_FAULT. The texts are the
   names of the columns, then the fields of all rows, key after key and row after row (an empty one is null), and then of each key with a
   fault why it has no rows. Of two columns of one name the first counts. Refused are RZ_NO_ORDER, RZ_BAD_COUNT, RZ_NOT_UTF8, RZ_BAD_ENDS,
   RZ_TOO_MANY_ROWS, RZ_NO_COLUMN, RZ_TOO_FEW_TEXTS, RZ_TEXTS_LEFT, RZ_REPLIED: the order waits as before. RZ_NO_MEMORY: it waits as before,
   or the request or the load is stopped, which rz_next tells. */
int32_t rz_take_rows(rz_handle *client, size_t order, size_t columns, const uint32_t *rows, size_t rows_len, const uint32_t *ends, size_t ends_len,
                     const uint8_t *bytes, size_t bytes_len);

/* Takes rows for the keys of an order in any order: each key gets the rows that have it, in the order given, and a key that no row has gets none.
   A row has its key in the columns that the order's loader is by (rz_loaders), and keys are compared as the loader compares them; an empty
   field is the empty text. faults has the places, in the order and from 0, of the keys that have a fault, each greater than the one before: a
   key with a fault takes the fault in place of its rows, if it has any. The texts are the names of the columns, then the fields of all rows,
   row after row, and then of each of faults why the key has it. Of two columns of one name the first counts. Refused are RZ_NO_ORDER,
   RZ_REPLIED, RZ_BAD_FAULTS, RZ_NOT_UTF8, RZ_BAD_ENDS, RZ_NO_COLUMN, RZ_TOO_FEW_TEXTS, RZ_TEXTS_LEFT, RZ_NO_KEY_COLUMN (where there are rows),
   RZ_NOT_ASKED (only then *row is written: the number, from 1, of the first row whose key wasn't asked for): the order waits as before.
   RZ_NO_MEMORY as above. */
int32_t rz_take_keyed_rows(rz_handle *client, size_t order, size_t columns, uint32_t rows, const uint32_t *faults, size_t faults_len,
                           const uint32_t *ends, size_t ends_len, const uint8_t *bytes, size_t bytes_len, uint32_t *row);

/* Takes it that the batch of an order failed as a whole, with this text. RZ_NO_ORDER, RZ_NOT_UTF8, RZ_REPLIED; RZ_NO_MEMORY as above. */
int32_t rz_take_failed(rz_handle *client, size_t order, const uint8_t *text, size_t text_len);

/* The answer of the request that was answered last. It stays until the next is begun, or a call changes the client. RZ_IDLE where there is none,
   RZ_BAD_SIZE. */
int32_t rz_answer(rz_handle *client, uint8_t *bytes, size_t bytes_len);

/* ---- Keys that are loaded. rz_next, rz_sizes, rz_orders, rz_take_rows, rz_take_keyed_rows, rz_take_failed and rz_cancel are used as for a
   request. */

/* Begins to load keys of a loader, numbered from 0. For each key how many texts it has, which is as many as the loader has columns, and the
   texts: as rz_orders has them. Failed batches are forgotten; then one round asks for the keys that aren't known, of equal keys only for the
   first, in orders within the loader's limit. Where all keys are known, no round is made. It lets an answer or outcomes go. Refused are
   RZ_BUSY, RZ_NO_LOADER, RZ_NOT_UTF8, RZ_BAD_ENDS; of the first key that has it RZ_BAD_KEY or RZ_TOO_FEW_TEXTS; RZ_TEXTS_LEFT, RZ_NO_MEMORY. */
int32_t rz_begin_load(rz_handle *client, size_t loader, const uint32_t *texts, size_t texts_len, const uint32_t *ends, size_t ends_len,
                      const uint8_t *bytes, size_t bytes_len);

/* What the buffers of rz_loaded have to hold. RZ_IDLE where nothing is loaded. */
typedef struct { size_t keys, rows, texts, bytes, faults, fault_bytes; } rz_load_sizes_t;
int32_t rz_load_sizes(rz_handle *client, rz_load_sizes_t *sizes);

/* The outcomes of the keys that were loaded last, in order. For each key how many rows it has, or RZ_KEY_FAULT or RZ_BATCH_FAULT. For each row
   of all keys how many columns it has, or RZ_SAME_COLUMNS. The texts of the rows: of each the names of its columns, unless they are those of the
   row before, and then its fields. The texts of the faults, in buffers of their own. They stay until the next request or load is begun, or a
   call changes the client. RZ_IDLE, RZ_BAD_SIZE. */
int32_t rz_loaded(rz_handle *client, uint32_t *rows, size_t rows_len, uint32_t *columns, size_t columns_len, uint32_t *ends, size_t ends_len,
                  uint8_t *bytes, size_t bytes_len, uint32_t *fault_ends, size_t fault_ends_len, uint8_t *fault_bytes, size_t fault_bytes_len);

/* ---- What is known. Loaders are numbered from 0. A key is passed as its texts, as many as its loader has columns. Each of these forgets failed
   batches, and lets an answer or outcomes go. RZ_BUSY, RZ_NO_LOADER; of a key RZ_NOT_UTF8, RZ_BAD_ENDS, RZ_BAD_KEY. RZ_NO_MEMORY: nothing has
   changed, or failed batches are forgotten, and an answer or outcomes are let go. */

/* Knows this item for a key, unless something is known of it: *primed is 1 where it was added, and else 0. rows is a number of rows or
   RZ_KEY_FAULT, and the texts are as those of rz_take_rows for one key. A key with a fault is known too, and isn't asked for before it is
   cleared. After the refusals of the key come RZ_NOT_UTF8, RZ_BAD_ENDS, RZ_NO_COLUMN, RZ_TOO_FEW_TEXTS, RZ_TEXTS_LEFT of the item. *primed is
   written only where the call returns RZ_DONE. */
int32_t rz_prime(rz_handle *client, size_t loader, const uint32_t *key_ends, size_t key_ends_len, const uint8_t *key_bytes, size_t key_bytes_len,
                 size_t columns, uint32_t rows, const uint32_t *ends, size_t ends_len, const uint8_t *bytes, size_t bytes_len, uint32_t *primed);

/* Forgets a key: *was_known is 1 where something was known of it, and else 0. It is written only where the call returns RZ_DONE. */
int32_t rz_clear(rz_handle *client, size_t loader, const uint32_t *key_ends, size_t key_ends_len, const uint8_t *key_bytes, size_t key_bytes_len,
                 uint32_t *was_known);

/* Forgets all keys of a loader. */
int32_t rz_clear_all(rz_handle *client, size_t loader);

/* ---- What was asked. */

/* The batches that a loader was asked for since the client was made or started again, in order: for each its round, from 1, whether its
   replies were stored (1) or are out or lost (0), and its keys, as rz_orders has them. RZ_BUSY, RZ_NO_LOADER, RZ_NO_MEMORY, RZ_BAD_SIZE. */
typedef struct { size_t batches, keys, texts, bytes; } rz_log_sizes_t;
int32_t rz_log_sizes(rz_handle *client, size_t loader, rz_log_sizes_t *sizes);
int32_t rz_log(rz_handle *client, size_t loader, uint32_t *rounds, size_t rounds_len, uint32_t *stored, size_t stored_len, uint32_t *keys,
               size_t keys_len, uint32_t *texts, size_t texts_len, uint32_t *ends, size_t ends_len, uint8_t *bytes, size_t bytes_len);

/* Frees what a handle holds. It is empty then, and may be closed again. */
void rz_close(rz_handle *handle);

#ifdef __cplusplus
}
#endif
#endif
