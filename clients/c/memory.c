/* The memory of the library: what it asks malloc for is counted, and may fail.

   memory fail SCHEMA BINDINGS REQUESTS ANSWERS NAME=FILE..
       has the Nth request for memory fail, for each N, up to a run that needs no more: first that one alone, and then each from it up to the
       next call that is refused. Each failure is RZ_NO_MEMORY, or RZ_STOPPED after it; what was refused succeeds when it is tried again; all
       answers are the stored ones; and nothing is left at the end.
   memory flat PASSES QUERIES SERVERS SCHEMA BINDINGS REQUESTS ANSWERS NAME=FILE..
       counts the requests for memory of a query that was prepared before: they are fewer, for each client. It answers all lines PASSES times,
       then QUERIES new queries and as many more, first short ones and then long ones, and opens and frees SERVERS servers: the memory in use
       doesn't grow.

   In the archive that this is linked with, malloc, realloc and free are renamed to counted_malloc, counted_realloc and counted_free. */
#include "tables.h"
#include <stdio.h>
#include <stdlib.h>
#include <string.h>

/* ---- The counted allocator. */

/* What stands before each block, as large as the strictest alignment. */
typedef union { size_t len; long double alignment; char bytes[16]; } block_head;

static size_t in_use, most_in_use, requests, fail_at;
static int fails_on, has_failed;

static int fails(void) {
    requests++;
    if (!fail_at || requests < fail_at || (requests > fail_at && !fails_on)) return 0;
    has_failed = 1;
    return 1;
}

static void *counted(block_head *head, size_t len, size_t before) {
    if (!head) return NULL;
    head->len = len;
    in_use += len - before;
    if (in_use > most_in_use) most_in_use = in_use;
    return head + 1;
}

void *counted_malloc(size_t len) { return counted(fails() ? NULL : malloc(sizeof(block_head) + len), len, 0); }

void *counted_realloc(void *block, size_t len) {
    block_head *head = (block_head *)block - 1;
    size_t before = head->len;
    return counted(fails() ? NULL : realloc(head, sizeof *head + len), len, before);
}

void counted_free(void *block) {
    if (!block) return;
    block_head *head = (block_head *)block - 1;
    in_use -= head->len;
    free(head);
}

/* ---- What is tried. */

/* What a run reads, once. */
typedef struct { byte_buffer schema, bindings; line_list requests, answers; table_set tables; loader_list loaders; } files;

/* A request as a line, or from its parts, and the answer that is wanted. */
typedef struct { text line, query, operation, variables, answer; } request;

static size_t wrong, refusals, stops;

static void fault(const char *what, long number) {
    if (wrong++ < 20) printf("request for memory %zu: %s %ld\n", fail_at, what, number);
}

/* Whether a call was refused, since memory ran out. Any other refusal is a fault. */
static int is_refused(int32_t code) {
    if (code >= 0) return 0;
    if (!has_failed || (code != RZ_NO_MEMORY && code != RZ_STOPPED)) fault("a call is refused by", code);
    fails_on = 0;
    refusals++;
    return 1;
}

/* Makes a call, and once more if it is refused. */
#define AGAIN(call)                                                             \
    do {                                                                        \
        if (is_refused(call) && is_refused(call)) fault("refused again at line", __LINE__); \
    } while (0)

static rz_handle open_again(const files *files) {
    rz_handle server = {0};
    rz_fault told = {0};
    AGAIN(rz_open(&server, files->schema.at, files->schema.len, files->bindings.at, files->bindings.len, &told));
    return server;
}

static int32_t begin(host *host, rz_handle *queries, const request *asked) {
    const uint8_t *query = (const uint8_t *)asked->query.at, *operation = (const uint8_t *)asked->operation.at;
    if (!query) return rz_begin(&host->client, queries, (const uint8_t *)asked->line.at, asked->line.len);
    return rz_begin_request(&host->client, queries, query, asked->query.len, operation, asked->operation.len,
                            (const uint8_t *)asked->variables.at, asked->variables.len);
}

/* A request that memory ran out in is given up already, or waits for a reply that wasn't taken. */
static void give_up(host *host) {
    int32_t code = rz_next(&host->client);
    if (code == RZ_WAITING) rz_cancel(&host->client);
    else if (code == RZ_STOPPED) stops++;
    else if (code != RZ_IDLE) fault("a refused request goes on with", code);
}

/* Answers what was begun. Returns whether memory sufficed. */
static int is_answered(host *host, const request *asked) {
    int answers = !is_refused(try_begun(host));
    if (!answers) give_up(host);
    else if (!is_answer(host, asked->answer)) fault("another answer, of bytes", (long)host->answer.len);
    return answers;
}

/* Where a request isn't begun, an answer or outcomes stay, if there are any. */
static void answer_again(host *host, rz_handle *queries, const request *asked) {
    int32_t before = rz_next(&host->client);
    for (int turn = 0; turn < 3; turn++) {
        if (is_refused(begin(host, queries, asked))) {
            int32_t code = rz_next(&host->client);
            if (code != before) fault("a request that wasn't begun goes on with", code);
        } else if (is_answered(host, asked)) {
            return;
        } else {
            before = RZ_IDLE;
        }
    }
    fault("no answer", 0);
}

/* Loads keys of which two are equal, over what is known: each has one row. */
static void load_again(host *host) {
    const uint32_t texts[] = {1, 1, 1}, ends[] = {1, 2, 3};
    for (int turn = 0; turn < 3; turn++) {
        outcomes loaded = {0};
        if (is_refused(rz_begin_load(&host->client, 0, texts, 3, ends, 3, (const uint8_t *)"121", 3))) continue;
        int is_loaded = !is_refused(try_loaded(host, &loaded));
        if (is_loaded && (loaded.rows.len != 3 || loaded.columns.len != 3 || loaded.fault_ends.len))
            fault("outcomes of rows", (long)loaded.columns.len);
        free_outcomes(&loaded);
        if (is_loaded) return;
        give_up(host);
    }
    fault("no outcomes", 0);
}

/* A request from its parts, for the user of these variables. */
static request user_asked(const char *variables, const char *answer) {
    return (request){.query = text_of("query A($i: ID!){user(id:$i){name}}"), .operation = text_of("A"), .variables = text_of(variables),
                     .answer = text_of(answer)};
}

/* Calls on what is known, a load, and a request from its parts. */
static void change_known(host *host, rz_handle *queries) {
    const uint8_t *key = (const uint8_t *)"1", *fields = (const uint8_t *)"idname1Eve";
    const uint32_t key_end[] = {1}, ends[] = {2, 6, 7, 10};
    uint32_t told = 9;
    rz_log_sizes_t sizes;
    request asked = user_asked("{\"i\":1}", "{\"data\":{\"user\":{\"name\":\"Eve\"}}}");
    AGAIN(rz_log_sizes(&host->client, 0, &sizes));
    AGAIN(rz_clear(&host->client, 0, key_end, 1, key, 1, &told));
    AGAIN(rz_prime(&host->client, 0, key_end, 1, key, 1, 2, 1, ends, 4, fields, 10, &told));
    if (told != 1) fault("primed is", (long)told);
    load_again(host);
    answer_again(host, queries, &asked);
    AGAIN(rz_clear_all(&host->client, 0));
}

static void answer_all(host *host, rz_handle *queries, const files *files) {
    for (size_t number = 0; number < files->requests.count; number++) {
        request asked = {.line = files->requests.at[number], .answer = files->answers.at[number]};
        AGAIN(rz_restart(&host->client));
        answer_again(host, queries, &asked);
    }
}

/* Puts new queries in the place of these. Where that is refused, these stay, and answer. */
static void renew_queries(rz_handle *server, rz_handle *queries, host *host, const request *asked) {
    if (!is_refused(rz_queries(server, queries))) return;
    answer_again(host, queries, asked);
    AGAIN(rz_queries(server, queries));
}

/* Closes queries while a client answers by them. */
static void close_queries(rz_handle *queries, host *host, const request *asked) {
    int is_begun = !is_refused(begin(host, queries, asked));
    rz_close(queries);
    if (is_begun) is_answered(host, asked);
}

static host client_again(rz_handle *server, files *files) {
    host host = {.ask = ask_tables, .source = &files->tables, .loaders = files->loaders};
    const uint32_t none[1] = {0};
    AGAIN(rz_client(server, &host.client, none, 0));
    return host;
}

/* Frees all but the loaders. */
static void close_client(host *host) {
    host->loaders = (loader_list){0};
    close_host(host);
}

/* Limits a client. A request of four rounds is refused after one, also where another one was made before memory ran out. From then on only the work
   is counted. */
static void limit_again(host *host, rz_handle *queries) {
    request asked = {.query = text_of("{users{liked{author{name}}}}"), .operation = text_of(""), .variables = text_of(""),
                     .answer = text_of("{\"errors\":[{\"message\":\"too many rounds\"}]}")};
    AGAIN(rz_limit_work(&host->client, SIZE_MAX));
    AGAIN(rz_limit_rounds(&host->client, 1));
    answer_again(host, queries, &asked);
    AGAIN(rz_limit_rounds(&host->client, 0));
}

/* Opens a server and queries, answers all lines by two clients, of which the second takes the plans that are kept and is limited, and closes all. */
static void whole_run(files *files) {
    rz_handle server = open_again(files), other = {0}, queries = {0};
    rz_loader_sizes sizes;
    request last = {.line = files->requests.at[0], .answer = files->answers.at[0]};
    AGAIN(rz_share(&server, &other));
    AGAIN(rz_loaders_sizes(&other, &sizes));
    AGAIN(rz_queries(&other, &queries));
    host first = client_again(&other, files), second = client_again(&other, files);
    rz_close(&other);
    answer_all(&first, &queries, files);
    limit_again(&second, &queries);
    answer_all(&second, &queries, files);
    change_known(&first, &queries);
    renew_queries(&server, &queries, &second, &last);
    rz_close(&server);
    close_client(&first);
    close_queries(&queries, &second, &last);
    close_client(&second);
    if (in_use) fault("bytes that are left:", (long)in_use);
}

/* Has each request for memory fail in turn. Returns how many there are. */
static size_t fail_each(files *files, int all_after) {
    for (fail_at = 1;; fail_at++) {
        requests = 0;
        has_failed = 0;
        fails_on = all_after;
        whole_run(files);
        if (!has_failed) return fail_at - 1;
    }
}

static void fail_all(files *files) {
    size_t alone = fail_each(files, 0), refused = refusals;
    printf("%zu requests for memory failed alone: %zu calls were refused\n", alone, refused);
    size_t after = fail_each(files, 1);
    printf("%zu failed with those after: %zu calls were refused\n", after, refusals - refused);
    printf("%zu times a request was stopped at a reply\n", stops);
}

/* ---- Memory that doesn't grow. */

/* Begins a request, and gives it up. Returns how often memory was requested. */
static size_t requests_of_begin(host *host, rz_handle *queries, const request *asked) {
    size_t before = requests;
    AGAIN(begin(host, queries, asked));
    size_t taken = requests - before;
    if (begin(host, queries, asked) != RZ_BUSY) fault("a client that isn't busy", 0);
    rz_cancel(&host->client);
    return taken;
}

/* A query is prepared for the first client that asks it, and then for none, whatever is refused meanwhile. */
static void prepared_once(rz_handle *server, files *files) {
    rz_handle queries = open_queries(server);
    host one = client_again(server, files), two = client_again(server, files);
    request asked = user_asked("{\"i\":1}", ""), other = user_asked("{\"i\":2}", "");
    size_t first = requests_of_begin(&one, &queries, &asked), again = requests_of_begin(&one, &queries, &asked);
    size_t for_other = requests_of_begin(&two, &queries, &other);
    if (again >= first || for_other != again) fault("requests for memory, of another client:", (long)for_other);
    printf("a query is begun with %zu requests for memory, and then with %zu by each client\n", first, again);
    rz_close(&queries);
    close_client(&one);
    close_client(&two);
}

static void same_lines(host *host, rz_handle *queries, files *files, size_t passes) {
    size_t before = 0;
    for (size_t pass = 0; pass < passes; pass++) {
        answer_all(host, queries, files);
        if (pass == 1) before = in_use;
        if (pass > 1 && in_use != before) fault("bytes in use after a pass:", (long)in_use);
    }
    printf("%zu times all lines: %zu bytes in use\n", passes, in_use);
}

/* Queries that are all different, each with a name of so many digits and by a client of its own, so that documents and plans are let go. Returns
   the most bytes in use. */
static size_t new_queries(rz_handle *server, rz_handle *queries, files *files, int digits, size_t from, size_t to) {
    char query[1200], answer[1200];
    most_in_use = 0;
    for (size_t number = from; number < to; number++) {
        snprintf(query, sizeof query, "query A{a%0*zu:user(id:1){name}} query B{__typename}", digits, number);
        snprintf(answer, sizeof answer, "{\"data\":{\"a%0*zu\":{\"name\":\"Ada\"}}}", digits, number);
        request asked = {.query = text_of(query), .operation = text_of("A"), .variables = text_of(""), .answer = text_of(answer)};
        host host = client_again(server, files);
        answer_again(&host, queries, &asked);
        close_client(&host);
    }
    return most_in_use;
}

static void bounded_queries(rz_handle *server, files *files, int digits, size_t count) {
    rz_handle queries = open_queries(server);
    size_t first = new_queries(server, &queries, files, digits, 0, count);
    size_t second = new_queries(server, &queries, files, digits, count, 2 * count);
    rz_close(&queries);
    if (second > first) fault("most bytes in use in the second half:", (long)second);
    printf("%zu new queries of %d digits: at most %zu bytes in use, and %zu over as many more\n", count, digits, first, second);
}

static void many_servers(files *files, size_t servers) {
    for (size_t number = 0; number < servers; number++) whole_run(files);
    printf("%zu servers: %zu bytes are left\n", servers, in_use);
}

static void flat(files *files, size_t passes, size_t queries, size_t servers) {
    rz_handle server = open_again(files), lent = open_queries(&server);
    host host = client_again(&server, files);
    prepared_once(&server, files);
    same_lines(&host, &lent, files, passes);
    close_client(&host);
    rz_close(&lent);
    bounded_queries(&server, files, 8, queries);
    bounded_queries(&server, files, 1000, queries);
    rz_close(&server);
    many_servers(files, servers);
}

static files read_files(int count, char **words) {
    files read = {.schema = read_file(words[0]), .bindings = read_file(words[1]), .requests = read_lines(words[2]), .answers = read_lines(words[3])};
    rz_handle server = open_server(words[0], words[1]);
    read.tables = read_tables(count - 4, words + 4);
    read.loaders = read_loaders(&server);
    index_tables(&read.tables, &server);
    rz_close(&server);
    return read;
}

static void free_files(files *files) {
    free(files->schema.at);
    free(files->bindings.at);
    free_lines(&files->requests);
    free_lines(&files->answers);
    free_loaders(&files->loaders);
    free_tables(&files->tables);
}

static size_t number_of(const char *word) { return strtoul(word, NULL, 10); }

int main(int argc, char **argv) {
    int words = argc > 1 && strcmp(argv[1], "flat") == 0 ? 5 : 2;
    if (argc < words + 4) {
        fprintf(stderr, "memory fail|flat PASSES QUERIES SERVERS SCHEMA BINDINGS REQUESTS ANSWERS NAME=FILE..\n");
        return 2;
    }
    files files = read_files(argc - words, argv + words);
    if (words == 2) fail_all(&files);
    else flat(&files, number_of(argv[2]), number_of(argv[3]), number_of(argv[4]));
    free_files(&files);
    printf("%zu wrong\n", wrong);
    return wrong != 0;
}
