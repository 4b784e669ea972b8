/* Sixteen threads over one server: each answers all lines of a file again and again, by queries of its own and a client that goes from thread to
   thread, and compares each answer with the stored one. Two of three turns end with a line begun, which the thread finishes that has the client
   next: by a plan that the queries keep and go on with, or by one that they let go. None is let go while another thread may be using it, since the
   sanitizer for threads sees barriers, but not how the library counts who uses a plan.

   threads SCHEMA BINDINGS REQUESTS ANSWERS TURNS NAME=FILE.. */
#include "tables.h"
#include <pthread.h>
#include <stdio.h>
#include <stdlib.h>

enum { THREADS = 16 };

/* What the threads share: they only read it, but for the clients, of which each has one in a turn. */
typedef struct {
    line_list requests, answers;
    size_t turns;
    table_set tables;
    rz_handle servers[THREADS];
    host hosts[THREADS];
    pthread_barrier_t turn;
} shared;

typedef struct { shared *with; size_t number, answered, wrong; pthread_t thread; } worker;

static void count_answer(worker *worker, const host *host, size_t number) {
    worker->wrong += !is_answer(host, worker->with->answers.at[number]);
    worker->answered++;
}

/* Answers each line by a client. In odd turns the client forgets what it knows before each line. */
static void answer_lines(worker *worker, rz_handle *queries, host *host, size_t turn) {
    const line_list *requests = &worker->with->requests;
    for (size_t number = 0; number < requests->count; number++) {
        if (turn % 2) MUST(rz_restart(&host->client));
        answer_line(host, queries, requests->at[number]);
        count_answer(worker, host, number);
    }
}

static int begins_last(size_t turn) { return turn % 3 != 1; }

/* Begins a line. In each third turn new queries then take the place of these. */
static void begin_last(worker *worker, rz_handle *queries, host *host, size_t turn) {
    const line_list *requests = &worker->with->requests;
    text line = requests->at[turn % requests->count];
    MUST(rz_begin(&host->client, queries, (const uint8_t *)line.at, line.len));
    if (turn % 3 == 2) MUST(rz_queries(&worker->with->servers[worker->number], queries));
}

/* Finishes what another thread began in the turn before. */
static void finish_last(worker *worker, host *host, size_t turn) {
    answer_begun(host);
    count_answer(worker, host, (turn - 1) % worker->with->requests.count);
}

/* Opens a client of the thread's own in each fifth turn; in the others it goes on with the client that another thread had. */
static void *work(void *given) {
    worker *worker = given;
    shared *with = worker->with;
    rz_handle *server = &with->servers[worker->number], queries = open_queries(server);
    for (size_t turn = 0; turn < with->turns; turn++) {
        host *host = &with->hosts[(worker->number + turn) % THREADS];
        if (turn % 5 == 4) {
            close_host(host);
            *host = open_host(server, NULL, ask_tables, &with->tables);
        } else if (turn && begins_last(turn - 1)) finish_last(worker, host, turn);
        answer_lines(worker, &queries, host, turn);
        if (begins_last(turn)) begin_last(worker, &queries, host, turn);
        pthread_barrier_wait(&with->turn);
    }
    rz_close(&queries);
    rz_close(server);
    return NULL;
}

static void open_all(shared *with, char **words) {
    rz_handle server = open_server(words[1], words[2]);
    index_tables(&with->tables, &server);
    for (size_t number = 0; number < THREADS; number++) {
        MUST(rz_share(&server, &with->servers[number]));
        with->hosts[number] = open_host(&server, NULL, ask_tables, &with->tables);
    }
    rz_close(&server);
    pthread_barrier_init(&with->turn, NULL, THREADS);
}

static void close_all(shared *with) {
    for (size_t number = 0; number < THREADS; number++) close_host(&with->hosts[number]);
    pthread_barrier_destroy(&with->turn);
    free_tables(&with->tables);
    free_lines(&with->requests);
    free_lines(&with->answers);
}

int main(int argc, char **argv) {
    worker workers[THREADS];
    size_t answered = 0, wrong = 0;
    if (argc < 6) {
        fprintf(stderr, "threads SCHEMA BINDINGS REQUESTS ANSWERS TURNS NAME=FILE..\n");
        return 2;
    }
    shared *with = allocated(sizeof *with);
    *with = (shared){.requests = read_lines(argv[3]), .answers = read_lines(argv[4]), .turns = strtoul(argv[5], NULL, 10)};
    with->tables = read_tables(argc - 6, argv + 6);
    open_all(with, argv);
    for (size_t number = 0; number < THREADS; number++) {
        workers[number] = (worker){.with = with, .number = number};
        if (pthread_create(&workers[number].thread, NULL, work, &workers[number])) return 2;
    }
    for (size_t number = 0; number < THREADS; number++) {
        pthread_join(workers[number].thread, NULL);
        answered += workers[number].answered;
        wrong += workers[number].wrong;
    }
    close_all(with);
    free(with);
    printf("%zu answers of %d threads, %zu wrong\n", answered, THREADS, wrong);
    return wrong != 0;
}
