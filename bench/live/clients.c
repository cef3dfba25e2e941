// Clients of one document:  clients [-s PID] [-o PID].. [-l N] lug|yjs|redis PORT SECONDS WORK
//   drag N HZ               N clients send HZ steps a second each, and one more only receives: how late it has each step
//   flood N WINDOW THREADS  N clients on THREADS threads send steps as fast as they can, each with at most WINDOW unacknowledged
//   idle N                  N clients that only receive
// -s names the server's process, -o another process of the measurement; -l adds N clients that receive all and don't look at it. Prints the figures as one line of JSON. Fails if an edit is refused,
// an entry is missing, or a connection ends.
#define _GNU_SOURCE
#include "live.h"

#include <pthread.h>
#include <stdio.h>
#include <stdlib.h>
#include <string.h>
#include <sys/epoll.h>
#include <sys/prctl.h>
#include <sys/socket.h>
#include <time.h>
#include <unistd.h>

enum { WARM = 1000, MOST_DRAINED = 20000, MOST_THREADS = 4, MOST_IDS = 1 << 16 };

struct list {
    double *items;
    size_t count, room;
};

// The clients of one thread.
struct worker {
    struct client *clients[MOST_CLIENTS];
    int count, epoll;
    double hz;
    uint64_t window;
    double begin, end;              // of the measured time
    int is_counting;                // whether that is now
    double slip;                    // the longest delay of a step by this program
    uint64_t received, acknowledged, copies;
    struct list late, waits;        // milliseconds until a step is received by the watching client, and until it is acknowledged
    pthread_t thread;
};

// Clients that receive all and don't look at it, on a thread of their own.
struct crowd {
    int count, epoll;
    double end;
    pthread_t thread;
};

static struct client *by_id[MOST_IDS];

static void add(struct list *list, double item) {
    if (list->count == list->room) {
        list->room = list->room ? list->room * 2 : 4096;
        list->items = realloc(list->items, list->room * sizeof *list->items);
        if (!list->items) fail("out of memory");
    }
    list->items[list->count++] = item;
}

// ---- what the protocols report ----

struct client *client_with_id(uint64_t id) {
    return id < MOST_IDS ? by_id[id] : NULL;
}

void set_id(struct client *client, uint64_t id) {
    if (id >= MOST_IDS) fail("the server calls a client %lu", id);
    client->id = id;
    by_id[id] = client;
}

// Adds the ages of an author's steps after `from` up to `to`, if they were sent in the measured time.
static void add_waits(struct worker *worker, struct list *list, const struct client *author, uint64_t from, uint64_t to) {
    double now = milliseconds();
    for (uint64_t step = from + 1; step <= to; step++) {
        double sent = author->sent_at[step % RING];
        if (sent >= worker->begin && sent < worker->end) add(list, now - sent);
    }
}

void on_acknowledged(struct client *client, uint64_t step) {
    struct worker *worker = client->worker;
    if (!worker || step <= client->acknowledged) return;
    if (worker->is_counting) worker->acknowledged += step - client->acknowledged;
    if (client->role == FLOODS) add_waits(worker, &worker->waits, client, client->acknowledged, step);
    client->acknowledged = step;
}

void on_reached(struct client *client, struct client *author, uint64_t step) {
    struct worker *worker = client->worker;
    if (!worker || client->role != WATCHES || !author || step <= author->seen) return;
    add_waits(worker, &worker->late, author, author->seen, step);
    author->seen = step;
}

void on_entry(struct client *client, struct client *author, uint64_t step) {
    if (client->worker && client->worker->is_counting) client->worker->received++;
    on_reached(client, author, step);
}

void on_copy(struct client *client) {
    if (client->worker && client->worker->is_counting) client->worker->copies++;
}

// ---- work ----

static void make_step(struct client *client, double now) {
    if (client->sent - client->seen >= RING && client->role == DRAGS) fail("%d steps were sent and not received", RING);
    client->sent++;
    client->sent_at[client->sent % RING] = now;
    client->protocol->step(client, client->sent);
}

static void watch(const struct worker *worker, struct stream *stream, int operation) {
    struct epoll_event event = {.events = EPOLLIN | (stream->is_full ? EPOLLOUT : 0), .data.ptr = stream};
    epoll_ctl(worker->epoll, operation, stream->fd, &event);
}

// Sends what the socket takes, and waits for it to take the rest.
static void flush(struct client *client, struct stream *stream) {
    if (flush_stream(stream) < 0) fail("the server has ended the connection of client %u", client->number);
    int is_full = stream->out.from < stream->out.to;
    if (is_full == stream->is_full) return;
    stream->is_full = is_full;
    watch(client->worker, stream, EPOLL_CTL_MOD);
}

static void flush_client(struct client *client) {
    flush(client, &client->stream);
    if (client->protocol == &redis) flush(client, &client->reader);
}

// Sends the steps whose time has come. Returns the time of the next one.
static double drag(struct worker *worker, struct client *client, double now) {
    while (client->due <= now) {
        if (worker->is_counting && now - client->due > worker->slip) worker->slip = now - client->due;
        make_step(client, milliseconds());
        client->due += 1e3 / worker->hz;
    }
    return client->due;
}

static void flood(struct worker *worker, struct client *client) {
    while (client->sent - client->acknowledged < worker->window) make_step(client, milliseconds());
}

// Sends what each client sends now. Returns the time of the next step, or the end.
static double work(struct worker *worker, double now) {
    double next = worker->end;
    for (int k = 0; k < worker->count; k++) {
        struct client *client = worker->clients[k];
        if (client->role == FLOODS) flood(worker, client);
        if (client->role == DRAGS) {
            double due = drag(worker, client, now);
            if (due < next) next = due;
        }
        flush_client(client);
    }
    return next;
}

// Waits for input until this time, and takes it.
static void serve_events(struct worker *worker, double until) {
    struct epoll_event events[MOST_CLIENTS];
    double left = until - milliseconds();
    if (left < 0) left = 0;
    struct timespec wait = {.tv_sec = left / 1e3, .tv_nsec = (long)(left * 1e6) % 1000000000};
    int count = epoll_pwait2(worker->epoll, events, MOST_CLIENTS, &wait, NULL);
    for (int k = 0; k < count; k++) {
        struct stream *stream = events[k].data.ptr;
        struct client *client = stream->owner;
        if (fill_stream(stream) < 0) fail("the server has ended the connection of client %u", client->number);
        client->protocol->take(client, stream);
        flush_client(client);
    }
}

// The number of steps that the watching client hasn't received.
static uint64_t unseen(const struct worker *worker) {
    uint64_t count = 0;
    for (int k = 0; k < worker->count; k++)
        if (worker->clients[k]->role == DRAGS) count += worker->clients[k]->sent - worker->clients[k]->seen;
    return count;
}

static void *run(void *argument) {
    struct worker *worker = argument;
    for (double now; (now = milliseconds()) < worker->end;) {
        worker->is_counting = now >= worker->begin;
        serve_events(worker, work(worker, now));
    }
    worker->is_counting = 0;
    while (unseen(worker) > 0 && milliseconds() < worker->end + MOST_DRAINED) serve_events(worker, milliseconds() + 10);
    return NULL;
}

// ---- setup ----

// Adds a client whose object is made to a worker.
static void join_worker(struct worker *worker, struct client *client) {
    worker->clients[worker->count++] = client;
    client->worker = worker;
    client->stream.owner = client->reader.owner = client;
    watch(worker, &client->stream, EPOLL_CTL_ADD);
    if (client->protocol == &redis) watch(worker, &client->reader, EPOLL_CTL_ADD);
}

static struct client *open_one(const struct protocol *protocol, enum role role, unsigned number, int port) {
    struct client *client = calloc(1, sizeof *client);
    if (!client) fail("out of memory");
    client->protocol = protocol;
    client->role = role;
    client->number = number;
    protocol->open(client, port);
    return client;
}

// The command line.
struct plan {
    const struct protocol *protocol;
    enum role role;
    int port, clients, threads, listeners;
    double seconds, hz;
    uint64_t window;
    struct watched watched;
};

// Opens the clients, and divides them among the workers. If clients drag, one more watches.
static void open_all(const struct plan *plan, struct worker *workers) {
    int count = plan->clients + (plan->role == DRAGS);
    for (int k = 0; k < plan->threads; k++) {
        workers[k] = (struct worker){.epoll = epoll_create1(EPOLL_CLOEXEC), .hz = plan->hz, .window = plan->window};
    }
    for (int k = 0; k < count; k++) {
        struct client *client = open_one(plan->protocol, k < plan->clients ? plan->role : WATCHES, k, plan->port);
        join_worker(&workers[k % plan->threads], client);
    }
}

// Opens the clients of a crowd.
static void open_crowd(const struct plan *plan, struct crowd *crowd) {
    *crowd = (struct crowd){.epoll = epoll_create1(EPOLL_CLOEXEC), .count = plan->listeners};
    for (int k = 0; k < crowd->count; k++) {
        struct client *client = open_one(plan->protocol, WATCHES, MOST_CLIENTS + k, plan->port);
        struct epoll_event event = {.events = EPOLLIN, .data.fd = client->stream.fd};
        epoll_ctl(crowd->epoll, EPOLL_CTL_ADD, client->stream.fd, &event);
    }
}

// Drops what the server sends to a crowd.
static void *listen_all(void *argument) {
    struct crowd *crowd = argument;
    struct epoll_event events[MOST_CLIENTS];
    while (milliseconds() < crowd->end) {
        int count = epoll_wait(crowd->epoll, events, MOST_CLIENTS, 100);
        for (int k = 0; k < count; k++)
            if (recv(events[k].data.fd, NULL, 1 << 20, MSG_TRUNC | MSG_DONTWAIT) == 0) fail("the server has ended the connection of a client");
    }
    return NULL;
}

// Starts the workers. The first steps of clients that drag are spread over the time of a step.
static void begin(const struct plan *plan, struct worker *workers) {
    double now = milliseconds();
    for (int k = 0; k < plan->threads; k++) {
        struct worker *worker = &workers[k];
        worker->begin = now + WARM;
        worker->end = worker->begin + plan->seconds * 1e3;
        for (int c = 0; c < worker->count; c++) worker->clients[c]->due = now + 1e3 / plan->hz * c / worker->count;
    }
    for (int k = 0; k < plan->threads; k++) pthread_create(&workers[k].thread, NULL, run, &workers[k]);
}

static void sleep_until(double time) {
    struct timespec wait = {.tv_sec = time / 1e3, .tv_nsec = (long)(time * 1e6) % 1000000000};
    clock_nanosleep(CLOCK_MONOTONIC, TIMER_ABSTIME, &wait, NULL);
}

// ---- figures ----

static int compare(const void *one, const void *other) {
    double a = *(const double *)one, b = *(const double *)other;
    return (a > b) - (a < b);
}

static void print_times(const char *name, struct list *list) {
    if (list->count == 0) return;
    qsort(list->items, list->count, sizeof *list->items, compare);
    printf(",\"%s\":{\"count\":%zu,\"least\":%.2f,\"median\":%.2f,\"p95\":%.2f,\"p99\":%.2f,\"longest\":%.2f}", name, list->count, list->items[0],
           list->items[list->count / 2], list->items[list->count * 95 / 100], list->items[list->count * 99 / 100], list->items[list->count - 1]);
}

static void append(struct list *list, const struct list *more) {
    for (size_t k = 0; k < more->count; k++) add(list, more->items[k]);
}

static void print_counts(const struct plan *plan, struct worker *workers, double seconds) {
    struct worker all = {0};
    uint64_t left = 0;
    for (int k = 0; k < plan->threads; k++) {
        all.received += workers[k].received;
        all.acknowledged += workers[k].acknowledged;
        all.copies += workers[k].copies;
        if (workers[k].slip > all.slip) all.slip = workers[k].slip;
        append(&all.late, &workers[k].late);
        append(&all.waits, &workers[k].waits);
        left += unseen(&workers[k]);
    }
    printf(",\"acknowledged\":%.1f,\"received\":%.1f,\"copies\":%lu", all.acknowledged / seconds, all.received / seconds, all.copies);
    printf(",\"slip\":%.2f,\"unseen\":%lu", all.slip, left);
    print_times("late", &all.late);
    print_times("waits", &all.waits);
}

// The number of each client's steps, by which run checks what the server has.
static void print_steps(const struct plan *plan, const struct worker *workers) {
    const char *comma = "";
    printf(",\"steps\":[");
    for (int k = 0; k < plan->threads; k++) {
        for (int c = 0; c < workers[k].count; c++, comma = ",") printf("%s%lu", comma, workers[k].clients[c]->sent);
    }
    for (int k = 0; k < plan->listeners; k++) printf("%s0", comma);
    printf("]");
}

static void print_meters(const struct sample *from, const struct sample *to) {
    double seconds = (to->at - from->at) / 1e3, ours = to->ours - from->ours;
    printf("{\"seconds\":%.2f,\"cpu\":%.3f,\"own\":%.3f", seconds, to->server - from->server, to->own - from->own);
    printf(",\"others\":%.2f,\"stolen\":%.2f", (to->busy - from->busy - ours) / seconds, (to->stolen - from->stolen) / seconds);
    printf(",\"switches\":%.0f,\"memory\":%lu,\"peak\":%lu", (to->switches - from->switches) / seconds, to->memory, to->peak);
}

// ---- the command line ----

static const struct protocol *protocol_named(const char *name) {
    const struct protocol *all[] = {&lug, &yjs, &redis};
    for (int k = 0; k < 3; k++)
        if (strcmp(all[k]->name, name) == 0) return all[k];
    fail("no kind of server: %s", name);
}

static void read_options(struct plan *plan, int count, char **words) {
    for (int option; (option = getopt(count, words, "s:o:l:")) >= 0;) {
        if (option == 's') plan->watched.server = atoi(optarg);
        if (option == 'o' && plan->watched.other_count < 8) plan->watched.others[plan->watched.other_count++] = atoi(optarg);
        if (option == 'l') plan->listeners = atoi(optarg);
        if (option == '?') exit(2);
    }
}

static struct plan read_plan(int count, char **words) {
    struct plan plan = {.threads = 1, .hz = 1};
    read_options(&plan, count, words);
    words += optind;
    count -= optind;
    const char *work = count >= 5 ? words[3] : "";
    int is_flood = strcmp(work, "flood") == 0 && count == 7, is_drag = strcmp(work, "drag") == 0 && count == 6;
    if (!is_flood && !is_drag && !(strcmp(work, "idle") == 0 && count == 5)) fail("clients [-s PID] [-o PID].. [-l N] KIND PORT SECONDS WORK");
    plan.protocol = protocol_named(words[0]);
    plan.port = atoi(words[1]);
    plan.seconds = atof(words[2]);
    plan.role = is_flood ? FLOODS : is_drag ? DRAGS : WATCHES;
    plan.clients = atoi(words[4]);
    if (is_drag) plan.hz = atof(words[5]);
    if (is_flood) plan.window = atoi(words[5]);
    if (is_flood) plan.threads = atoi(words[6]);
    if (plan.clients < 1 || plan.clients >= MOST_CLIENTS || plan.threads < 1 || plan.threads > MOST_THREADS || plan.hz <= 0 || plan.window > RING)
        fail("clients: a number is out of range");
    return plan;
}

int main(int count, char **words) {
    static struct worker workers[MOST_THREADS];
    struct plan plan = read_plan(count, words);
    struct crowd crowd;
    prctl(PR_SET_TIMERSLACK, 1);
    open_crowd(&plan, &crowd);
    open_all(&plan, workers);
    begin(&plan, workers);
    crowd.end = workers[0].end;
    if (crowd.count) pthread_create(&crowd.thread, NULL, listen_all, &crowd);
    sleep_until(workers[0].begin);
    struct sample from = take_sample(&plan.watched);
    sleep_until(workers[0].end);
    struct sample to = take_sample(&plan.watched);
    for (int k = 0; k < plan.threads; k++) pthread_join(workers[k].thread, NULL);
    if (crowd.count) pthread_join(crowd.thread, NULL);
    print_meters(&from, &to);
    print_counts(&plan, workers, plan.seconds);
    print_steps(&plan, workers);
    printf("}\n");
    return 0;
}
