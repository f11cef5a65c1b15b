/* A load generator: few threads, each with many connections that stay open, by epoll. README.md beside it has its words and what it prints. */
#define _GNU_SOURCE
#include <errno.h>
#include <netdb.h>
#include <netinet/tcp.h>
#include <pthread.h>
#include <sys/epoll.h>
#include <sys/resource.h>
#include <unistd.h>

#include "speak.h"
#include "waits.h"

enum { STATUSES = 600, EVENTS = 256, MOST_THREADS = 64 };
static const double REDIAL = 0.002; /* seconds between two tries of a connection that is not there */

/* What was counted while it was measured: answers by their status, and connections that ended before an answer. */
typedef struct {
    Waits waits;
    uint64_t done, status[STATUSES], unanswered, refused, reconnects;
} Counts;

typedef struct {
    pthread_t id;
    int first, count, epoll;
    Client *clients;
    Counts counts;
} Thread;

static Asked asked = {.kind = COMMIT, .each = 1, .keys = 61440};
static int clients = 1, threads;
static double seconds = 3, warm = 0.5, rate;
static double start, measured, until;
static double gap; /* seconds between two requests of one client at a fixed rate; 0: each asks as soon as it is answered */
static struct sockaddr_storage to;
static socklen_t to_len;

static bool is_measured(double when)
{
    return when >= measured && when < until;
}

/* ---- connections */

static void hang_up(Client *c)
{
    if (c->fd >= 0) close(c->fd);
    c->fd = -1;
    c->in_len = c->out_len = c->out_at = 0;
    c->stream = 0;
}

static void listen_for(Thread *t, Client *c, int how, uint32_t events)
{
    struct epoll_event e = {.events = events, .data.ptr = c};
    epoll_ctl(t->epoll, how, c->fd, &e);
    c->is_sending = events & EPOLLOUT;
}

/* Begins a connection. It may take long, where the server's queue is full: no other client waits for it. */
static bool dial(Thread *t, Client *c)
{
    int on = 1;
    c->fd = socket(to.ss_family, SOCK_STREAM | SOCK_NONBLOCK, 0);
    if (c->fd < 0) return false;
    setsockopt(c->fd, IPPROTO_TCP, TCP_NODELAY, &on, sizeof on);
    if (connect(c->fd, (struct sockaddr *)&to, to_len) && errno != EINPROGRESS) {
        hang_up(c);
        return false;
    }
    c->has_answered = false;
    listen_for(t, c, EPOLL_CTL_ADD, EPOLLIN | EPOLLOUT);
    return true;
}

/* Sends what is left; false where the connection is lost. */
static bool push(Thread *t, Client *c)
{
    while (c->out_at < c->out_len) {
        ssize_t n = send(c->fd, c->out + c->out_at, c->out_len - c->out_at, MSG_NOSIGNAL);
        if (n < 0 && (errno == EAGAIN || errno == ENOTCONN)) {
            if (!c->is_sending) listen_for(t, c, EPOLL_CTL_MOD, EPOLLIN | EPOLLOUT);
            return true;
        }
        if (n <= 0) return false;
        c->out_at += (size_t)n;
    }
    if (c->is_sending) listen_for(t, c, EPOLL_CTL_MOD, EPOLLIN);
    return true;
}

static bool ask(Thread *t, Client *c)
{
    c->out_at = 0;
    c->is_waiting = true;
    if (is_grpc(asked.kind)) grpc_request(c, &asked);
    else http_request(c, &asked);
    return push(t, c);
}

/* The connection has ended unasked. A request that waits is sent anew, and its wait goes on: at once where the server had answered, else by the next round. */
static void lose(Thread *t, Client *c)
{
    bool at_once = c->has_answered;
    if (is_measured(now())) {
        t->counts.unanswered += c->is_waiting && at_once;
        t->counts.refused += !at_once;
        t->counts.reconnects += at_once;
    }
    hang_up(c);
    if (at_once && dial(t, c) && c->is_waiting && !ask(t, c)) hang_up(c);
}

/* ---- requests and answers */

/* Asks if a request waits for a connection, or is due. */
static void go_on(Thread *t, Client *c, double when)
{
    if (!c->is_waiting && gap > 0 && c->due > when) return;
    if (!c->is_waiting && gap <= 0) c->due = when;
    if (!ask(t, c)) lose(t, c);
}

static void count(Thread *t, const Client *c, int status, double when)
{
    if (!is_measured(when)) return;
    t->counts.status[status < STATUSES ? status : 0]++;
    if (status != 200) return;
    waits_note(&t->counts.waits, when - c->due);
    t->counts.done += asked.kind == COMMIT ? (uint64_t)asked.each : 1;
}

static void receive(Thread *t, Client *c)
{
    ssize_t got = recv(c->fd, c->in + c->in_len, BUFFER - c->in_len, 0);
    if (got < 0 && (errno == EAGAIN || errno == ENOTCONN)) return;
    double when = now();
    if (got > 0) c->in_len += (size_t)got;
    Answer found = got <= 0 ? (Answer){0, true} : is_grpc(asked.kind) ? grpc_answer(c) : http_answer(c);
    if (found.status) {
        count(t, c, found.status, when);
        c->is_waiting = false;
        c->has_answered = true;
        c->due += gap;
    }
    if (found.ends && found.status) {
        /* The server said that it closes: the client comes back with the next round. */
        t->counts.reconnects += is_measured(when);
        hang_up(c);
    } else if (found.ends) {
        lose(t, c);
    } else if (found.status) {
        go_on(t, c, when);
    }
}

static void handle(Thread *t, const struct epoll_event *e)
{
    Client *c = e->data.ptr;
    if (c->fd < 0) return;
    bool is_lost = e->events & (EPOLLERR | EPOLLHUP) && !(e->events & EPOLLIN);
    if (is_lost || (e->events & EPOLLOUT && !push(t, c))) lose(t, c);
    else if (e->events & EPOLLIN) receive(t, c);
}

/* ---- threads */

static void prepare(Thread *t)
{
    t->epoll = epoll_create1(0);
    t->clients = calloc((size_t)t->count, sizeof *t->clients);
    for (int i = 0; i < t->count; i++) {
        int number = t->first + i;
        t->clients[i] = (Client){.fd = -1, .in = malloc(BUFFER + 1), .out = malloc(BUFFER), .due = start + gap * number / clients};
        t->clients[i].seed = 88172645463325252ull ^ ((uint64_t)(number + 1) * 0x9E3779B97F4A7C15ull);
    }
}

/* Connects those that have no connection, and has them go on. */
static void connect_all(Thread *t)
{
    for (int i = 0; i < t->count; i++) {
        Client *c = &t->clients[i];
        if (c->fd >= 0) continue;
        if (dial(t, c)) go_on(t, c, now());
        else if (is_measured(now())) t->counts.refused++;
    }
}

/* Sends what is due at a fixed rate, and returns how many milliseconds there are until the next one is, at most 2. */
static int send_due(Thread *t)
{
    double when = now(), next = when + REDIAL;
    for (int i = 0; i < t->count; i++) {
        Client *c = &t->clients[i];
        if (c->fd < 0 || c->is_waiting) continue;
        if (c->due <= when) go_on(t, c, when);
        else if (c->due < next) next = c->due;
    }
    return (int)((next - now()) * 1e3);
}

static void *work(void *argument)
{
    Thread *t = argument;
    struct epoll_event events[EVENTS];
    double next_dial = 0;
    prepare(t);
    for (double when; (when = now()) < until;) {
        if (when >= next_dial) {
            connect_all(t);
            next_dial = when + REDIAL;
        }
        int patience = gap > 0 ? send_due(t) : (int)(REDIAL * 1e3), n = epoll_wait(t->epoll, events, EVENTS, patience > 0 ? patience : 0);
        for (int k = 0; k < n; k++) handle(t, &events[k]);
    }
    for (int i = 0; i < t->count; i++) hang_up(&t->clients[i]);
    return NULL;
}

/* ---- the run and its report */

static double own_cpu(void)
{
    struct rusage r;
    getrusage(RUSAGE_SELF, &r);
    return (double)(r.ru_utime.tv_sec + r.ru_stime.tv_sec) + (double)(r.ru_utime.tv_usec + r.ru_stime.tv_usec) / 1e6;
}

static void sleep_until(double when)
{
    double left = when - now();
    if (left > 0) usleep((useconds_t)(left * 1e6));
}

static void add_counts(Counts *sum, const Counts *other)
{
    waits_add(&sum->waits, &other->waits);
    for (int i = 0; i < STATUSES; i++) sum->status[i] += other->status[i];
    sum->done += other->done;
    sum->unanswered += other->unanswered;
    sum->refused += other->refused;
    sum->reconnects += other->reconnects;
}

static void report(const Counts *sum, double cores)
{
    const Waits *w = &sum->waits;
    printf("{\"kind\": \"%s\", \"clients\": %d, \"threads\": %d, \"per_s\": %.0f", kind_names[asked.kind], clients, threads, (double)sum->done / seconds);
    printf(", \"p50\": %.3f, \"p90\": %.3f, \"p99\": %.3f, \"p999\": %.3f", waits_at(w, 0.5), waits_at(w, 0.9), waits_at(w, 0.99), waits_at(w, 0.999));
    printf(", \"max\": %.3f, \"answers\": {", w->greatest * 1e3);
    const char *comma = "";
    for (int i = 0; i < STATUSES; i++) {
        if (!sum->status[i]) continue;
        printf("%s\"%d\": %lu", comma, i, (unsigned long)sum->status[i]);
        comma = ", ";
    }
    printf("}, \"unanswered\": %lu, \"refused\": %lu", (unsigned long)sum->unanswered, (unsigned long)sum->refused);
    printf(", \"reconnects\": %lu, \"own_cores\": %.2f}\n", (unsigned long)sum->reconnects, cores);
}

static void run(void)
{
    static Thread all[MOST_THREADS];
    static Counts sum;
    gap = rate > 0 ? clients / rate : 0;
    start = now();
    measured = start + warm;
    until = measured + seconds;
    for (int i = 0, next = 0; i < threads; i++) {
        all[i].first = next;
        all[i].count = clients / threads + (i < clients % threads);
        next += all[i].count;
        pthread_create(&all[i].id, NULL, work, &all[i]);
    }
    sleep_until(measured);
    double own = own_cpu();
    for (int i = 0; i < threads; i++) {
        pthread_join(all[i].id, NULL);
        add_counts(&sum, &all[i].counts);
    }
    report(&sum, (own_cpu() - own) / seconds);
}

static bool resolve(const char *address)
{
    struct addrinfo hints = {.ai_socktype = SOCK_STREAM}, *found;
    char name[sizeof asked.host], *node = name;
    snprintf(asked.host, sizeof asked.host, "%s", address);
    memcpy(name, asked.host, sizeof name);
    char *port = strrchr(name, ':');
    if (!port || port == name) return false;
    *port++ = 0;
    if (*node == '[' && port[-2] == ']') {
        node++;
        port[-2] = 0;
    }
    if (getaddrinfo(node, port, &hints, &found)) return false;
    memcpy(&to, found->ai_addr, found->ai_addrlen);
    to_len = found->ai_addrlen;
    freeaddrinfo(found);
    return true;
}

static bool set_kind(const char *name)
{
    for (int kind = 0; kind < KINDS; kind++)
        if (!strcmp(name, kind_names[kind])) {
            asked.kind = (Kind)kind;
            return true;
        }
    return false;
}

static bool set_option(int option, const char *text)
{
    switch (option) {
    case 'k': return set_kind(text);
    case 'c': return (clients = atoi(text)) > 0;
    case 't': return (threads = atoi(text)) > 0 && threads <= MOST_THREADS;
    case 's': return (seconds = atof(text)) > 0;
    case 'w': return (warm = atof(text)) >= 0;
    case 'e': return (asked.each = atoi(text)) > 0 && asked.each <= MOST_EACH;
    case 'K': return (asked.keys = (unsigned)atoi(text)) > 0;
    case 'r': return (rate = atof(text)) >= 0;
    default: return false;
    }
}

int main(int argc, char **argv)
{
    for (int option; (option = getopt(argc, argv, "k:c:t:s:w:e:K:r:")) != -1;)
        if (!set_option(option, optarg)) {
            fprintf(stderr, "load: a wrong option: README.md has them\n");
            return 2;
        }
    if (optind + 1 != argc || !resolve(argv[optind])) {
        fprintf(stderr, "Usage: load [OPTIONS] HOST:PORT\n");
        return 2;
    }
    if (!threads) threads = clients > 64 ? 2 : 1;
    if (threads > clients) threads = clients;
    run();
    return 0;
}
