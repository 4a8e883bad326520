/* A client that loads a server of the sample at a port of 127.0.0.1.

   usage: serve rate KIND PORT LINKS WINDOW SECONDS     calls for so long: prints the calls a second
          serve count KIND PORT LINKS WINDOW CALLS      so many calls of each link: prints the calls a second
          serve links PORT COUNT                        links that are opened, pinged once and closed: prints the links a second
          serve latency KIND PORT SECONDS               calls of one link: prints the 50th and 99th hundredth of their times, in microseconds
          serve hold PORT COUNT                         opens so many links, pings each, prints `ready`, and holds them until its input ends
          serve trouble PORT                            the same of three peers: one calls echo and never reads, one sends a byte a second, and one
                                                        fell silent in the middle of a call
          serve start PORT PROGRAM [WORD..]             prints the milliseconds from the program's start to the first link that it accepts

   KIND is ping, get, echo, make, lookup or dirty (bench/jrmp.h): of the object that the registry names counter, echo or maker. Each link has a thread,
   which keeps WINDOW calls in flight and compares each Return. */
#include "jrmp.h"

#include <fcntl.h>
#include <pthread.h>
#include <signal.h>
#include <sys/wait.h>

enum { MOST_LINKS = 64, MOST_WINDOW = 64 };

static struct exchange exchange;

static int reach(int port) {
    int fd = try_reach(port);
    if (fd < 0) fail("connect");
    return fd;
}

static int open_link(int port) {
    int fd = reach(port);
    greet(fd, fd);
    return fd;
}

/* The identifier of the object that a name stands for, as hexadecimal digits. It stands in the Return behind the reference's kind, host and port. */
static void look_up(int port, const char *name, char *object) {
    static struct exchange lookup;
    static const char kind[] = "UnicastRef";
    int fd = open_link(port);
    memset(&lookup, 0, sizeof lookup);
    make_lookup(&lookup, name);
    learn(&lookup, fd, fd);
    close(fd);
    for (size_t at = 2; at + sizeof kind < lookup.wanted_length; at++) {
        const unsigned char *found = lookup.wanted + at;
        if (found[-2] != 0 || found[-1] != sizeof kind - 1 || memcmp(found, kind, sizeof kind - 1)) continue;
        found += sizeof kind - 1;
        found += 2 + (found[0] << 8 | found[1]) + 4;
        for (int i = 0; i < 22; i++) snprintf(object + 2 * i, 3, "%02x", found[i]);
        return;
    }
    fail("no reference");
}

/* Makes the exchange of a kind, with the object that it calls. */
static void prepare(const char *kind, int port) {
    char object[45];
    look_up(port, !strcmp(kind, "echo") ? "echo" : !strcmp(kind, "make") ? "maker" : "counter", object);
    make_exchange(&exchange, kind, object);
    if (exchange.is_learned) {
        int fd = open_link(port);
        learn(&exchange, fd, fd);
        close(fd);
    }
}

/* What a thread is told, and how many calls it made. */
struct worker {
    pthread_t thread;
    int fd, window;
    double until;
    unsigned long count, done;
};

/* Sends the next call, behind the acknowledgement of the last Return where there is one. */
static void send_call(int fd, const unsigned char *identifier) {
    unsigned char both[512];
    size_t length = 0;
    if (!identifier) {
        write_all(fd, exchange.call, exchange.call_length);
        return;
    }
    length = put_ack(both, identifier);
    memcpy(both + length, exchange.call, exchange.call_length);
    write_all(fd, both, length + exchange.call_length);
}

/* Whether one more call is to be made than so many. */
static int goes_on(const struct worker *it, unsigned long sent) {
    return it->count ? sent < it->count : (sent & 15) || seconds_now() < it->until;
}

/* Keeps calls in flight, and takes their Returns in the order of the calls. */
static void *work(void *told) {
    struct worker *it = told;
    unsigned char identifier[IDENTIFIER_LENGTH], *got = malloc(exchange.wanted_length);
    unsigned long sent = 0;
    int more = 1;
    for (; sent < (unsigned long)it->window && goes_on(it, sent); sent++) send_call(it->fd, 0);
    while (it->done < sent) {
        read_all(it->fd, got, exchange.wanted_length);
        compare(&exchange, got, 0, exchange.wanted_length, identifier);
        it->done++;
        if (!more || !(more = goes_on(it, sent))) continue;
        send_call(it->fd, exchange.is_acknowledged ? identifier : 0);
        sent++;
    }
    free(got);
    return 0;
}

/* Loads the server by several links, for some seconds or with some calls each. */
static void load(int port, int links, int window, double seconds, unsigned long count) {
    static struct worker workers[MOST_LINKS];
    unsigned long done = 0;
    if (links < 1 || links > MOST_LINKS || window < 1 || window > MOST_WINDOW) fail("too many");
    for (int i = 0; i < links; i++) workers[i].fd = open_link(port);
    double begin = seconds_now();
    for (int i = 0; i < links; i++) {
        workers[i].window = window;
        workers[i].until = begin + seconds;
        workers[i].count = count;
        if (pthread_create(&workers[i].thread, 0, work, &workers[i])) fail("thread");
    }
    for (int i = 0; i < links; i++) {
        pthread_join(workers[i].thread, 0);
        done += workers[i].done;
    }
    printf("%.1f\n", (double)done / (seconds_now() - begin));
}

/* Opens links one after another, pings each once, and closes it once the server has. */
static void open_and_close(int port, int count) {
    unsigned char message[OPENING_LENGTH + 1], answer;
    memcpy(message, OPENING, OPENING_LENGTH);
    message[OPENING_LENGTH] = PING;
    double begin = seconds_now();
    for (int i = 0; i < count; i++) {
        int fd = reach(port);
        write_all(fd, message, sizeof message);
        read_greeting(fd);
        read_all(fd, &answer, 1);
        if (answer != PING_ACK) fail("no answer to a ping");
        shutdown(fd, SHUT_WR);
        if (read(fd, &answer, 1) > 0) fail("more than an answer");
        close(fd);
    }
    printf("%.1f\n", count / (seconds_now() - begin));
}

static int by_size(const void *a, const void *b) {
    double x = *(const double *)a, y = *(const double *)b;
    return (x > y) - (x < y);
}

static void ping(int fd) {
    unsigned char message = PING, answer;
    write_all(fd, &message, 1);
    read_all(fd, &answer, 1);
    if (answer != PING_ACK) fail("no answer to a ping");
}

/* Makes one call, and takes its Return. */
static void call_once(int fd, unsigned char *got) {
    unsigned char identifier[IDENTIFIER_LENGTH];
    send_call(fd, 0);
    read_all(fd, got, exchange.wanted_length);
    compare(&exchange, got, 0, exchange.wanted_length, identifier);
}

/* Times calls of one link. */
static void time_calls(const char *kind, int port, double seconds) {
    enum { MOST = 1 << 20 };
    prepare(kind, port);
    unsigned char *got = malloc(exchange.wanted_length);
    int fd = open_link(port), count = 0;
    call_once(fd, got);
    double *times = malloc(MOST * sizeof *times), before = seconds_now(), until = before + seconds;
    for (; count < MOST && before < until; count++) {
        call_once(fd, got);
        double now = seconds_now();
        times[count] = now - before;
        before = now;
    }
    qsort(times, (size_t)count, sizeof *times, by_size);
    printf("%.1f %.1f\n", times[count / 2] * 1e6, times[count - 1 - count / 100] * 1e6);
}

/* Says that all is ready, and waits until the input ends. */
static void hold(void) {
    char byte;
    puts("ready");
    fflush(stdout);
    while (read(0, &byte, 1) > 0) continue;
}

static void hold_links(int port, int count) {
    for (int i = 0; i < count; i++) ping(open_link(port));
    hold();
}

/* Calls echo until the server takes no more, since nothing is read. */
static void *deafen(void *told) {
    int fd = *(int *)told;
    for (;;) write_all(fd, exchange.call, exchange.call_length);
    return 0;
}

/* Sends a byte of a call a second. */
static void *trickle(void *told) {
    int fd = *(int *)told;
    for (size_t at = 0;; at = (at + 1) % exchange.call_length) {
        write_all(fd, exchange.call + at, 1);
        sleep(1);
    }
    return 0;
}

static void trouble(int port) {
    static int fds[3];
    pthread_t threads[2];
    prepare("echo", port);
    for (int i = 0; i < 3; i++) fds[i] = open_link(port);
    write_all(fds[2], exchange.call, exchange.call_length / 2);
    if (pthread_create(&threads[0], 0, deafen, &fds[0]) || pthread_create(&threads[1], 0, trickle, &fds[1])) fail("thread");
    sleep(1);
    hold();
}

/* Times a program's start until it accepts a link, and ends it. */
static void time_start(int port, char **words) {
    double begin = seconds_now();
    pid_t child = fork();
    if (child < 0) fail("fork");
    if (!child) {
        int nowhere = open("/dev/null", O_RDWR);
        dup2(nowhere, 1);
        dup2(nowhere, 2);
        execvp(words[0], words);
        _exit(127);
    }
    int fd;
    while ((fd = try_reach(port)) < 0) {
        if (seconds_now() - begin > 20 || waitpid(child, 0, WNOHANG)) fail("the program does not listen");
        usleep(50);
    }
    printf("%.2f\n", (seconds_now() - begin) * 1e3);
    close(fd);
    kill(child, SIGKILL);
    waitpid(child, 0, 0);
}

int main(int count, char **words) {
    signal(SIGPIPE, SIG_IGN);
    if (count == 7 && (!strcmp(words[1], "rate") || !strcmp(words[1], "count"))) {
        int port = atoi(words[3]), is_rate = !strcmp(words[1], "rate");
        prepare(words[2], port);
        load(port, atoi(words[4]), atoi(words[5]), is_rate ? atof(words[6]) : 0, is_rate ? 0 : strtoul(words[6], 0, 10));
    } else if (count == 4 && !strcmp(words[1], "links")) {
        open_and_close(atoi(words[2]), atoi(words[3]));
    } else if (count == 5 && !strcmp(words[1], "latency")) {
        time_calls(words[2], atoi(words[3]), atof(words[4]));
    } else if (count == 4 && !strcmp(words[1], "hold")) {
        hold_links(atoi(words[2]), atoi(words[3]));
    } else if (count == 3 && !strcmp(words[1], "trouble")) {
        trouble(atoi(words[2]));
    } else if (count >= 4 && !strcmp(words[1], "start")) {
        time_start(atoi(words[2]), words + 3);
    } else {
        fail("usage: see the head of bench/serve.c");
    }
    return 0;
}
