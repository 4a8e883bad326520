/* A client that keeps 16 calls in flight on one connection, whatever the server is: a program over pipes, or a port of this machine.

   usage: calls get|echo|list|lookup|names|dirty|dirties COUNT NUMBER (PROGRAM [WORD..] | PORT)

   NUMBER is the object's, in 16 hexadecimal digits: its space is that of the reference that a lookup answers first. A call of get()J has no argument, one of echo the same array of 100,000 bytes each
   time, and one of list, which echoes too, an array of references to 10,000 objects that are made first: four such Returns,
   beside the first, are as many as may await their acknowledgement. lookup looks the name `counter` up and acknowledges each Return, and so does names,
   among as many names as the registry takes, which are bound first; dirty takes hold of the object, dirties of 10,000 objects of its space, from the number 17 on.
   All Returns of a kind have the same length, and differ in their identifiers alone: each is compared with what was sent or with the first, but for that.
   It prints the seconds from the first call to the last Return, and the greatest memory of the program in kB, 0 for a port. */
#include "jrmp.h"

#include <fcntl.h>
#include <signal.h>
#include <sys/resource.h>
#include <sys/wait.h>

enum {
    WINDOW = 16,
    /* How many names a registry has at most, and how many the sample has. */
    NAMES = 4096,
    OWN_NAMES = 3,
};

static struct exchange exchange;
static unsigned char got[ROOM];

/* Starts the program, whose input and output are then these descriptors. */
static pid_t start(char **words, int *to, int *from) {
    int in[2], out[2];
    if (pipe(in) || pipe(out)) fail("pipe");
    fcntl(in[0], F_SETPIPE_SZ, ROOM);
    fcntl(out[0], F_SETPIPE_SZ, ROOM);
    pid_t child = fork();
    if (child < 0) fail("fork");
    if (!child) {
        dup2(in[0], 0);
        dup2(out[1], 1);
        close(in[1]);
        close(out[0]);
        execvp(words[0], words);
        _exit(127);
    }
    close(in[0]);
    close(out[1]);
    *to = in[1];
    *from = out[0];
    return child;
}

/* Binds names to the object of a lookup's Return, until the registry has as many as it takes. */
static void bind_names(const struct exchange *it, int to, int from) {
    const size_t result = IDENTIFIER + IDENTIFIER_LENGTH;
    for (int i = OWN_NAMES; i < NAMES; i++) {
        static struct exchange bind;
        unsigned char answer[IDENTIFIER + IDENTIFIER_LENGTH];
        bind.call_length = 0;
        put_call(&bind, "50 ACED0005 77 22 00000000000000000000000000000000000000000000 00000000 44154DC9D4E63BDF 74 0005");
        bind.call_length += (size_t)sprintf((char *)bind.call + bind.call_length, "n%04d", i);
        memcpy(bind.call + bind.call_length, it->wanted + result, it->wanted_length - result);
        bind.call_length += it->wanted_length - result;
        write_all(to, bind.call, bind.call_length);
        read_all(from, answer, sizeof answer);
        if (answer[0] != 0x51 || answer[7] != 1) fail("a name isn't bound");
    }
}

/* The identifier, in hexadecimal digits, of the object that has this number in the server's space. The space stands near the end of a reference, before a flag and a mark. */
static void find_object(char object[45], const char *number, int to, int from) {
    static struct exchange looked;
    make_lookup(&looked, "counter");
    learn(&looked, to, from);
    const unsigned char *space = looked.wanted + looked.wanted_length - 2 - IDENTIFIER_LENGTH;
    int length = snprintf(object, 17, "%s", number);
    if (length != 16) fail("an object's number has 16 digits");
    for (int i = 0; i < IDENTIFIER_LENGTH; i++) length += snprintf(object + length, 3, "%02x", space[i]);
}

/* Makes objects one after another, by a call of the sample's maker in this object's space. */
static void make_objects(const char *object, int count, int to, int from) {
    static struct exchange making;
    static unsigned char answer[ROOM];
    char maker[45];
    snprintf(maker, sizeof maker, "%016x%s", 18, object + 16);
    make_make(&making, maker);
    learn(&making, to, from);
    for (int i = 1; i < count; i++) {
        write_all(to, making.call, making.call_length);
        read_all(from, answer, making.wanted_length);
    }
}

/* A call of echo with an array of references to objects that are made first, which are the space's next ones. */
static void make_list(struct exchange *it, const char *object, int to, int from) {
    static struct exchange looked;
    make_lookup(&looked, "counter");
    learn(&looked, to, from);
    make_objects(object, MANY, to, from);
    /* A reference ends with a block, which is its note: the kind and the endpoint, the object's number, its space and a flag; and a mark. */
    const size_t number = 8 + IDENTIFIER_LENGTH + 1 + 1;
    size_t first = IDENTIFIER + IDENTIFIER_LENGTH, note = first;
    while (looked.wanted[note] != 0x77 || note + 2 + looked.wanted[note + 1] + 1 != looked.wanted_length) note++;
    it->call_length = it->wanted_length = 0;
    put_head(it, object, "90BEF25F467880C4");
    put_call(it, "75 72 0013 5B4C6A6176612E6C616E672E4F626A6563743B 90CE589F1073296C 02 0000 70 78 70");
    char digits[17];
    snprintf(digits, sizeof digits, "%08x", MANY);
    put_call(it, digits);
    for (int i = 0; i < MANY; i++) {
        size_t from_byte = i ? note : first;
        if (i) put_call(it, "73 71 007E0002 73 71 007E0006");
        memcpy(it->call + it->call_length, looked.wanted + from_byte, looked.wanted_length - from_byte);
        it->call_length += looked.wanted_length - from_byte;
        snprintf(digits, sizeof digits, "%016x", 19 + i);
        size_t end = it->call_length;
        it->call_length = end - number;
        put_call(it, digits);
        it->call_length = end;
    }
    it->is_learned = 1;
    learn(it, to, from);
}

/* What is yet to be written. */
static unsigned char *queue;
static size_t queue_begin, queue_end, queue_room;

static void enqueue(const unsigned char *bytes, size_t length) {
    if (queue_begin == queue_end) queue_begin = queue_end = 0;
    if (queue_end + length > queue_room) {
        memmove(queue, queue + queue_begin, queue_end - queue_begin);
        queue_end -= queue_begin;
        queue_begin = 0;
        if (queue_end + length > queue_room && !(queue = realloc(queue, queue_room = 2 * (queue_end + length)))) fail("memory");
    }
    memcpy(queue + queue_end, bytes, length);
    queue_end += length;
}

/* How many Returns were taken, and how much of the next one. */
static unsigned long done;
static size_t done_part;

/* Takes bytes of Returns, and acknowledges each that is whole. */
static void take(const unsigned char *bytes, size_t length) {
    static unsigned char identifier[IDENTIFIER_LENGTH];
    while (length) {
        unsigned char ack[1 + IDENTIFIER_LENGTH];
        size_t part = exchange.wanted_length - done_part;
        if (part > length) part = length;
        compare(&exchange, bytes, done_part, part, identifier);
        bytes += part;
        length -= part;
        done_part += part;
        if (done_part < exchange.wanted_length) continue;
        done++;
        done_part = 0;
        if (exchange.is_acknowledged) enqueue(ack, put_ack(ack, identifier));
    }
}

/* Makes so many calls. */
static void make_calls(int to, int from, unsigned long count) {
    for (unsigned long sent = 0; done < count;) {
        for (; sent < count && sent - done < WINDOW; sent++) enqueue(exchange.call, exchange.call_length);
        struct pollfd ready[2] = {{.fd = from, .events = POLLIN}, {.fd = to, .events = POLLOUT}};
        if (poll(ready, queue_begin < queue_end ? 2 : 1, -1) < 0) fail("poll");
        if (queue_begin < queue_end && ready[1].revents) {
            ssize_t n = write(to, queue + queue_begin, queue_end - queue_begin);
            if (n > 0) queue_begin += (size_t)n;
        }
        if (ready[0].revents) {
            ssize_t n = read(from, got, sizeof got);
            if (n == 0) fail("the server ended");
            if (n > 0) take(got, (size_t)n);
        }
    }
}

int main(int count_words, char **words) {
    if (count_words < 5) fail("usage: calls get|echo|list|lookup|names|dirty|dirties COUNT NUMBER (PROGRAM [WORD..] | PORT)");
    int to, from;
    pid_t child = 0;
    int is_list = !strcmp(words[1], "list");
    char object[45];
    signal(SIGPIPE, SIG_IGN);
    if (isdigit((unsigned char)words[4][0])) {
        to = from = try_reach(atoi(words[4]));
        if (to < 0) fail("connect");
    } else {
        child = start(words + 4, &to, &from);
    }
    greet(to, from);
    find_object(object, words[3], to, from);
    if (is_list) make_list(&exchange, object, to, from);
    else make_exchange(&exchange, words[1], object);
    if (!is_list && exchange.is_learned) learn(&exchange, to, from);
    if (!strcmp(words[1], "names")) bind_names(&exchange, to, from);
    fcntl(to, F_SETFL, O_NONBLOCK);
    fcntl(from, F_SETFL, O_NONBLOCK);

    double begin = seconds_now();
    make_calls(to, from, strtoul(words[2], 0, 10));
    double end = seconds_now();
    close(to);
    struct rusage used = {0};
    if (child) {
        int status;
        wait4(child, &status, 0, &used);
        if (!WIFEXITED(status) || WEXITSTATUS(status)) fail("the program's status");
    }
    printf("%.3f %ld\n", end - begin, used.ru_maxrss);
    return 0;
}
