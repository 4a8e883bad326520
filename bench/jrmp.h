/* The bytes of the protocol as clients of bench/ send and compare them: an opening, some calls of the sample, and their Returns. */
#define _GNU_SOURCE
#include <arpa/inet.h>
#include <ctype.h>
#include <netinet/tcp.h>
#include <poll.h>
#include <stdio.h>
#include <stdlib.h>
#include <string.h>
#include <time.h>
#include <unistd.h>

enum {
    ARRAY = 100000,
    MANY = 10000,
    ROOM = 1 << 20,
    /* Where the identifier of a Return stands in it, and its length. */
    IDENTIFIER = 8,
    IDENTIFIER_LENGTH = 14,
};

static const unsigned char OPENING[] = "JRMI\0\2K\0\0\0\0\0\0";
enum { OPENING_LENGTH = 13, PING = 0x52, PING_ACK = 0x53, ACK = 0x54 };

/* A call, and its Return as far as all Returns of its kind are the same. */
struct exchange {
    unsigned char call[ROOM], wanted[ROOM];
    size_t call_length, wanted_length;
    /* Whether each Return is acknowledged by its identifier. */
    int is_acknowledged;
    /* Whether the Return is taken from the first call, which is made by itself. */
    int is_learned;
    /* How many bytes of each Return are compared, where that is not all of them. */
    size_t compared;
};

static void fail(const char *what) {
    fprintf(stderr, "bench: %s\n", what);
    exit(1);
}

static double seconds_now(void) {
    struct timespec now;
    clock_gettime(CLOCK_MONOTONIC, &now);
    return (double)now.tv_sec + (double)now.tv_nsec / 1e9;
}

/* Appends the bytes that hexadecimal digits spell. */
static void put(unsigned char *to, size_t *length, const char *digits) {
    unsigned byte;
    for (; *digits; digits++) {
        if (isspace((unsigned char)*digits)) continue;
        if (sscanf(digits, "%2x", &byte) != 1) fail("digits");
        to[(*length)++] = (unsigned char)byte;
        digits++;
    }
}

static void put_call(struct exchange *it, const char *digits) {
    put(it->call, &it->call_length, digits);
}

/* A call of an object by a method's hash, without its arguments. */
static void put_head(struct exchange *it, const char *object, const char *hash) {
    put_call(it, "50 ACED0005 77 22");
    put_call(it, object);
    put_call(it, "FFFFFFFF");
    put_call(it, hash);
}

/* A call of get()J, which returns a number: that of the first call, since nobody adds to it meanwhile. */
static void make_get(struct exchange *it, const char *object) {
    put_head(it, object, "E2CA1A08EBC02A8D");
    it->is_learned = 1;
}

/* A call of echo with an array of bytes, which the Return has again. */
static void make_echo(struct exchange *it, const char *object) {
    put_head(it, object, "90BEF25F467880C4");
    put(it->wanted, &it->wanted_length, "51 ACED0005 77 0F 01");
    it->wanted_length += IDENTIFIER_LENGTH;
    size_t from = it->call_length;
    put_call(it, "75 72 0002 5B42 ACF317F8060854E0 02 0000 70 78 70 000186A0");
    for (int i = 0; i < ARRAY; i++) it->call[it->call_length++] = (unsigned char)(i * 7);
    memcpy(it->wanted + it->wanted_length, it->call + from, it->call_length - from);
    it->wanted_length += it->call_length - from;
}

/* A call of make()Lsample/Counter;, whose Returns have the new object's identifier. */
static void make_make(struct exchange *it, const char *object) {
    put_head(it, object, "ACE0B5D2A70B1A38");
    it->is_learned = 1;
    it->compared = IDENTIFIER;
}

/* A call of lookup, by its operation. */
static void make_lookup(struct exchange *it, const char *name) {
    put_call(it, "50 ACED0005 77 22 00000000000000000000000000000000000000000000 00000002 44154DC9D4E63BDF 74 00");
    it->call[it->call_length++] = (unsigned char)strlen(name);
    memcpy(it->call + it->call_length, name, strlen(name));
    it->call_length += strlen(name);
    it->is_learned = it->is_acknowledged = 1;
}

/* The space of an object's identifier, as an object in a stream. */
static void put_space(struct exchange *it, const char *object) {
    char unique[9] = {0}, moment[17] = {0};
    memcpy(unique, object + 16, 8);
    memcpy(moment, object + 24, 16);
    put_call(it, "73 72 0013 6A6176612E726D692E7365727665722E554944 0F12700DBF364F12 02 0003 53 0005 636F756E74 4A 0004 74696D65 49 0006 756E69717565 70 78 70");
    put_call(it, object + 40);
    put_call(it, moment);
    put_call(it, unique);
}

/* An array of one object's identifier, or of so many of its space, from the number 17 on. */
static void put_objects(struct exchange *it, const char *object, int count) {
    char number[20];
    put_call(it, "75 72 0018 5B4C6A6176612E726D692E7365727665722E4F626A49443B 871300B8D02C647E 02 0000 70 78 70");
    snprintf(number, sizeof number, "%08x", count);
    put_call(it, number);
    for (int i = 0; i < count; i++) {
        if (i == 0) put_call(it, "73 72 0015 6A6176612E726D692E7365727665722E4F626A4944 A75EFA128DDCE55C 02 0002 4A 0006 6F626A4E756D 4C 0005 7370616365 74 0015 4C6A6176612F726D692F7365727665722F5549443B 70 78 70");
        else put_call(it, "73 71 007E0002");
        snprintf(number, sizeof number, "%016x", 17 + i);
        if (count == 1) memcpy(number, object, 16);
        put_call(it, number);
        if (i == 0) put_space(it, object);
        else put_call(it, "71 007E0006");
    }
}

/* A call of dirty, by its operation, for some objects of a space: an array of their identifiers, the call's number, and a lease of ten minutes. */
static void make_dirty(struct exchange *it, const char *object, int count) {
    put_call(it, "50 ACED0005 77 22 00000000000000020000000000000000000000000000 00000001 F6B6898D8BF28643");
    put_objects(it, object, count);
    put_call(it, "77 08 8000000000000000");
    put_call(it, "73 72 0012 6A6176612E726D692E6467632E4C65617365 B0B5E2660C4ADC34 02 0002 4A 0005 76616C7565 4C 0004 766D6964 74 0013 4C6A6176612F726D692F6467632F564D49443B 70 78 70 00000000000927C0");
    put_call(it, "73 72 0011 6A6176612E726D692E6467632E564D4944 F8865BAFA4A56DB6 02 0002 5B 0004 61646472 74 0002 5B42 4C 0003 756964");
    put_call(it, "71 007E0003");
    put_call(it, "70 78 70 75 72 0002 5B42 ACF317F8060854E0 02 0000 70 78 70 00000008 0102030405060708");
    put_call(it, "73 71 007E0005 0005 0000000000000004 00000003");
    it->is_learned = 1;
}

/* A ping: its answer is one byte. */
static void make_ping(struct exchange *it) {
    it->call[it->call_length++] = PING;
    it->wanted[it->wanted_length++] = PING_ACK;
}

/* The call of a kind, of an object whose identifier is 44 hexadecimal digits. */
static void make_exchange(struct exchange *it, const char *kind, const char *object) {
    if (!strcmp(kind, "ping")) make_ping(it);
    else if (!strcmp(kind, "get")) make_get(it, object);
    else if (!strcmp(kind, "echo")) make_echo(it, object);
    else if (!strcmp(kind, "make")) make_make(it, object);
    else if (!strcmp(kind, "lookup") || !strcmp(kind, "names")) make_lookup(it, "counter");
    else if (!strcmp(kind, "dirty")) make_dirty(it, object, 1);
    else if (!strcmp(kind, "dirties")) make_dirty(it, object, MANY);
    else fail("no such kind of call");
}

/* Connects to a port of this machine, or returns -1. */
static int try_reach(int port) {
    struct sockaddr_in at = {.sin_family = AF_INET, .sin_port = htons((unsigned short)port), .sin_addr.s_addr = htonl(INADDR_LOOPBACK)};
    int one = 1, fd = socket(AF_INET, SOCK_STREAM, 0);
    if (fd < 0) fail("socket");
    if (connect(fd, (struct sockaddr *)&at, sizeof at)) {
        close(fd);
        return -1;
    }
    setsockopt(fd, IPPROTO_TCP, TCP_NODELAY, &one, sizeof one);
    return fd;
}

static void write_all(int to, const unsigned char *bytes, size_t length) {
    while (length) {
        ssize_t n = write(to, bytes, length);
        if (n <= 0) fail("the server takes no more");
        bytes += n;
        length -= (size_t)n;
    }
}

static void read_all(int from, unsigned char *bytes, size_t length) {
    while (length) {
        ssize_t n = read(from, bytes, length);
        if (n <= 0) fail("the server ended");
        bytes += n;
        length -= (size_t)n;
    }
}

/* Reads the acknowledgement of an opening. */
static void read_greeting(int from) {
    unsigned char head[3], rest[65536 + 4];
    read_all(from, head, 3);
    if (head[0] != 0x4E) fail("no acknowledgement");
    read_all(from, rest, (size_t)(head[1] << 8 | head[2]) + 4);
}

/* Writes the opening, and reads its acknowledgement. */
static void greet(int to, int from) {
    write_all(to, OPENING, OPENING_LENGTH);
    read_greeting(from);
}

/* Makes one call by itself, and takes what comes as the Return of all calls. It is whole once nothing more comes for a while. */
static void learn(struct exchange *it, int to, int from) {
    struct pollfd ready = {.fd = from, .events = POLLIN};
    write_all(to, it->call, it->call_length);
    while (poll(&ready, 1, it->wanted_length ? 100 : 10000) > 0) {
        ssize_t n = read(from, it->wanted + it->wanted_length, sizeof it->wanted - it->wanted_length);
        if (n <= 0) fail("the server ended");
        it->wanted_length += (size_t)n;
    }
    if (it->wanted_length < IDENTIFIER + IDENTIFIER_LENGTH || it->wanted[0] != 0x51 || it->wanted[7] != 1) fail("no normal Return");
}

/* Puts the acknowledgement of a Return with this identifier. */
static size_t put_ack(unsigned char *to, const unsigned char *identifier) {
    to[0] = ACK;
    memcpy(to + 1, identifier, IDENTIFIER_LENGTH);
    return 1 + IDENTIFIER_LENGTH;
}

/* Compares bytes of an answer from a place of it on. The identifier of a Return is kept instead. */
static void compare(const struct exchange *it, const unsigned char *bytes, size_t place, size_t length, unsigned char *identifier) {
    size_t end = place + length, compared = it->compared ? it->compared : it->wanted_length;
    while (place < end) {
        size_t to = end;
        if (place >= IDENTIFIER && place < IDENTIFIER + IDENTIFIER_LENGTH) {
            if (to > IDENTIFIER + IDENTIFIER_LENGTH) to = IDENTIFIER + IDENTIFIER_LENGTH;
            memcpy(identifier + (place - IDENTIFIER), bytes, to - place);
        } else {
            if (place < IDENTIFIER && to > IDENTIFIER) to = IDENTIFIER;
            if (to <= compared && memcmp(bytes, it->wanted + place, to - place)) fail("another answer");
        }
        bytes += to - place;
        place = to;
    }
}
