/* load: sends a Diameter peer what live/speed measures, and says how long that took.
     load WHAT ADDRESS PORT HOST COUNT   ping, stream, answered, connections or large, as HOST, of application 3
     load answer                         answers each request of standard input, a line of hexadecimal */
#define _GNU_SOURCE
#include <arpa/inet.h>
#include <netinet/tcp.h>
#include <stdbool.h>
#include <stdint.h>
#include <stdio.h>
#include <stdlib.h>
#include <string.h>
#include <sys/socket.h>
#include <time.h>
#include <unistd.h>

enum { CER = 257, DWR = 280, DPR = 282, ACR = 271, REQUEST = 0x80, PROXIABLE = 0x40, LARGEST = 16777212 };
static const char ANSWER[] = "0000010c4000000c000007d1";

struct octets { uint8_t *at; size_t length, room; };
/* what came on a connection and isn't read yet */
struct stream { int fd; uint8_t at[1 << 18]; size_t from, to; };

static const char *host;

static void fail(const char *what) {
    fprintf(stderr, "load: %s\n", what);
    exit(1);
}

static double now(void) {
    struct timespec t;
    clock_gettime(CLOCK_MONOTONIC, &t);
    return (double)t.tv_sec + (double)t.tv_nsec / 1e9;
}

static uint8_t *more(struct octets *o, size_t length) {
    if (o->length + length > o->room && !(o->at = realloc(o->at, o->room = 2 * o->room + length))) fail("memory");
    o->length += length;
    return o->at + o->length - length;
}

static void put_word(struct octets *o, uint32_t word) {
    word = htonl(word);
    memcpy(more(o, 4), &word, 4);
}

static void put_avp(struct octets *o, uint32_t code, uint32_t flags, const void *value, size_t length) {
    put_word(o, code);
    put_word(o, flags << 24 | (uint32_t)(length + 8));
    uint8_t *to = more(o, (length + 3) & ~(size_t)3);
    memset(to, 0, (length + 3) & ~(size_t)3);
    if (value) memcpy(to, value, length);
}

static void put_text(struct octets *o, uint32_t code, const char *text) { put_avp(o, code, 0x40, text, strlen(text)); }

static void put_number(struct octets *o, uint32_t code, uint32_t number) {
    number = htonl(number);
    put_avp(o, code, 0x40, &number, 4);
}

/* begins a message, with Origin-Host and Origin-Realm; `end_message` sets its length */
static size_t begin_message(struct octets *o, uint32_t flags, uint32_t code, uint32_t application, uint32_t number) {
    size_t start = o->length;
    put_word(o, 0), put_word(o, flags << 24 | code), put_word(o, application), put_word(o, number), put_word(o, number);
    if (code == ACR) put_text(o, 263, "b.example;1;2");
    put_text(o, 264, host), put_text(o, 296, "example");
    return start;
}

static void end_message(struct octets *o, size_t start) {
    uint32_t head = htonl(1u << 24 | (uint32_t)(o->length - start));
    memcpy(o->at + start, &head, 4);
}

static void put_watchdog(struct octets *o, uint32_t number) {
    end_message(o, begin_message(o, REQUEST, DWR, 0, number));
}

static void put_request(struct octets *o, uint32_t number, size_t extra) {
    size_t start = begin_message(o, REQUEST | PROXIABLE, ACR, 3, number);
    put_text(o, 283, "example"), put_number(o, 259, 3), put_number(o, 480, 1), put_number(o, 485, number);
    if (extra) put_avp(o, 25, 0x40, NULL, extra - (o->length - start) - 8);
    end_message(o, start);
}

static void send_all(struct stream *s, struct octets *o) {
    for (size_t at = 0; at < o->length;) {
        ssize_t sent = write(s->fd, o->at + at, o->length - at);
        if (sent <= 0) fail("the connection is lost");
        at += (size_t)sent;
    }
    o->length = 0;
}

/* reads so many octets, and answers where they lie; the stream holds no more than its room */
static uint8_t *take(struct stream *s, size_t length) {
    if (s->from + length > sizeof s->at) {
        memmove(s->at, s->at + s->from, s->to - s->from);
        s->to -= s->from, s->from = 0;
    }
    while (s->to - s->from < length) {
        ssize_t came = read(s->fd, s->at + s->to, sizeof s->at - s->to);
        if (came <= 0) fail("the connection is lost");
        s->to += (size_t)came;
    }
    s->from += length;
    return s->at + s->from - length;
}

/* reads a message; its command */
static uint32_t receive(struct stream *s) {
    uint32_t words[2];
    memcpy(words, take(s, 8), 8);
    take(s, (ntohl(words[0]) & 0xffffff) - 8);
    return ntohl(words[1]) & 0xffffff;
}

static void open_stream(struct stream *s, struct octets *o, char **words) {
    struct sockaddr_in to = { .sin_family = AF_INET, .sin_port = htons((uint16_t)atoi(words[3])) };
    int one = 1;
    s->from = s->to = 0;
    s->fd = socket(AF_INET, SOCK_STREAM, 0);
    if (inet_pton(AF_INET, words[2], &to.sin_addr) != 1) fail("address");
    if (connect(s->fd, (struct sockaddr *)&to, sizeof to)) fail("connect");
    setsockopt(s->fd, IPPROTO_TCP, TCP_NODELAY, &one, sizeof one);
    size_t start = begin_message(o, REQUEST, CER, 0, 1);
    put_avp(o, 257, 0x40, "\0\1\x7f\0\0\1", 6), put_number(o, 266, 0);
    put_avp(o, 269, 0, "load", 4), put_number(o, 259, 3);
    end_message(o, start);
    send_all(s, o);
    if (receive(s) != CER) fail("no CEA");
}

static void close_stream(struct stream *s, struct octets *o) {
    size_t start = begin_message(o, REQUEST, DPR, 0, 9);
    put_number(o, 273, 0);
    end_message(o, start);
    send_all(s, o);
    while (receive(s) != DPR) {}
    close(s->fd);
}

static int by_value(const void *a, const void *b) {
    double one = *(const double *)a, two = *(const double *)b;
    return (one > two) - (one < two);
}

/* watchdogs one by one, each behind the answer to the one before */
static void ping(struct stream *s, struct octets *o, uint32_t count) {
    double *times = calloc(count, sizeof *times), began = now(), last = began;
    for (uint32_t i = 0; i < count && times; i++) {
        put_watchdog(o, i + 2);
        send_all(s, o);
        while (receive(s) != DWR) {}
        double at = now();
        times[i] = at - last, last = at;
    }
    if (!times) fail("memory");
    qsort(times, count, sizeof *times, by_value);
    printf("%.0f a second, half within %.0f us, 99 of 100 within %.0f us\n", count / (last - began),
        times[count / 2] * 1e6, times[count * 99ul / 100] * 1e6);
    free(times);
}

/* Requests one behind the other. A watchdog behind them is answered when all are taken; where the requests are answered
   too, by someone beside, their answers are read meanwhile. */
static void stream_of(struct stream *s, uint32_t count, bool answered) {
    struct octets whole = { 0 };
    for (uint32_t i = 0; i < count; i++) put_request(&whole, i, 0);
    size_t length = whole.length / count;
    put_watchdog(&whole, count);
    double began = now();
    if (!answered || !fork()) {
        send_all(s, &whole);
        if (answered) _exit(0);
    }
    for (uint32_t left = answered ? count + 1 : 1; left > 0;) {
        uint32_t command = receive(s);
        left -= command == DWR || (answered && command == ACR);
    }
    printf("%.0f a second, of %zu octets each\n", count / (now() - began), length);
    free(whole.at);
}

/* requests as large as can be, each behind the answer to the one before */
static void large(struct stream *s, struct octets *o, uint32_t count) {
    double began = now();
    for (uint32_t i = 0; i < count; i++) {
        put_request(o, i, LARGEST);
        send_all(s, o);
        while (receive(s) != ACR) {}
    }
    printf("%.3f s each\n", (now() - began) / count);
}

static void connections(struct stream *s, struct octets *o, char **words, uint32_t count) {
    double began = now();
    for (uint32_t i = 0; i < count; i++) {
        open_stream(s, o, words);
        close_stream(s, o);
    }
    printf("%.0f a second\n", count / (now() - began));
}

/* a request's header without R, and behind it a Result-Code of 2001 */
static void answer(void) {
    char *line = NULL;
    size_t room = 0;
    while (getline(&line, &room, stdin) > 40) {
        int flags = (int)strtol((char[]){ line[8], line[9], 0 }, NULL, 16);
        if (!(flags & REQUEST)) continue;
        printf("01000020%02x%.30s%s\n", flags & PROXIABLE, line + 10, ANSWER);
        if (fflush(stdout)) break;
    }
    free(line);
}

int main(int count, char **words) {
    static struct stream s;
    static struct octets o;
    if (count == 2 && !strcmp(words[1], "answer")) {
        answer();
        return 0;
    }
    if (count != 6) fail("words: see load.c");
    uint32_t times = (uint32_t)atoi(words[5]);
    host = words[4];
    if (!strcmp(words[1], "connections")) {
        connections(&s, &o, words, times);
        return 0;
    }
    open_stream(&s, &o, words);
    if (!strcmp(words[1], "ping")) ping(&s, &o, times);
    else if (!strcmp(words[1], "stream")) stream_of(&s, times, false);
    else if (!strcmp(words[1], "answered")) stream_of(&s, times, true);
    else if (!strcmp(words[1], "large")) large(&s, &o, times);
    close_stream(&s, &o);
    return 0;
}
