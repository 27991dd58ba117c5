/* driver: sockets and clocks for Diameter peers, the program dmlive, which runs as its child over two pipes. */
#define _GNU_SOURCE
#include <errno.h>
#include <fcntl.h>
#include <getopt.h>
#include <netdb.h>
#include <netinet/in.h>
#include <netinet/tcp.h>
#include <poll.h>
#include <signal.h>
#include <stdarg.h>
#include <stdbool.h>
#include <stdint.h>
#include <stdio.h>
#include <stdlib.h>
#include <string.h>
#include <sys/resource.h>
#include <sys/socket.h>
#include <sys/stat.h>
#include <sys/wait.h>
#include <time.h>
#include <unistd.h>

/* connections, and files of other kinds; listeners; lines of a configuration */
enum { MOST_LINKS = 1000, MOST_FILES = 24, MOST_LISTENERS = 8, MOST_LINES = 1000 };
/* octets: read at once, kept of an empty buffer, and queued at most where standard input goes on; of a line of standard
   input, which is that of the greatest message (RFC 6733, 3) and some room */
enum { PIECE = 1 << 18, MOST_KEPT = 1 << 20, MOST_WAITING = 1 << 20, MOST_OF_LINE = (1 << 25) + 1024 };
/* milliseconds: for a connect, the first message of an accepted connection, what follows a close, and the end */
enum { CONNECT_TIME = 10000, FIRST_TIME = 10000, CLOSE_TIME = 2000, END_TIME = 5000, LOOK_AGAIN = 1000 };
static const int64_t NEVER = INT64_MAX;

/* octets from..to of what lies at `at`; none of the first `seen` of them is a LF */
struct buffer { char *at; size_t from, to, room, seen; };

/* A neighbour, in the order of the lines `peer`: where it is called, if it is; how its peer stands, and on which number
   it is open; when its clock is over; and the lines of standard input for it that wait for an open connection. */
struct neighbour {
    char host[256], port[32], state[160];
    bool is_closed, is_open;
    uint64_t open_number;
    int64_t due;
    struct buffer waiting;
};

/* A connection, of a neighbour or of nobody yet. Its number is never used again, as its descriptor may be. At `until`
   its clock is over. */
struct link {
    struct neighbour *of;
    uint64_t number;
    int fd;
    bool connecting, heard, closing, finished, ended, dead;
    int64_t until;
    struct buffer out;
    struct addrinfo *addresses, *next_address;
};

static struct link **links;
static struct neighbour *neighbours;
static struct pollfd *polls;
static size_t link_count, link_room, poll_room, neighbour_count;
static int listeners[MOST_LISTENERS], listener_count;
static int64_t watchdog = 30000, reconnect = 30000, timeout = 30000, end_at = INT64_MAX, written_at;
static uint64_t queue_most = 32 << 20;
static size_t batch_most, link_most = MOST_LINKS;
static int to_peer, from_peer, output_to = 1, orders_out, verbose;
static pid_t peer_process;
static struct buffer input, output, answers, orders;
static bool input_ended, line_waits, line_skipped;
static uint64_t last_number, handed_up, handed_up_most = UINT64_MAX;
static volatile sig_atomic_t signalled;

static void fail(const char *what) {
    perror(what);
    exit(3);
}

/* the end begins as by a first signal; a second one of the user's ends at once */
static void ask_end(void) {
    if (!signalled) signalled = 1;
}

static int64_t now(void) {
    struct timespec t;
    clock_gettime(CLOCK_MONOTONIC, &t);
    return t.tv_sec * 1000 + t.tv_nsec / 1000000;
}

static int64_t about(int64_t time, int64_t either_way) {
    return time - either_way + (either_way > 0 ? random() % (2 * either_way + 1) : 0);
}

static void say(const char *sign, const char *text, size_t length) {
    static int64_t begun;
    if (!verbose) return;
    if (!begun) begun = now();
    int shown = verbose > 1 || length < 100 ? (int)length : 100;
    fprintf(stderr, "%9.3f %s %.*s%s\n", (now() - begun) / 1e3, sign, shown, text, shown < (int)length ? ".." : "");
}

/* Buffers */

static char *room_for(struct buffer *b, size_t more) {
    if (b->room - b->to < more && b->from && b->from >= b->to - b->from) {
        memmove(b->at, b->at + b->from, b->to - b->from);
        b->to -= b->from, b->from = 0;
    }
    if (b->room - b->to < more) {
        b->room = 2 * b->room + more;
        if (!(b->at = realloc(b->at, b->room))) fail("driver: memory");
    }
    return b->at + b->to;
}

static void put(struct buffer *b, const void *octets, size_t length) {
    memcpy(room_for(b, length), octets, length);
    b->to += length;
}

static size_t held(const struct buffer *b) { return b->to - b->from; }

static void take(struct buffer *b, size_t length) {
    b->from += length;
    b->seen = 0;
    if (b->from < b->to) return;
    b->from = b->to = 0;
    if (b->room > MOST_KEPT) {
        free(b->at);
        *b = (struct buffer){ 0 };
    }
}

/* the first whole line, which stays in the buffer; NULL where there is none */
static char *whole_line(struct buffer *b, size_t *length) {
    char *start = b->at + b->from, *end = held(b) ? memchr(start + b->seen, '\n', held(b) - b->seen) : NULL;
    b->seen = end ? (size_t)(end - start) : held(b);
    if (end) *length = end - start;
    return end ? start : NULL;
}

/* Connections */

/* most often the one that was found last */
static struct link *find(uint64_t number) {
    static size_t last;
    if (last < link_count && links[last]->number == number && !links[last]->dead) return links[last];
    for (last = 0; last < link_count; last++)
        if (links[last]->number == number && !links[last]->dead) return links[last];
    return NULL;
}

static struct link *add_link(uint64_t number, int fd) {
    if (link_count == link_room) {
        link_room = 2 * link_room + 16;
        links = realloc(links, link_room * sizeof *links);
    }
    struct link *link = calloc(1, sizeof *link);
    if (!links || !link) fail("driver: memory");
    link->number = number, link->fd = fd, link->until = NEVER;
    return links[link_count++] = link;
}

static void shut(struct link *link) {
    if (link->fd >= 0) close(link->fd);
    link->fd = -1;
}

static void drop(struct link *link) {
    shut(link);
    link->dead = true;
}

static void free_dead(void) {
    size_t kept = 0;
    for (size_t i = 0; i < link_count; i++) {
        struct link *link = links[i];
        if (!link->dead) {
            links[kept++] = link;
            continue;
        }
        if (link->addresses) freeaddrinfo(link->addresses);
        free(link->out.at);
        free(link);
    }
    link_count = kept;
}

static void set_options(int fd) {
    int one = 1;
    setsockopt(fd, IPPROTO_TCP, TCP_NODELAY, &one, sizeof one);
}

/* Sends what can be sent now. Behind the last octet of a closing connection goes its FIN. A failure to write is left to
   the next read, since what came before it can still be read. */
static void flush(struct link *link) {
    while (held(&link->out)) {
        ssize_t sent = send(link->fd, link->out.at + link->out.from, held(&link->out), MSG_NOSIGNAL);
        if (sent < 0 && errno == EINTR) continue;
        if (sent < 0 && errno == EAGAIN) return;
        take(&link->out, sent < 0 ? held(&link->out) : (size_t)sent);
    }
    if (!link->closing) return;
    if (link->ended) drop(link);
    else if (!link->finished) shutdown(link->fd, SHUT_WR);
    link->finished = true;
}

/* Sends what is queued, then FIN, and reads on for a while: a plain close with something unread makes the system send a
   reset, which may destroy what was just sent before the other side reads it. */
static void close_link(struct link *link) {
    if (!link || link->dead || link->closing) return;
    if (link->connecting) {
        drop(link);
        return;
    }
    link->closing = true;
    link->until = now() + CLOSE_TIME;
    flush(link);
}

/* begins to connect to the next address; where there is none the connection's clock is over at once */
static void connect_next(struct link *link) {
    for (shut(link); link->fd < 0 && link->next_address; link->next_address = link->next_address->ai_next) {
        struct addrinfo *to = link->next_address;
        link->fd = socket(to->ai_family, SOCK_STREAM | SOCK_NONBLOCK | SOCK_CLOEXEC, 0);
        if (link->fd >= 0 && connect(link->fd, to->ai_addr, to->ai_addrlen) < 0 && errno != EINPROGRESS) shut(link);
    }
    link->until = link->fd < 0 ? 0 : now() + CONNECT_TIME;
}

static void begin_connect(uint64_t number, struct neighbour *to) {
    struct addrinfo hints = { .ai_socktype = SOCK_STREAM };
    struct link *link = add_link(number, -1);
    link->connecting = link->heard = true;
    link->of = to;
    int fault = getaddrinfo(to->host, to->port, &hints, &link->addresses);
    if (fault) {
        link->addresses = NULL;
        fprintf(stderr, "driver: connect %s %s: %s\n", to->host, to->port, gai_strerror(fault));
    }
    link->next_address = link->addresses;
    connect_next(link);
}

/* Hexadecimal, in loops that the compiler turns into vectors */

static void put_digits(char *restrict to, const uint8_t *restrict octets, size_t count) {
    for (size_t i = 0; i < count; i++) {
        unsigned high = octets[i] >> 4, low = octets[i] & 15;
        to[2 * i] = (char)(high + '0' + (high > 9 ? 'a' - '9' - 1 : 0));
        to[2 * i + 1] = (char)(low + '0' + (low > 9 ? 'a' - '9' - 1 : 0));
    }
}

/* of a digit in lower case; a letter's bit 6 is set */
static inline unsigned worth(char digit) { return (digit & 15u) + 9 * ((uint8_t)digit >> 6); }

static void put_octets(char *restrict to, const char *restrict digits, size_t count) {
    for (size_t i = 0; i < count; i++) to[i] = (char)(worth(digits[2 * i]) << 4 | worth(digits[2 * i + 1]));
}

/* appends octets in hexadecimal to what is to be sent; past the bound the connection is lost */
static void queue(struct link *link, const char *hexadecimal, size_t length) {
    size_t octets = length / 2;
    if (link->dead || link->closing || link->until == 0) return;
    if (held(&link->out) + octets > queue_most) flush(link);
    if (held(&link->out) + octets > queue_most) {
        fprintf(stderr, "driver: connection %llu reads too slowly\n", (unsigned long long)link->number);
        link->until = 0;
        return;
    }
    put_octets(room_for(&link->out, octets), hexadecimal, octets);
    link->out.to += octets;
}

/* The peer: orders and answers */

static bool begins(const char *line, const char *with) { return !strncmp(line, with, strlen(with)); }

static char *next_answer(size_t *length) {
    char *line;
    while (!(line = whole_line(&answers, length))) {
        ssize_t came = read(from_peer, room_for(&answers, PIECE), PIECE);
        if (came < 0 && errno == EINTR) continue;
        if (came <= 0) {
            fprintf(stderr, "driver: dmlive ended\n");
            exit(3);
        }
        answers.to += came;
    }
    line[*length] = 0;
    return line;
}

/* sets the clock of the state anew */
static void set_due(struct neighbour *it) {
    if (it->is_open) it->due = now() + about(watchdog, watchdog < 6000 ? watchdog / 3 : 2000);
    else if (!it->is_closed) it->due = now() + timeout;
    else it->due = reconnect && *it->host ? now() + about(reconnect, reconnect / 6) : NEVER;
}

static void set_state(struct neighbour *it, const char *state) {
    if (!strcmp(state, it->state)) return;
    snprintf(it->state, sizeof it->state, "%s", state);
    it->is_closed = !strcmp(state, "Closed");
    it->is_open = begins(state, "I-Open") || begins(state, "R-Open");
    char *held = it->is_open ? strstr(it->state, *state == 'I' ? " i" : " r") : NULL;
    it->open_number = held ? strtoull(held + 2, NULL, 10) : 0;
    set_due(it);
}

/* a whole message came; nobody's is a stranger's */
static void hear(struct neighbour *it, uint64_t number) {
    struct link *link = find(number);
    if (it && it->is_open && number == it->open_number) set_due(it);
    if (!link || link->heard) return;
    link->of = it;
    link->heard = true;
    link->until = NEVER;
}

/* of several neighbours, with the number of the one that it came from */
static void hand_up(const struct neighbour *from, const char *hexadecimal, size_t length) {
    char number[32];
    if (neighbour_count > 1) put(&output, number, (size_t)sprintf(number, "%zu ", from - neighbours));
    put(&output, hexadecimal, length);
    put(&output, "\n", 1);
    handed_up++;
}

/* writes what standard output takes now; where nobody reads it any more all ends */
static void write_output(void) {
    while (held(&output)) {
        ssize_t sent = write(output_to, output.at + output.from, held(&output));
        if (sent < 0 && errno == EINTR) continue;
        if (sent < 0 && errno == EAGAIN) return;
        if (sent < 0) ask_end();
        take(&output, sent < 0 ? held(&output) : (size_t)sent);
        written_at = now();
    }
}

/* What is queued for the same connection, by one answer or several, is sent at once: behind the last answer of an
   exchange, or where another connection's turn comes. */
static struct link *unsent;

static void send_unsent(struct link *next) {
    if (unsent && unsent != next && !unsent->dead && unsent->until) flush(unsent);
    unsent = next;
}

static void obey_send(uint64_t number, const char *hexadecimal, size_t length) {
    struct link *link = find(number);
    if (!link) return;
    send_unsent(link);
    queue(link, hexadecimal, length);
}

/* The neighbour of which the lines of an answer are, of several the one that it named last. */
static struct neighbour *concerned;

static void set_concerned(uint64_t number) { concerned = number < neighbour_count ? &neighbours[number] : NULL; }

static void begin_answer(void) { concerned = neighbour_count == 1 ? neighbours : NULL; }

static void obey_state(const char *words) {
    char *state = (char *)words;
    if (neighbour_count > 1) set_concerned(strtoull(words, &state, 10)), state++;
    if (concerned) set_state(concerned, state);
}

static void obey_other(const char *line, uint64_t number) {
    if (begins(line, "close ")) close_link(find(number));
    else if (begins(line, "connect ") && concerned) begin_connect(number, concerned);
    else if (begins(line, "state ")) obey_state(line + 6);
    else if (strcmp(line, "ignored")) fprintf(stderr, "driver: dmlive: %s\n", line);
}

static void obey_line(const char *line, size_t length) {
    const char *word = strchr(line, ' ');
    char *behind = NULL;
    uint64_t number = word && *line != 'u' ? strtoull(word + 1, &behind, 10) : 0;
    if (begins(line, "send ")) obey_send(number, behind + 1, length - (behind + 1 - line));
    else if (begins(line, "arrived ")) hear(concerned, number);
    else if (begins(line, "up ") && concerned) hand_up(concerned, line + 3, length - 3);
    else if (begins(line, "neighbour ")) set_concerned(number);
    else obey_other(line, number);
}

/* writes the orders that wait, and obeys the answer of each */
static void exchange(void) {
    while (held(&orders)) {
        ssize_t sent = write(to_peer, orders.at + orders.from, held(&orders));
        if (sent < 0 && errno != EINTR) fail("driver: dmlive");
        if (sent > 0) take(&orders, sent);
    }
    while (orders_out > 0) {
        size_t length;
        char *line = next_answer(&length);
        if (!strcmp(line, ".")) orders_out--, begin_answer();
        else say(" ", line, length), obey_line(line, length);
        take(&answers, length + 1);
    }
    send_unsent(NULL);
    write_output();
}

/* an order that was put from `start` on is whole */
static void end_order(size_t start) {
    say(">", orders.at + orders.from + start, held(&orders) - start);
    put(&orders, "\n", 1);
    orders_out++;
}

/* one order more waits, of its words and of what is behind them */
static void put_order(const char *words, const char *rest, size_t length) {
    size_t start = held(&orders);
    put(&orders, words, strlen(words));
    put(&orders, rest, length);
    end_order(start);
}

static void put_order_of(const char *order, uint64_t number) {
    char words[64];
    snprintf(words, sizeof words, "%s %llu", order, (unsigned long long)number);
    put_order(words, "", 0);
}

/* one order more waits, for a neighbour, with what is behind its number */
static void put_order_for(const struct neighbour *to, const char *order, const char *rest, size_t length) {
    char words[64];
    int width = snprintf(words, sizeof words, neighbour_count > 1 ? "%s %zu" : "%s", order, to - neighbours);
    if (length) words[width++] = ' ', words[width] = 0;
    put_order(words, rest, length);
}

static void tell_of(const char *order, uint64_t number) {
    put_order_of(order, number);
    exchange();
}

static void tell_for(const struct neighbour *to, const char *order, const char *rest) {
    put_order_for(to, order, rest, strlen(rest));
    exchange();
}

static void tell_start(const struct neighbour *to) {
    char number[32];
    snprintf(number, sizeof number, "%llu", (unsigned long long)++last_number);
    tell_for(to, "start", number);
}

static void tell_octets(uint64_t number, const uint8_t *octets, size_t length) {
    size_t start = held(&orders);
    char words[64];
    int width = snprintf(words, sizeof words, "octets %llu ", (unsigned long long)number);
    put(&orders, words, (size_t)width);
    put_digits(room_for(&orders, 2 * length), octets, length);
    orders.to += 2 * length;
    end_order(start);
    exchange();
}

/* What happens at sockets */

/* the connection is over, and dmlive is told so, where that didn't close it itself */
static void lose(struct link *link) {
    bool connecting = link->connecting;
    drop(link);
    if (!link->closing) tell_of(connecting ? "nack" : "gone", link->number);
}

static void end_connect(struct link *link) {
    int fault = 0;
    socklen_t size = sizeof fault;
    getsockopt(link->fd, SOL_SOCKET, SO_ERROR, &fault, &size);
    if (fault) {
        connect_next(link);
        return;
    }
    link->connecting = false;
    link->until = NEVER;
    set_options(link->fd);
    tell_of("ack", link->number);
}

static void read_link(struct link *link) {
    static uint8_t piece[PIECE];
    ssize_t came = read(link->fd, piece, PIECE);
    if (came < 0 && (errno == EAGAIN || errno == EINTR)) return;
    if (came > 0 && link->closing) return;
    if (came > 0) tell_octets(link->number, piece, came);
    else if (came < 0) lose(link);
    else {
        link->ended = true;
        if (!link->closing) tell_of("gone", link->number);
        if (link->closing && !link->dead) flush(link);
        close_link(link);
    }
}

/* Its order waits for the next one: nothing comes of it alone. */
static void accept_link(int listener) {
    int fd = accept4(listener, NULL, NULL, SOCK_NONBLOCK | SOCK_CLOEXEC);
    if (fd < 0) return;
    struct link *link = add_link(++last_number, fd);
    link->until = now() + FIRST_TIME;
    set_options(fd);
    put_order_of("accept", link->number);
}

static void serve_link(struct link *link, short events) {
    if (!events || link->dead || link->fd < 0) return;
    if (link->connecting) {
        end_connect(link);
        return;
    }
    if (events & POLLOUT) flush(link);
    if (!link->dead && !link->ended && events & (POLLIN | POLLHUP | POLLERR)) read_link(link);
}

/* Standard input */

static bool can_submit(const struct neighbour *to) {
    struct link *link = to->is_open ? find(to->open_number) : NULL;
    return link && held(&link->out) < MOST_WAITING;
}

static void read_input(void) {
    ssize_t came = read(0, room_for(&input, PIECE), PIECE);
    if (came < 0 && (errno == EAGAIN || errno == EINTR)) return;
    if (came > 0) input.to += came;
    else input_ended = true;
    if (input_ended && held(&input) && input.at[input.to - 1] != '\n') put(&input, "\n", 1);
}

/* the first line that waits, ended by a 0; of one that is too long nothing is kept */
static char *input_line(size_t *length) {
    char *line = whole_line(&input, length);
    bool is_long = (line ? *length : held(&input)) > MOST_OF_LINE;
    if (is_long && !line_skipped) fprintf(stderr, "driver: a line of more than %d octets is skipped\n", MOST_OF_LINE);
    if (line && (is_long || line_skipped)) {
        line_skipped = false;
        take(&input, *length + 1);
        return input_line(length);
    }
    if (is_long) {
        line_skipped = true;
        take(&input, held(&input));
    }
    if (line) line[*length] = 0;
    return line;
}

/* the neighbour that a line of standard input names by its number, of several, and what stands behind that; NULL where
   it names none */
static struct neighbour *named(const char **line) {
    char *behind;
    if (neighbour_count == 1) return neighbours;
    uint64_t number = strtoull(*line, &behind, 10);
    if (**line < '0' || **line > '9' || number >= neighbour_count || (*behind && *behind != ' ')) return NULL;
    *line = behind + (*behind == ' ');
    return &neighbours[number];
}

/* The order that a line is: `start`, `stop` or `sender`, told at once; NULL where it is none. */
static const char *order_of(const char *line) {
    static const char *const names[] = { "start", "stop", "sender" };
    for (size_t i = 0; i < sizeof names / sizeof *names; i++)
        if (begins(line, names[i]) && (!line[strlen(names[i])] || line[strlen(names[i])] == ' ')) return names[i];
    return NULL;
}

/* Tells the order of a line; false where it is none. */
static bool tell_line(const char *line) {
    const char *order = order_of(line), *rest = order ? line + strlen(order) : NULL;
    if (!order) return false;
    rest += *rest == ' ';
    struct neighbour *to = named(&rest);
    bool is_start = *order == 's' && order[2] == 'a';
    if (to && is_start && !*rest) tell_start(to);
    else if (to && !is_start) tell_for(to, order, rest);
    else if (is_start && neighbour_count == 1) return false;
    else fprintf(stderr, "driver: %s: which neighbour?\n", line);
    return true;
}

/* Submits a message, or keeps it until its neighbour's connection is open: of several, since one that isn't must not
   keep the others waiting. False where it is to wait in standard input. */
static bool submit_line(const char *line, size_t length) {
    const char *rest = line;
    struct neighbour *to = named(&rest);
    length -= (size_t)(rest - line);
    if (!to) fprintf(stderr, "driver: a line for no neighbour is skipped\n");
    else if (!held(&to->waiting) && can_submit(to)) put_order_for(to, "submit", rest, length);
    else if (neighbour_count == 1 || held(&to->waiting) >= MOST_WAITING) return false;
    else put(&to->waiting, rest, length), put(&to->waiting, "\n", 1);
    return true;
}

/* Takes the first line that waits; false where none waits, or it is to wait on. Submits go to dmlive many at once. */
static bool take_line(void) {
    size_t length;
    char *line = input_line(&length);
    if (!(line_waits = line)) return false;
    bool order = order_of(line);
    if (order || held(&orders) + length > batch_most) exchange();
    if (length && !tell_line(line) && !submit_line(line, length)) {
        line[length] = '\n';
        return false;
    }
    take(&input, length + 1);
    return true;
}

/* submits what waited for a neighbour's open connection */
static void take_waiting(struct neighbour *to) {
    size_t length;
    for (char *line; can_submit(to) && (line = whole_line(&to->waiting, &length)); take(&to->waiting, length + 1)) {
        put_order_for(to, "submit", line, length);
        if (held(&orders) > batch_most) exchange();
    }
    exchange();
}

static bool something_waits(void) {
    for (size_t i = 0; i < neighbour_count; i++)
        if (held(&neighbours[i].waiting)) return true;
    return false;
}

static void take_input(void) {
    for (size_t i = 0; i < neighbour_count; i++)
        if (held(&neighbours[i].waiting)) take_waiting(&neighbours[i]);
    if (!take_line()) return;
    while (take_line()) {}
    exchange();
}

/* Clocks */

static void expire(struct link *link) {
    if (link->closing) drop(link);
    else if (link->connecting && link->next_address) connect_next(link);
    else lose(link);
}

/* an accepted connection has sent no message yet */
static bool someone_waits(void) {
    for (size_t i = 0; i < link_count; i++)
        if (!links[i]->heard && !links[i]->closing && !links[i]->dead) return true;
    return false;
}

/* A Start waits for accepted connections: against a stack without election, two that cross are both lost. */
static void expire_state(struct neighbour *it) {
    set_due(it);
    if (it->is_open) tell_for(it, "tick", "");
    else if (!it->is_closed) tell_for(it, "timeout", "");
    else if (someone_waits()) it->due = now() + LOOK_AGAIN;
    else tell_start(it);
}

static void run_clocks(void) {
    int64_t at = now();
    for (size_t i = 0; i < link_count; i++)
        if (!links[i]->dead && links[i]->until <= at) expire(links[i]);
    for (size_t i = 0; i < neighbour_count; i++)
        if (neighbours[i].due <= at) expire_state(&neighbours[i]);
    if (end_at > at) return;
    for (size_t i = 0; i < link_count; i++) drop(links[i]);
    for (size_t i = 0; i < neighbour_count; i++) neighbours[i].due = NEVER;
    end_at = held(&output) && at - written_at < END_TIME ? written_at + END_TIME : NEVER;
    if (end_at == NEVER) take(&output, held(&output));
}

/* how long nothing is to be done if nothing happens */
static struct timespec patience(void) {
    int64_t first = end_at, at = now();
    for (size_t i = 0; i < neighbour_count; i++)
        if (neighbours[i].due < first) first = neighbours[i].due;
    for (size_t i = 0; i < link_count; i++)
        if (links[i]->until < first) first = links[i]->until;
    int64_t left = first <= at ? 0 : first - at < 60000 ? first - at : 60000;
    return (struct timespec){ left / 1000, left % 1000 * 1000000 };
}

/* Configuration */

static bool add_listener(const char *address, const char *port) {
    struct addrinfo hints = { .ai_socktype = SOCK_STREAM, .ai_flags = AI_PASSIVE | AI_NUMERICHOST }, *found;
    if (listener_count == MOST_LISTENERS) return false;
    int one = 1, fault = getaddrinfo(address, port, &hints, &found);
    int fd = fault ? -1 : socket(found->ai_family, SOCK_STREAM | SOCK_NONBLOCK | SOCK_CLOEXEC, 0);
    setsockopt(fd, SOL_SOCKET, SO_REUSEADDR, &one, sizeof one);
    if (!fault && found->ai_family == AF_INET6) setsockopt(fd, IPPROTO_IPV6, IPV6_V6ONLY, &one, sizeof one);
    if (fault || fd < 0 || bind(fd, found->ai_addr, found->ai_addrlen) || listen(fd, 512)) {
        fprintf(stderr, "driver: listen %s %s: %s\n", address, port, fault ? gai_strerror(fault) : strerror(errno));
        exit(3);
    }
    freeaddrinfo(found);
    listeners[listener_count++] = fd;
    return true;
}

static bool set_time(int64_t *time, const char *word, double least) {
    char *end;
    double seconds = strtod(word, &end);
    if (*end || !(seconds >= least && seconds <= 1e6)) return false;
    *time = (int64_t)(seconds * 1000);
    return true;
}

static bool set_number(uint64_t *number, const char *word) {
    char *end;
    *number = strtoull(word, &end, 10);
    return !*end && *word >= '0' && *word <= '9';
}

/* the neighbour of this number, which is there from now on */
static struct neighbour *set_neighbour(size_t number) {
    while (neighbour_count <= number) {
        neighbours = realloc(neighbours, (neighbour_count + 1) * sizeof *neighbours);
        if (!neighbours) fail("driver: memory");
        neighbours[neighbour_count++] = (struct neighbour){ .state = "Closed", .is_closed = true, .due = NEVER };
    }
    return &neighbours[number];
}

/* a line of the driver's own: 1, a bad one -1, one of dmlive's 0; a `connect` is of the last `peer` */
static int own_line(const char *line) {
    static size_t peer_lines;
    char name[16], first[256], second[32], more;
    int words = sscanf(line, " %15s %255s %31s %c", name, first, second, &more);
    if (words < 1) return 0;
    if (!strcmp(name, "watchdog")) return words == 2 && set_time(&watchdog, first, 0.1) ? 1 : -1;
    if (!strcmp(name, "timeout")) return words == 2 && set_time(&timeout, first, 0.1) ? 1 : -1;
    if (!strcmp(name, "reconnect")) return words == 2 && set_time(&reconnect, first, 0) ? 1 : -1;
    if (!strcmp(name, "queue")) return words == 2 && set_number(&queue_most, first) ? 1 : -1;
    if (!strcmp(name, "listen")) return words == 3 && add_listener(first, second) ? 1 : -1;
    if (!strcmp(name, "peer")) set_neighbour(peer_lines++);
    if (strcmp(name, "connect")) return 0;
    if (words != 3) return -1;
    struct neighbour *to = set_neighbour(peer_lines ? peer_lines - 1 : 0);
    strcpy(to->host, first), strcpy(to->port, second);
    return 1;
}

static void bad_configuration(const char *path, int line, const char *name) {
    fprintf(stderr, "driver: %s:%d: %s\n", path, line, name);
    exit(2);
}

/* Hands dmlive its lines, behind two for what the file may say otherwise: a first identifier that a restart doesn't
   repeat soon (RFC 6733, 3), and ample room for a CER. */
static void configure(const char *path) {
    static int line_of[MOST_LINES];
    int line_number = 0, count = 2, number;
    char line[1024], own[100], name[64];
    FILE *file = fopen(path, "r");
    if (!file) fail(path);
    snprintf(own, sizeof own, "first %llu\nearly 65536\n", (unsigned long long)(time(NULL) & 0xfff) << 20 | 1);
    put(&orders, own, strlen(own));
    while (fgets(line, sizeof line, file)) {
        int kind = (++line_number, own_line(line));
        if (kind < 0 || !strchr(line, '\n') || count == MOST_LINES) bad_configuration(path, line_number, "Syntax");
        if (kind || line[strspn(line, " \t\r\n")] == 0 || *line == '#') continue;
        line_of[count++] = line_number;
        put(&orders, line, strlen(line));
    }
    fclose(file);
    put(&orders, "go\n", 3);
    exchange();
    size_t length;
    char *answer = next_answer(&length);
    if (sscanf(answer, "fault %d %63s", &number, name) == 2)
        bad_configuration(path, number > 2 && number <= count ? line_of[number - 1] : line_number, name);
    take(&answers, length + 1);
    take(&answers, (next_answer(&length), length + 1));
    set_neighbour(0);
    begin_answer();
}

static void start_peer(const char *program) {
    int down[2], up[2];
    if (pipe2(down, O_CLOEXEC) || pipe2(up, O_CLOEXEC)) fail("driver: pipe");
    fcntl(down[1], F_SETPIPE_SZ, 1 << 20);
    fcntl(up[1], F_SETPIPE_SZ, 1 << 20);
    peer_process = fork();
    if (peer_process < 0) fail("driver: fork");
    if (!peer_process) {
        dup2(down[0], 0), dup2(up[1], 1);
        execl(program, program, (char *)NULL);
        perror(program);
        _exit(127);
    }
    close(down[0]), close(up[1]);
    to_peer = down[1], from_peer = up[0];
    batch_most = fcntl(to_peer, F_GETPIPE_SZ) / 2;
}

/* A pipe is opened anew, so that a write to it doesn't wait, and nobody else's does otherwise than it did. */
static void open_output(void) {
    struct stat what;
    if (fstat(1, &what) || !S_ISFIFO(what.st_mode)) return;
    int fd = open("/proc/self/fd/1", O_WRONLY | O_NONBLOCK | O_CLOEXEC);
    if (fd < 0) return;
    fcntl(output_to = fd, F_SETPIPE_SZ, MOST_WAITING);
}

/* The whole */

static bool is_parting(const struct neighbour *it) { return it && (it->is_open || begins(it->state, "Closing")); }

/* Where a neighbour's connection is open a DPR goes out, and its DPA is waited for, also one that is awaited already;
   all others are closed at once. What was handed up is written while somebody reads it. */
static void begin_end(void) {
    for (int i = 0; i < listener_count; i++) close(listeners[i]);
    listener_count = 0;
    input_ended = true;
    end_at = now() + END_TIME;
    written_at = now();
    for (size_t i = 0; i < neighbour_count; i++) {
        *neighbours[i].host = 0;
        if (!is_parting(&neighbours[i])) neighbours[i].due = NEVER;
        if (neighbours[i].is_open) tell_for(&neighbours[i], "stop", "0");
    }
    for (size_t i = 0; i < link_count; i++)
        if (!is_parting(links[i]->of) || !links[i]->heard) close_link(links[i]);
}

static void on_signal(int signal) {
    (void)signal;
    signalled++;
}

/* Standard input, standard output, the listeners, the connections. While much that was handed up waits to be written,
   nothing more is read of connections. */
static nfds_t set_polls(void) {
    nfds_t count = 2 + listener_count + link_count;
    if (count > poll_room) polls = realloc(polls, (poll_room = 2 * count) * sizeof *polls);
    if (!polls) fail("driver: memory");
    polls[0] = (struct pollfd){ input_ended || line_waits ? -1 : 0, POLLIN, 0 };
    polls[1] = (struct pollfd){ held(&output) ? output_to : -1, POLLOUT, 0 };
    for (int i = 0; i < listener_count; i++)
        polls[2 + i] = (struct pollfd){ link_count < link_most ? listeners[i] : -1, POLLIN, 0 };
    for (size_t i = 0; i < link_count; i++) {
        struct link *link = links[i];
        int events = link->connecting || held(&link->out) ? POLLOUT : 0;
        if (!link->connecting && !link->ended && held(&output) < MOST_WAITING) events |= POLLIN;
        polls[2 + listener_count + i] = (struct pollfd){ link->fd, (short)events, 0 };
    }
    return count;
}

static void serve_polls(nfds_t count) {
    nfds_t first = 2 + listener_count;
    for (nfds_t i = first; i < count; i++) serve_link(links[i - first], polls[i].revents);
    for (int i = 0; i < listener_count; i++)
        if (polls[2 + i].revents) accept_link(listeners[i]);
    if (polls[0].revents) read_input();
    if (polls[1].revents) write_output();
}

static void serve(const sigset_t *unblocked) {
    nfds_t count = set_polls();
    struct timespec wait = patience();
    int ready = ppoll(polls, count, &wait, unblocked);
    if (ready < 0 && errno != EINTR) fail("driver: poll");
    if (ready > 0) serve_polls(count);
    take_input();
    run_clocks();
    free_dead();
    if (input_ended && !line_waits && !something_waits() && handed_up >= handed_up_most) ask_end();
}

static const char HELP[] =
    "usage: driver [-v] [-n COUNT] [-p PROGRAM] CONFIGURATION\n"
    "  Runs the Diameter peer dmlive over TCP. What is handed up goes to standard output, a message a line, in\n"
    "  hexadecimal; such lines of standard input are submitted (`start` calls, `stop C` disconnects for cause C,\n"
    "  `sender` asks who the other side is, which standard error says). With several lines `peer` the number of the\n"
    "  neighbour stands in front of each message, and behind `start`, `stop` and `sender`.\n"
    "  SIGTERM disconnects and ends it.\n"
    "  -v, --verbose          a line on standard error for each event; twice: long ones whole\n"
    "  -n, --count COUNT      ends when standard input has ended and so many messages were handed up\n"
    "  -p, --program PROGRAM  dmlive (else crates/dmlive/out/dmlive in the repository)\n"
    "  -h, --help             this\n";

static const char *take_options(int count, char **words) {
    static const struct option names[] = { { "verbose", 0, 0, 'v' }, { "count", 1, 0, 'n' }, { "program", 1, 0, 'p' },
        { "help", 0, 0, 'h' }, { 0 } };
    static char beside[4200] = "";
    ssize_t length = readlink("/proc/self/exe", beside, 4096);
    char *last = length > 0 ? strrchr(beside, '/') : NULL;
    strcpy(last ? last : beside, "/../crates/dmlive/out/dmlive");
    const char *program = beside;
    for (int option; (option = getopt_long(count, words, "vn:p:h", names, NULL)) != -1;) {
        if (option == 'h') exit(fputs(HELP, stdout) < 0 ? 3 : 0);
        else if (option == 'v') verbose++;
        else if (option == 'p') program = optarg;
        else if (option != 'n' || !set_number(&handed_up_most, optarg)) optind = count;
    }
    if (optind == count - 1) return program;
    fputs(HELP, stderr);
    exit(2);
}

int main(int count, char **words) {
    struct sigaction action = { .sa_handler = on_signal };
    struct rlimit files;
    sigset_t blocked, unblocked;
    const char *program = take_options(count, words);
    sigemptyset(&blocked), sigaddset(&blocked, SIGTERM), sigaddset(&blocked, SIGINT);
    sigprocmask(SIG_BLOCK, &blocked, &unblocked);
    sigaction(SIGTERM, &action, NULL), sigaction(SIGINT, &action, NULL), signal(SIGPIPE, SIG_IGN);
    if (!getrlimit(RLIMIT_NOFILE, &files)) {
        files.rlim_cur = files.rlim_max;
        setrlimit(RLIMIT_NOFILE, &files);
        if (files.rlim_max < MOST_LINKS + MOST_FILES) link_most = files.rlim_max - MOST_FILES;
    }
    srandom((unsigned)(time(NULL) ^ (getpid() << 12)));
    open_output();
    start_peer(program);
    configure(words[optind]);
    for (size_t i = 0; i < neighbour_count; i++)
        neighbours[i].due = reconnect && *neighbours[i].host ? 0 : NEVER;
    bool ending = false;
    while (!ending || ((link_count || held(&output)) && signalled < 2)) {
        serve(&unblocked);
        if (signalled && !ending) ending = true, begin_end();
    }
    close(to_peer);
    waitpid(peer_process, NULL, 0);
    return 0;
}
