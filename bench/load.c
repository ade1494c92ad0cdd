/* A closed-loop load program for CoAP over TCP (RFC 8323).

       load [--idle COUNT] HOST PORT CONNECTIONS OUTSTANDING REQUESTS [PATH]

   The program first opens COUNT idle connections and then CONNECTIONS others, one after the other. On each it sends its
   Capabilities and Settings Message (CSM) and reads that of the peer. Then it keeps OUTSTANDING GETs of PATH (default
   `time`) in flight on each connection that is not idle, until REQUESTS in all are answered. PATH has its segments with
   slashes between them, without escapes.

   The output is one line of numbers separated by blanks:

   - the number of answered requests,
   - the seconds from the first write of a request until the last response,
   - the requests per second,
   - the latencies in microseconds that 50 and 99 of 100 requests do not exceed.

   The latency of a request is the time from before its write until all bytes of the read with its response are parsed.
   Latencies are counted in steps of at most 1/256 of their value. The middle of a step is printed.

   The status is 1, with a line on standard error, if the peer sends an invalid message or closes a connection. The same
   holds if for 10 seconds no connection is opened and no request is answered. */

#define _GNU_SOURCE

#include <errno.h>
#include <netdb.h>
#include <netinet/in.h>
#include <netinet/tcp.h>
#include <stdarg.h>
#include <stdbool.h>
#include <stdint.h>
#include <stdio.h>
#include <stdlib.h>
#include <string.h>
#include <sys/epoll.h>
#include <sys/socket.h>
#include <time.h>
#include <unistd.h>

enum {
    GET = 0x01, CONTENT = 0x45, CAPABILITIES = 0xE1, PING = 0xE2, PONG = 0xE3,
    URI_PATH = 11,
    TOKEN_LENGTH = 4,
    READ_LENGTH = 65536,
    GREATEST_MESSAGE = 1048576,     /* announced to the peer; counts head and token */
    GREATEST_REQUEST = 1152,        /* the default Max-Message-Size of a peer (RFC 8323) */
    PONGS_LENGTH = 2 * READ_LENGTH, /* space for the Pongs to the Pings of two reads */
    EVENTS = 256,
    STEPS = 256,                    /* steps between a power of two and the next one */
};

#define STALLED UINT64_C(10000000000) /* nanoseconds without progress */

/* CSM with the Max-Message-Size GREATEST_MESSAGE. */
static const unsigned char capabilities[] = {0x40, CAPABILITIES, 0x23, 0x10, 0x00, 0x00};

/* A request with one of the tokens. A token has its index and the number of its uses, so that no two requests in flight
   have the same. */
struct request {
    uint64_t sent; /* time before the write */
    uint16_t uses;
    bool outstanding;
};

struct connection {
    int socket;
    size_t number;
    bool connected, greeted; /* greeted: the CSM of the peer was read */
    bool writing;            /* epoll reports when the socket accepts bytes */
    unsigned char *in, *out;
    size_t kept;            /* bytes of an incomplete message in `in` */
    size_t queued, written; /* bytes in `out`, and the number of them that were written */
    struct request *requests;
    uint16_t *unused; /* indices of the tokens that are not outstanding */
    size_t unused_count;
};

/* A whole message. */
struct message {
    uint8_t code;
    size_t token_length, body_length, size;
    const unsigned char *token, *body; /* the body is options and payload */
};

static struct {
    struct addrinfo *address;
    int epoll;
    struct connection *connections;
    size_t idle, count, opened, greeted;
    size_t outstanding;
    uint64_t total, handed, answered;
    uint64_t began, ended, progress; /* times in nanoseconds */
    unsigned char get[GREATEST_REQUEST];
    size_t get_length, token_at, out_room;
    uint64_t *sent; /* for the responses of one read, the times of their requests */
    size_t sent_count;
    uint64_t latencies[64 * STEPS];
} run;

__attribute__((noreturn, format(printf, 1, 2))) static void fail(const char *format, ...)
{
    va_list words;
    fputs("load: ", stderr);
    va_start(words, format);
    vfprintf(stderr, format, words);
    va_end(words);
    fputc('\n', stderr);
    exit(1);
}

static uint64_t moment(void)
{
    struct timespec now;
    if (clock_gettime(CLOCK_MONOTONIC, &now) != 0)
        fail("no clock: %s", strerror(errno));
    return (uint64_t)now.tv_sec * 1000000000 + (uint64_t)now.tv_nsec;
}

static void *room(size_t count, size_t size)
{
    void *it = calloc(count, size);
    if (it == NULL)
        fail("no memory");
    return it;
}

/* Returns the step in which a latency is counted. Below 256 ns, each value has its own step. */
static size_t step(uint64_t nanoseconds)
{
    if (nanoseconds < STEPS)
        return nanoseconds;
    unsigned shift = 63 - 8 - (unsigned)__builtin_clzll(nanoseconds);
    return (size_t)shift * STEPS + (size_t)(nanoseconds >> shift);
}

/* Returns the middle of a step, in microseconds. */
static double middle(size_t index)
{
    if (index < 2 * STEPS)
        return (double)index / 1000;
    size_t shift = index / STEPS - 1;
    uint64_t lowest = (uint64_t)(index - shift * STEPS) << shift;
    return ((double)lowest + (double)(UINT64_C(1) << shift) / 2) / 1000;
}

/* Returns the latency that `share` of 100 requests do not exceed. */
static double percentile(uint64_t share)
{
    uint64_t wanted = (run.answered * share + 99) / 100, seen = 0;
    size_t index = 0;
    while ((seen += run.latencies[index]) < wanted)
        index++;
    return middle(index);
}

static void watch(struct connection *c, int operation, bool writing)
{
    struct epoll_event event = {.events = EPOLLIN | (writing ? EPOLLOUT : 0u), .data.ptr = c};
    if (epoll_ctl(run.epoll, operation, c->socket, &event) != 0)
        fail("connection %zu: epoll: %s", c->number, strerror(errno));
    c->writing = writing;
}

/* Returns space for `length` bytes after the queued ones. */
static unsigned char *queue(struct connection *c, size_t length)
{
    if (run.out_room - c->queued < length) {
        memmove(c->out, c->out + c->written, c->queued - c->written);
        c->queued -= c->written;
        c->written = 0;
    }
    if (run.out_room - c->queued < length)
        fail("connection %zu: the peer does not read its Pongs", c->number);
    unsigned char *it = c->out + c->queued;
    c->queued += length;
    return it;
}

/* Writes the queued bytes, in one write if the socket accepts it. */
static void flush(struct connection *c)
{
    while (c->written < c->queued) {
        ssize_t count = send(c->socket, c->out + c->written, c->queued - c->written, MSG_NOSIGNAL);
        if (count >= 0)
            c->written += (size_t)count;
        else if (errno == EAGAIN)
            break;
        else if (errno != EINTR)
            fail("connection %zu: cannot write: %s", c->number, strerror(errno));
    }
    if (c->written == c->queued)
        c->written = c->queued = 0;
    if (c->writing != (c->queued > 0))
        watch(c, EPOLL_CTL_MOD, c->queued > 0);
}

/* Opens the next connection. */
static void open_next(void)
{
    struct connection *c = &run.connections[run.opened];
    int yes = 1;
    c->number = ++run.opened;
    c->in = room(GREATEST_MESSAGE + READ_LENGTH, 1);
    c->out = room(run.out_room, 1);
    c->socket = socket(run.address->ai_family, SOCK_STREAM | SOCK_NONBLOCK | SOCK_CLOEXEC, 0);
    if (c->socket < 0 || setsockopt(c->socket, IPPROTO_TCP, TCP_NODELAY, &yes, sizeof yes) != 0)
        fail("connection %zu: no socket: %s", c->number, strerror(errno));
    if (connect(c->socket, run.address->ai_addr, run.address->ai_addrlen) != 0 && errno != EINPROGRESS)
        fail("connection %zu: cannot connect: %s", c->number, strerror(errno));
    memcpy(queue(c, sizeof capabilities), capabilities, sizeof capabilities);
    watch(c, EPOLL_CTL_ADD, true);
    if (c->number <= run.idle)
        return;
    c->requests = room(run.outstanding, sizeof *c->requests);
    c->unused = room(run.outstanding, sizeof *c->unused);
    for (c->unused_count = 0; c->unused_count < run.outstanding; c->unused_count++)
        c->unused[c->unused_count] = (uint16_t)c->unused_count;
}

/* Sends a GET for each token that is not outstanding, as long as requests are left. */
static void ask(struct connection *c, uint64_t now)
{
    while (c->unused_count > 0 && run.handed < run.total) {
        uint16_t index = c->unused[--c->unused_count];
        struct request *requested = &c->requests[index];
        *requested = (struct request){.sent = now, .uses = (uint16_t)(requested->uses + 1), .outstanding = true};
        unsigned char *get = queue(c, run.get_length), *token = get + run.token_at;
        memcpy(get, run.get, run.get_length);
        token[0] = (unsigned char)(index >> 8);
        token[1] = (unsigned char)index;
        token[2] = (unsigned char)(requested->uses >> 8);
        token[3] = (unsigned char)requested->uses;
        run.handed++;
    }
}

/* Opens the next connection after the CSM of the peer has arrived. After the last one, sends the first requests. */
static void greeted(struct connection *c)
{
    if (c->greeted)
        return;
    c->greeted = true;
    run.greeted++;
    run.progress = moment();
    if (run.opened < run.count) {
        open_next();
    } else if (run.greeted == run.count) {
        run.began = run.progress;
        for (size_t it = run.idle; it < run.count; it++) {
            ask(&run.connections[it], moment());
            flush(&run.connections[it]);
        }
    }
}

/* Processes the response to a request. */
static void answered(struct connection *c, const struct message *m)
{
    if (m->token_length != TOKEN_LENGTH)
        fail("connection %zu: an answer with a token of %zu bytes, which no request has", c->number, m->token_length);
    size_t index = (size_t)m->token[0] << 8 | m->token[1];
    unsigned uses = (unsigned)m->token[2] << 8 | m->token[3];
    if (c->requests == NULL || index >= run.outstanding || !c->requests[index].outstanding ||
        c->requests[index].uses != uses)
        fail("connection %zu: an answer with a token that is not outstanding", c->number);
    c->requests[index].outstanding = false;
    c->unused[c->unused_count++] = (uint16_t)index;
    run.sent[run.sent_count++] = c->requests[index].sent;
}

static void ponged(struct connection *c, const struct message *m)
{
    unsigned char *pong = queue(c, 2 + m->token_length);
    pong[0] = (unsigned char)m->token_length;
    pong[1] = PONG;
    memcpy(pong + 2, m->token, m->token_length);
}

/* Returns the number that `count` bytes encode. */
static uint64_t number(const unsigned char *bytes, size_t count)
{
    uint64_t value = 0;
    for (size_t it = 0; it < count; it++)
        value = value << 8 | bytes[it];
    return value;
}

/* Parses the first message (RFC 8323 section 3.2), and returns true if it is complete. */
static bool whole(const struct connection *c, const unsigned char *bytes, size_t count, struct message *m)
{
    static const uint64_t base[] = {13, 269, 65805};
    if (count == 0)
        return false;
    size_t nibble = bytes[0] >> 4, extension = nibble < 13 ? 0 : (size_t)1 << (nibble - 13);
    m->token_length = bytes[0] & 15;
    if (m->token_length > 8)
        fail("connection %zu: a token length of %zu", c->number, m->token_length);
    if (count < 1 + extension)
        return false;
    uint64_t length = extension == 0 ? nibble : base[nibble - 13] + number(bytes + 1, extension);
    uint64_t size = 2 + extension + m->token_length + length;
    if (size > GREATEST_MESSAGE)
        fail("connection %zu: a message of %llu bytes", c->number, (unsigned long long)size);
    if (count < size)
        return false;
    m->size = (size_t)size;
    m->code = bytes[1 + extension];
    m->token = bytes + 2 + extension;
    m->body = m->token + m->token_length;
    m->body_length = (size_t)length;
    return true;
}

/* Reads the extension of an option delta or length, and returns true if it is valid and complete. */
static bool extended(const unsigned char **at, const unsigned char *end, unsigned nibble, uint64_t *value)
{
    size_t extension = nibble < 13 ? 0 : nibble - 12;
    if (nibble == 15 || (size_t)(end - *at) < extension)
        return false;
    *value = (nibble == 13 ? 13 : nibble == 14 ? 269 : nibble) + number(*at, extension);
    *at += extension;
    return true;
}

/* Returns true if these bytes are options and a payload (RFC 7252 section 3.1). */
static bool well_formed(const unsigned char *at, const unsigned char *end)
{
    uint64_t delta, length, last = 0;
    while (at < end && *at != 0xFF) {
        unsigned first = *at++;
        if (!extended(&at, end, first >> 4, &delta) || !extended(&at, end, first & 15, &length))
            return false;
        last += delta;
        if (last > 65535 || (uint64_t)(end - at) < length)
            return false;
        at += length;
    }
    return at == end || end - at > 1;
}

static void take(struct connection *c, const struct message *m)
{
    if (!well_formed(m->body, m->body + m->body_length))
        fail("connection %zu: a malformed message", c->number);
    if (!c->greeted && m->code != CAPABILITIES)
        fail("connection %zu: the first message is no Capabilities and Settings", c->number);
    if (m->code == CONTENT)
        answered(c, m);
    else if (m->code == PING)
        ponged(c, m);
    else if (m->code == CAPABILITIES)
        greeted(c);
    else if (m->code != PONG)
        fail("connection %zu: a message with code %d.%02d", c->number, m->code >> 5, m->code & 31);
}

/* Processes all whole messages, sends requests for the answered ones, and counts latencies. */
static void take_all(struct connection *c)
{
    struct message m;
    size_t at = 0;
    run.sent_count = 0;
    for (; whole(c, c->in + at, c->kept - at, &m); at += m.size)
        take(c, &m);
    c->kept -= at;
    memmove(c->in, c->in + at, c->kept);
    if (run.sent_count == 0) {
        flush(c);
        return;
    }
    uint64_t now = moment();
    ask(c, now);
    flush(c);
    run.answered += run.sent_count;
    run.progress = run.ended = now;
    for (size_t it = 0; it < run.sent_count; it++)
        run.latencies[step(now - run.sent[it])]++;
}

static void receive(struct connection *c)
{
    ssize_t count = recv(c->socket, c->in + c->kept, READ_LENGTH, 0);
    if (count < 0 && (errno == EAGAIN || errno == EINTR))
        return;
    if (count < 0)
        fail("connection %zu: cannot read: %s", c->number, strerror(errno));
    if (count == 0)
        fail("connection %zu: closed early, %zu bytes into a message", c->number, c->kept);
    c->kept += (size_t)count;
    take_all(c);
}

static void handle(const struct epoll_event *event)
{
    struct connection *c = event->data.ptr;
    if (!c->connected) {
        int error = 0;
        socklen_t length = sizeof error;
        if (getsockopt(c->socket, SOL_SOCKET, SO_ERROR, &error, &length) != 0)
            error = errno;
        if (error != 0)
            fail("connection %zu: cannot connect: %s", c->number, strerror(error));
        c->connected = true;
    }
    if (event->events & EPOLLOUT)
        flush(c);
    if (event->events & ~(uint32_t)EPOLLOUT)
        receive(c);
}

/* Runs until every request is answered. */
static void run_all(void)
{
    struct epoll_event events[EVENTS];
    run.progress = moment();
    open_next();
    while (run.answered < run.total) {
        int count = epoll_wait(run.epoll, events, EVENTS, 1000);
        if (count < 0 && errno != EINTR)
            fail("epoll: %s", strerror(errno));
        for (int it = 0; it < count; it++)
            handle(&events[it]);
        if (moment() - run.progress > STALLED)
            fail("no progress for 10 s: %zu of %zu connections open, %llu of %llu requests answered", run.greeted,
                 run.count, (unsigned long long)run.answered, (unsigned long long)run.total);
    }
}

/* Writes an option whose number is `delta` above the last one, and returns its length. */
static size_t write_option(unsigned char *at, unsigned delta, const char *value, size_t length)
{
    size_t head = length < 13 ? 1 : 2;
    at[0] = (unsigned char)(delta << 4 | (length < 13 ? length : 13));
    if (head == 2)
        at[1] = (unsigned char)(length - 13);
    memcpy(at + head, value, length);
    return head + length;
}

/* Encodes the GET, with space for its token. */
static void spell_get(const char *path)
{
    unsigned char options[GREATEST_REQUEST];
    size_t length = 0;
    unsigned delta = URI_PATH;
    path += *path == '/';
    for (bool more = *path != '\0'; more;) {
        size_t segment = strcspn(path, "/");
        if (segment > 255 || length + segment + 2 > GREATEST_REQUEST - 4 - TOKEN_LENGTH)
            fail("the path is too long");
        length += write_option(options + length, delta, path, segment);
        delta = 0;
        more = path[segment] == '/';
        path += segment + more;
    }
    size_t at = 0;
    if (length < 13) {
        run.get[at++] = (unsigned char)(length << 4 | TOKEN_LENGTH);
    } else if (length < 269) {
        run.get[at++] = 13 << 4 | TOKEN_LENGTH;
        run.get[at++] = (unsigned char)(length - 13);
    } else {
        run.get[at++] = 14 << 4 | TOKEN_LENGTH;
        run.get[at++] = (unsigned char)((length - 269) >> 8);
        run.get[at++] = (unsigned char)(length - 269);
    }
    run.get[at++] = GET;
    run.token_at = at;
    memcpy(run.get + at + TOKEN_LENGTH, options, length);
    run.get_length = at + TOKEN_LENGTH + length;
}

/* Returns the number that a word represents, which must be in this range. */
static uint64_t count_of(const char *name, const char *word, uint64_t least, uint64_t greatest)
{
    char *end;
    errno = 0;
    unsigned long long value = strtoull(word, &end, 10);
    if (errno != 0 || *word < '0' || *word > '9' || *end != '\0' || value < least || value > greatest)
        fail("%s is no number from %llu to %llu", name, (unsigned long long)least, (unsigned long long)greatest);
    return value;
}

static void read_words(int count, char **words)
{
    struct addrinfo hints = {.ai_family = AF_UNSPEC, .ai_socktype = SOCK_STREAM};
    if (count > 2 && strcmp(words[1], "--idle") == 0) {
        run.idle = count_of("COUNT", words[2], 0, 100000);
        words += 2;
        count -= 2;
    }
    if (count < 6 || count > 7)
        fail("load [--idle COUNT] HOST PORT CONNECTIONS OUTSTANDING REQUESTS [PATH]");
    int error = getaddrinfo(words[1], words[2], &hints, &run.address);
    if (error != 0)
        fail("%s port %s: %s", words[1], words[2], gai_strerror(error));
    run.count = run.idle + count_of("CONNECTIONS", words[3], 1, 100000);
    run.outstanding = count_of("OUTSTANDING", words[4], 1, 65536);
    run.total = count_of("REQUESTS", words[5], 1, 1000000000000);
    spell_get(count == 7 ? words[6] : "time");
    run.out_room = sizeof capabilities + run.outstanding * run.get_length + PONGS_LENGTH;
}

static void release_all(void)
{
    for (size_t it = 0; it < run.count; it++) {
        struct connection *c = &run.connections[it];
        if (close(c->socket) != 0)
            fail("connection %zu: cannot close: %s", c->number, strerror(errno));
        free(c->in);
        free(c->out);
        free(c->requests);
        free(c->unused);
    }
    free(run.connections);
    free(run.sent);
    freeaddrinfo(run.address);
}

int main(int count, char **words)
{
    read_words(count, words);
    run.connections = room(run.count, sizeof *run.connections);
    run.sent = room(run.outstanding, sizeof *run.sent);
    run.epoll = epoll_create1(EPOLL_CLOEXEC);
    if (run.epoll < 0)
        fail("epoll: %s", strerror(errno));
    run_all();
    double seconds = (double)(run.ended - run.began) / 1e9;
    if (printf("%llu %.6f %.0f %.2f %.2f\n", (unsigned long long)run.answered, seconds, (double)run.answered / seconds,
               percentile(50), percentile(99)) < 0 ||
        fflush(stdout) != 0)
        fail("cannot print: %s", strerror(errno));
    release_all();
    if (close(run.epoll) != 0)
        fail("epoll: %s", strerror(errno));
    return 0;
}
