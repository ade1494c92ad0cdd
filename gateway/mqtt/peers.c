#include "peers.h"

#include <arpa/inet.h>
#include <errno.h>
#include <netinet/in.h>
#include <netinet/tcp.h>
#include <stdio.h>
#include <stdlib.h>
#include <string.h>
#include <sys/epoll.h>
#include <sys/socket.h>
#include <sys/uio.h>
#include <unistd.h>

#include "log.h"
#include "screen.h"

/* A message of the largest size fits with its header and its token, whichever of them the size counts. */
enum { HEADER_ROOM = 128, BACKLOG = 256 };

/* Milliseconds until a CSM, and until a released connection has written its queue, as in coap-server. */
enum { CSM_PATIENCE = 10000, RELEASE_PATIENCE = 4000 };

/* Milliseconds in which a peer must acknowledge and read what it was sent. */
enum { UNREAD_PATIENCE = 120000 };

/* Milliseconds in which each write of a peer that has ended its input is answered: its deadline, and two ticks. */
enum { ANSWER_PATIENCE = 12000 };

/* An address of either family, as text. */
struct address {
    struct sockaddr_storage bytes;
    socklen_t length;
    char text[INET6_ADDRSTRLEN + 10];
};

static void print_address(struct address *address) {
    char host[INET6_ADDRSTRLEN] = "?";
    const struct sockaddr_in *four = (const struct sockaddr_in *)&address->bytes;
    const struct sockaddr_in6 *six = (const struct sockaddr_in6 *)&address->bytes;
    bool is_six = address->bytes.ss_family == AF_INET6;
    inet_ntop(address->bytes.ss_family, is_six ? (const void *)&six->sin6_addr : (const void *)&four->sin_addr, host,
              sizeof host);
    snprintf(address->text, sizeof address->text, is_six ? "[%s]:%u" : "%s:%u", host,
             (unsigned)ntohs(is_six ? six->sin6_port : four->sin_port));
}

static struct address address_of(const struct options *options) {
    struct address address = {.length = sizeof(struct sockaddr_in)};
    struct sockaddr_in *four = (struct sockaddr_in *)&address.bytes;
    struct sockaddr_in6 *six = (struct sockaddr_in6 *)&address.bytes;
    four->sin_family = AF_INET;
    four->sin_port = htons(options->port);
    if (inet_pton(AF_INET, options->address, &four->sin_addr) == 1)
        return address;
    address.length = sizeof *six;
    six->sin6_family = AF_INET6;
    six->sin6_port = htons(options->port);
    inet_pton(AF_INET6, options->address, &six->sin6_addr);
    return address;
}

bool peers_open(struct peers *peers, struct dachreup_server *server, const struct options *options, int poll) {
    struct address address = address_of(options);
    int yes = 1;
    *peers = (struct peers){.server = server, .options = options, .count = options->connections, .poll = poll,
                            .room = options->max_message + HEADER_ROOM};
    peers->listener = -1;
    peers->all = calloc(peers->count, sizeof *peers->all);
    peers->by_id = calloc(peers->count, sizeof *peers->by_id);
    for (size_t at = 0; peers->all && at < peers->count; at++)
        peers->all[at].socket = -1;
    if (!peers->all || !peers->by_id)
        return log_always("no memory"), false;
    peers->listener = socket(address.bytes.ss_family, SOCK_STREAM | SOCK_NONBLOCK | SOCK_CLOEXEC, 0);
    if (peers->listener >= 0) {
        setsockopt(peers->listener, SOL_SOCKET, SO_REUSEADDR, &yes, sizeof yes);
        if (bind(peers->listener, (struct sockaddr *)&address.bytes, address.length) == 0)
            return true;
    }
    print_address(&address);
    return log_always("cannot listen at %s: %s", address.text, strerror(errno)), false;
}

static void end(struct peers *peers, struct peer *peer);

void peers_close(struct peers *peers) {
    for (size_t at = 0; peers->all && at < peers->count; at++)
        if (peers->all[at].socket >= 0)
            end(peers, &peers->all[at]);
    free(peers->all);
    free(peers->by_id);
    peers_refuse(peers);
}

void peers_refuse(struct peers *peers) {
    if (peers->listener >= 0)
        close(peers->listener);
    peers->listener = -1;
    peers->accepts = false;
}

/* Watches the listening socket while the server has room for a connection. Further peers wait. */
static void watch_listener(struct peers *peers) {
    bool wants = peers->listens && peers->listener >= 0 && peers->open < peers->count && !peers->is_short;
    struct epoll_event event = {.events = EPOLLIN, .data.u64 = EVENT_LISTENER};
    int change = wants ? EPOLL_CTL_ADD : EPOLL_CTL_DEL;
    /* After a failure, the next second tries again. */
    if (wants != peers->accepts && !epoll_ctl(peers->poll, change, peers->listener, &event))
        peers->accepts = wants;
}

bool peers_listen(struct peers *peers) {
    struct address address = address_of(peers->options);
    print_address(&address);
    if (listen(peers->listener, BACKLOG) < 0)
        return log_always("cannot listen at %s: %s", address.text, strerror(errno)), false;
    peers->listens = true;
    watch_listener(peers);
    log_always("listening on %s", address.text);
    return true;
}

/* ---- peers by their ids ---- */

/* Returns the number of peers whose ids are lower. */
static size_t rank_of(const struct peers *peers, uint64_t id) {
    size_t low = 0, high = peers->open;
    while (low < high) {
        size_t middle = (low + high) / 2;
        if (peers->all[peers->by_id[middle]].id < id)
            low = middle + 1;
        else
            high = middle;
    }
    return low;
}

/* Adds a peer, whose id is above those of the others. */
static void add(struct peers *peers, struct peer *peer) {
    peers->by_id[peers->open++] = (uint16_t)(peer - peers->all);
}

static void take_out(struct peers *peers, const struct peer *peer) {
    size_t rank = rank_of(peers, peer->id);
    uint16_t *place = peers->by_id + rank;
    peers->open--;
    memmove(place, place + 1, (peers->open - rank) * sizeof *place);
}

/* ---- one peer ---- */

/*
 * Closes a socket, after a mebibyte of its input was read at most. The system resets a connection that is closed with
 * unread bytes, and the peer may then lose the last bytes written.
 */
static void close_socket(int socket) {
    uint8_t bytes[16384];
    shutdown(socket, SHUT_WR);
    for (int reads = 0; reads < 64 && recv(socket, bytes, sizeof bytes, MSG_DONTWAIT) > 0; reads++) {
    }
    close(socket);
}

static void end(struct peers *peers, struct peer *peer) {
    dachreup_ignore(dachreup_server_drop(peers->server, peer->id));
    close_socket(peer->socket);
    free(peer->bytes);
    log_line(LOG_CONNECTIONS, "connection %llu ended", (unsigned long long)peer->id);
    take_out(peers, peer);
    *peer = (struct peer){.socket = -1};
    watch_listener(peers);
}

/* Writes the queued bytes as far as the socket accepts them. Returns their number. */
static size_t flush(struct peers *peers, struct peer *peer) {
    struct dachreup_parts parts = {{0}, {0}};
    if (dachreup_server_parts(peers->server, peer->id, &parts) || parts.first.count + parts.second.count == 0)
        return 0;
    struct iovec both[2] = {{(void *)parts.first.at, parts.first.count}, {(void *)parts.second.at, parts.second.count}};
    struct msghdr message = {.msg_iov = both, .msg_iovlen = 2};
    ssize_t count = sendmsg(peer->socket, &message, MSG_NOSIGNAL | MSG_DONTWAIT);
    if (count <= 0 || dachreup_server_written(peers->server, peer->id, (size_t)count))
        return 0;
    peer->moved = peers->now;
    return (size_t)count;
}

/* Returns the number of bytes to offer to the server: a whole message, or all if they are none. */
static size_t next_frame(struct peers *peers, struct peer *peer) {
    size_t size = peer->is_raw ? FRAME_BAD : frame_size(peer->bytes + peer->start, peer->kept);
    if (size == FRAME_BAD || size > peers->room) {
        /* The server ends this connection with an Abort, so where later messages begin is of no concern. */
        peer->is_raw = true;
        return peer->kept;
    }
    return size <= peer->kept ? size : 0;
}

/* Offers one message. Returns the number of bytes that the server accepted, or sets *failed. */
static size_t offer(struct peers *peers, struct peer *peer, bool *failed) {
    struct dachreup_took took = {0};
    uint8_t *frame = peer->bytes + peer->start, first[6];
    size_t size = next_frame(peers, peer), head = size < sizeof first ? size : sizeof first;
    if (size == 0)
        return 0;
    memcpy(first, frame, head);
    if (!peer->is_raw)
        screen(frame, size, &peers->options->prefix, peers->refuses_reads);
    *failed = dachreup_server_take(peers->server, peer->id, frame, size, &took) != DACHREUP_OK || took.memory;
    /* A request is the whole frame, which stays valid longer than the span that the server lends. */
    if (took.request.count) {
        struct dachreup_span request = {frame, size};
        peers->request(peers->owner, peer->id, &request);
    }
    /* The code, which is among these bytes, is screened anew when the message is offered again. */
    if (took.bytes == 0)
        memcpy(frame, first, head);
    peer->start += took.bytes;
    peer->kept -= took.bytes;
    return took.bytes;
}

/* Returns the status of an open connection. */
static struct dachreup_status status_of(struct peers *peers, const struct peer *peer) {
    struct dachreup_status status = {0};
    dachreup_ignore(dachreup_server_status(peers->server, peer->id, &status));
    return status;
}

/* Watches the socket for input if there is room, and for output if bytes are queued. */
static void watch(struct peers *peers, struct peer *peer) {
    struct dachreup_status status = status_of(peers, peer);
    uint32_t interest = (!peer->has_ended && peer->kept < peers->room ? (uint32_t)EPOLLIN : 0) |
                        (status.waiting ? (uint32_t)EPOLLOUT : 0);
    struct epoll_event event = {.events = interest, .data.u64 = (uint64_t)(peer - peers->all)};
    if (interest != peer->interest)
        epoll_ctl(peers->poll, EPOLL_CTL_MOD, peer->socket, &event);
    peer->interest = interest;
}

/*
 * Records the end of the input, after all whole messages before it. The server then forgets its pending responses. So
 * writes under way are answered first, by the server with 5.04 at the latest. A response of /async can take longer.
 */
static void finish(struct peers *peers, struct peer *peer) {
    if (!peer->has_ended || peer->is_finished || next_frame(peers, peer))
        return;
    if (!peer->ended)
        peer->ended = peers->now;
    struct dachreup_status status = status_of(peers, peer);
    if (status.pending && (status.waiting || peers->now - peer->ended < ANSWER_PATIENCE))
        return;
    peer->is_finished = true;
    dachreup_ignore(dachreup_server_ended(peers->server, peer->id));
    flush(peers, peer);
}

/* Ends a connection that has failed or finished. Watches another one. */
static void settle(struct peers *peers, struct peer *peer, bool has_failed) {
    struct dachreup_status status = status_of(peers, peer);
    if (has_failed || status.finished) {
        end(peers, peer);
        return;
    }
    /* The server processes none of the bytes after a stop. */
    if (status.phase == DACHREUP_PHASE_STOPPED)
        peer->kept = 0;
    watch(peers, peer);
}

/*
 * Offers the kept bytes, and writes what they cause, until nothing moves. All messages that the queue has room for are
 * offered before a write: a call of the system for each of many small messages would hold up the other peers.
 */
static void serve(struct peers *peers, struct peer *peer) {
    bool failed = false;
    for (size_t moved = 1; moved && !failed; moved = flush(peers, peer))
        while (!failed && offer(peers, peer, &failed)) {
        }
    finish(peers, peer);
    settle(peers, peer, failed);
}

/* Moves the kept bytes to the start of the buffer, if it has no room after them. */
static void make_room(struct peers *peers, struct peer *peer) {
    if (peer->start + peer->kept < peers->room)
        return;
    memmove(peer->bytes, peer->bytes + peer->start, peer->kept);
    peer->start = 0;
}

/* Reads as much as there is room for. Returns false if the connection failed. */
static bool receive(struct peers *peers, struct peer *peer) {
    if (peer->kept == 0)
        peer->start = 0;
    make_room(peers, peer);
    size_t room = peers->room - peer->start - peer->kept;
    ssize_t count = room ? recv(peer->socket, peer->bytes + peer->start + peer->kept, room, MSG_DONTWAIT) : -1;
    if (count < 0)
        return room == 0 || errno == EAGAIN || errno == EINTR;
    peer->has_ended = count == 0;
    peer->kept += (size_t)count;
    peer->moved = peers->now;
    return true;
}

/* Forgets the queued bytes of a connection on which nothing can be written any more, so that it accepts messages. */
static void discard(struct peers *peers, struct peer *peer) {
    struct dachreup_parts parts = {{0}, {0}};
    if (!dachreup_server_parts(peers->server, peer->id, &parts))
        dachreup_ignore(
            dachreup_server_written(peers->server, peer->id, parts.first.count + parts.second.count));
}

/*
 * Serves a connection that was reset. The system still has the bytes that came before: requests that the peer may count
 * on. One buffer of them is processed a turn, because epoll reports the connection again until it is closed.
 */
static void serve_reset(struct peers *peers, struct peer *peer) {
    bool failed = false, has_room = peer->kept < peers->room;
    bool has_more = !peer->has_ended && (!has_room || (receive(peers, peer) && !peer->has_ended));
    size_t kept = peer->kept;
    for (size_t moved = 1; moved && !failed;) {
        discard(peers, peer);
        moved = offer(peers, peer, &failed);
    }
    if (failed || !has_more || (!has_room && peer->kept == kept))
        end(peers, peer);
}

void peers_ready(struct peers *peers, size_t place, uint32_t events) {
    struct peer *peer = &peers->all[place];
    if (peer->socket < 0)
        return;
    if (events & (EPOLLHUP | EPOLLERR))
        serve_reset(peers, peer);
    else if (!peer->has_ended && (events & EPOLLIN) && !receive(peers, peer))
        end(peers, peer);
    else
        serve(peers, peer);
}

bool peers_serve(struct peers *peers) {
    bool has_served = false;
    for (uint64_t id; !dachreup_server_next_output(peers->server, &id); has_served = true) {
        struct peer *peer = &peers->all[peers->by_id[rank_of(peers, id)]];
        /* Written bytes leave room, so that kept ones may be accepted. An offer yields the connection again. */
        if (flush(peers, peer))
            serve(peers, peer);
        else
            settle(peers, peer, false);
    }
    return has_served;
}

/* ---- silent peers, and the end ---- */

/* Sends a Release, or ends a connection that cannot have one. */
static void release(struct peers *peers, struct peer *peer) {
    if (dachreup_server_release(peers->server, peer->id)) {
        end(peers, peer);
        return;
    }
    peer->released = peers->now;
    serve(peers, peer);
}

/* Sends a Release at the end of the program. Queued bytes are written also if the connection cannot have one. */
static void release_at_end(struct peers *peers, struct peer *peer) {
    if (!status_of(peers, peer).waiting) {
        release(peers, peer);
        return;
    }
    dachreup_ignore(dachreup_server_release(peers->server, peer->id));
    peer->released = peers->now;
    serve(peers, peer);
}

void peers_release(struct peers *peers) {
    for (size_t at = 0; at < peers->count; at++)
        if (peers->all[at].socket >= 0 && !peers->all[at].released)
            release_at_end(peers, &peers->all[at]);
}

/* Ends a connection that has been silent for too long. The rule is that of coap-server. */
static void check_silence(struct peers *peers, struct peer *peer) {
    struct dachreup_status status = status_of(peers, peer);
    bool is_mute = status.phase == DACHREUP_PHASE_WAITING && peers->now - peer->opened > CSM_PATIENCE;
    bool is_unread = peer->released && peers->now - peer->released >= RELEASE_PATIENCE;
    bool is_silent = !status.observers && !status.pending && peers->now - peer->moved > peers->options->idle;
    if (is_unread || (is_mute && !peer->released))
        end(peers, peer);
    else if (is_silent && !peer->released)
        release(peers, peer);
}

void peers_tick(struct peers *peers) {
    for (size_t at = 0; at < peers->count; at++) {
        struct peer *peer = &peers->all[at];
        if (peer->socket >= 0 && peer->ended && !peer->is_finished)
            serve(peers, peer);
        /* A connection can finish without output: if the peer accepts not even the smallest response. */
        if (peer->socket >= 0 && status_of(peers, peer).finished)
            end(peers, peer);
        else if (peer->socket >= 0 && peers->options->idle)
            check_silence(peers, peer);
    }
    peers->is_short = false;
    watch_listener(peers);
}

/* ---- new peers ---- */

/*
 * A peer that is gone without a word is found after two minutes, as by coap-server. So is one that reads nothing: its
 * system answers the probes, so the keep-alive does not find it.
 */
static void set_socket(int client) {
    int yes = 1, idle = 60, interval = 15, probes = 4, unread = UNREAD_PATIENCE;
    setsockopt(client, IPPROTO_TCP, TCP_NODELAY, &yes, sizeof yes);
    setsockopt(client, SOL_SOCKET, SO_KEEPALIVE, &yes, sizeof yes);
    setsockopt(client, IPPROTO_TCP, TCP_KEEPIDLE, &idle, sizeof idle);
    setsockopt(client, IPPROTO_TCP, TCP_KEEPINTVL, &interval, sizeof interval);
    setsockopt(client, IPPROTO_TCP, TCP_KEEPCNT, &probes, sizeof probes);
    setsockopt(client, IPPROTO_TCP, TCP_USER_TIMEOUT, &unread, sizeof unread);
}

/* Frees the place of a client that was not admitted. Returns the reason. */
static const char *reject(struct peer *peer, const char *reason) {
    free(peer->bytes);
    *peer = (struct peer){.socket = -1};
    return reason;
}

/* Gives a client a free place. Returns the reason if that fails, otherwise NULL. */
static const char *admit(struct peers *peers, int client, const char *address) {
    size_t at = 0;
    while (peers->all[at].socket >= 0)
        at++;
    struct peer *peer = &peers->all[at];
    struct epoll_event event = {.events = EPOLLIN, .data.u64 = at};
    peer->bytes = malloc(peers->room);
    if (!peer->bytes || dachreup_server_open(peers->server, &peer->id) != DACHREUP_OK)
        return reject(peer, "no memory");
    if (epoll_ctl(peers->poll, EPOLL_CTL_ADD, client, &event) < 0) {
        const char *reason = strerror(errno);
        dachreup_ignore(dachreup_server_drop(peers->server, peer->id));
        return reject(peer, reason);
    }
    peer->socket = client;
    peer->interest = EPOLLIN;
    peer->opened = peer->moved = peers->now;
    add(peers, peer);
    log_line(LOG_CONNECTIONS, "connection %llu opened by %s", (unsigned long long)peer->id, address);
    serve(peers, peer);
    return NULL;
}

/* Pauses after a failure that would come again at once. */
static void note_accept(struct peers *peers, int error) {
    peers->is_short = error != EAGAIN && error != EINTR && error != ECONNABORTED;
    if (peers->is_short)
        log_line(LOG_WARNINGS, "connections not accepted: %s", strerror(error));
}

void peers_accept(struct peers *peers) {
    while (peers->open < peers->count) {
        struct address address = {.length = sizeof address.bytes};
        int client =
            accept4(peers->listener, (struct sockaddr *)&address.bytes, &address.length, SOCK_NONBLOCK | SOCK_CLOEXEC);
        if (client < 0) {
            note_accept(peers, errno);
            break;
        }
        set_socket(client);
        print_address(&address);
        const char *reason = admit(peers, client, address.text);
        if (reason) {
            log_line(LOG_WARNINGS, "connection not accepted: %s", reason);
            close(client);
            break;
        }
    }
    watch_listener(peers);
}
