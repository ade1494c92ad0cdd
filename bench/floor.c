/* The floor: the cost of framing and epoll alone.

       floor HOST PORT

   This is not a CoAP server. It sends a CSM, splits its input into messages (RFC 8323 section 3.2), and answers each
   GET with the same 2.05 and the token of the request, whatever its path. It parses no option, responds to no other
   message, and closes a connection whose message is longer than 65,536 bytes. The responses to one read are written by
   one write, which blocks until the peer accepts it. */

#define _GNU_SOURCE

#include <arpa/inet.h>
#include <netinet/tcp.h>
#include <stdint.h>
#include <stdio.h>
#include <stdlib.h>
#include <string.h>
#include <sys/epoll.h>
#include <unistd.h>

enum { GET = 0x01, CONTENT = 0x45, CAPABILITIES = 0xE1, ROOM = 65536, EVENTS = 256 };

struct connection {
    int socket;
    size_t kept;
    unsigned char in[ROOM];
};

static const unsigned char capabilities[] = {0x00, CAPABILITIES};
static const unsigned char text[] = "\xFFJan 01 00:00:00"; /* payload marker and payload */

enum { TEXT = sizeof text - 1 };

/* The responses to one read. A GET has at least two bytes, and its response three and the text, each with a token of
   the same length. */
static unsigned char out[ROOM / 2 * (3 + TEXT)];

/* Ends the program if a call failed. */
static int checked(int value, const char *what)
{
    if (value < 0) {
        perror(what);
        exit(1);
    }
    return value;
}

/* Returns the size of the first message, or more than `count` if more bytes are needed. */
static uint64_t size_of(const unsigned char *bytes, size_t count, size_t *extension)
{
    static const uint64_t base[] = {13, 269, 65805};
    size_t nibble = count == 0 ? 0 : bytes[0] >> 4;
    *extension = nibble < 13 ? 0 : (size_t)1 << (nibble - 13);
    uint64_t length = 0;
    if (count < 1 + *extension)
        return 1 + *extension;
    for (size_t it = 1; it <= *extension; it++)
        length = length << 8 | bytes[it];
    return 2 + *extension + (bytes[0] & 15) + (*extension ? base[nibble - 13] + length : nibble);
}

/* Answers every whole message, and returns the length of the responses. */
static size_t answer(struct connection *c)
{
    size_t at = 0, length = 0, extension;
    uint64_t size;
    for (; (size = size_of(c->in + at, c->kept - at, &extension)) <= c->kept - at; at += (size_t)size) {
        size_t token = c->in[at] & 15, code = at + 1 + extension;
        if (c->in[code] == GET) {
            unsigned char head[] = {(unsigned char)(13 << 4 | token), TEXT - 13, CONTENT};
            memcpy(out + length, head, sizeof head);
            memcpy(out + length + sizeof head, c->in + code + 1, token);
            memcpy(out + length + sizeof head + token, text, TEXT);
            length += sizeof head + token + TEXT;
        }
    }
    c->kept -= at;
    memmove(c->in, c->in + at, c->kept);
    return length;
}

/* Answers the messages of one read, or closes the connection. */
static void serve(struct connection *c)
{
    ssize_t count = recv(c->socket, c->in + c->kept, ROOM - c->kept, 0);
    c->kept += count < 0 ? 0 : (size_t)count;
    size_t length = count <= 0 ? 0 : answer(c);
    if (count <= 0 || c->kept == ROOM || send(c->socket, out, length, MSG_NOSIGNAL) < 0) {
        checked(close(c->socket), "close");
        free(c);
    }
}

/* Accepts a connection. If its peer is gone, the connection is closed at its first read. */
static void greet(int epoll, int listener)
{
    int yes = 1;
    struct connection *c = calloc(1, sizeof *c);
    struct epoll_event event = {.events = EPOLLIN, .data.ptr = c};
    checked(c == NULL ? -1 : 0, "memory");
    c->socket = checked(accept(listener, NULL, NULL), "accept");
    checked(setsockopt(c->socket, IPPROTO_TCP, TCP_NODELAY, &yes, sizeof yes), "TCP_NODELAY");
    checked(epoll_ctl(epoll, EPOLL_CTL_ADD, c->socket, &event), "epoll");
    if (send(c->socket, capabilities, sizeof capabilities, MSG_NOSIGNAL) < 0)
        perror("send");
}

int main(int words, char **word)
{
    struct sockaddr_in address = {.sin_family = AF_INET};
    struct epoll_event events[EVENTS], event = {.events = EPOLLIN};
    int port = words == 3 ? atoi(word[2]) : 0;
    if (port < 1 || port > 65535 || inet_pton(AF_INET, word[1], &address.sin_addr) != 1)
        return fputs("floor HOST PORT, the host as four numbers\n", stderr), 1;
    address.sin_port = htons((uint16_t)port);
    int listener = checked(socket(AF_INET, SOCK_STREAM, 0), "socket"), epoll = checked(epoll_create1(0), "epoll");
    int yes = 1;
    checked(setsockopt(listener, SOL_SOCKET, SO_REUSEADDR, &yes, sizeof yes), "setsockopt");
    checked(bind(listener, (struct sockaddr *)&address, sizeof address), "bind");
    checked(listen(listener, SOMAXCONN), "listen");
    checked(epoll_ctl(epoll, EPOLL_CTL_ADD, listener, &event), "epoll");
    for (;;) {
        int count = checked(epoll_wait(epoll, events, EVENTS, -1), "epoll");
        for (int it = 0; it < count; it++) {
            if (events[it].data.ptr == NULL)
                greet(epoll, listener);
            else
                serve(events[it].data.ptr);
        }
    }
}
