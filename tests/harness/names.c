/* Host names and addresses that follow the settings of a run. NAMES has the IPv4 addresses of every name, separated by
   spaces. If it is not set, no name is known. UNREACHABLE is an IPv4 address without a route. */
#include <arpa/inet.h>
#include <errno.h>
#include <netdb.h>
#include <netinet/in.h>
#include <stdlib.h>
#include <string.h>
#include <sys/socket.h>
#include <sys/syscall.h>
#include <unistd.h>

/* An address of a list and its socket address, in one allocation. */
struct place {
    struct addrinfo info;
    struct sockaddr_in address;
};

static struct addrinfo *place_of(const char *text) {
    struct place *place = calloc(1, sizeof *place);
    place->address.sin_family = AF_INET;
    inet_pton(AF_INET, text, &place->address.sin_addr);
    place->info.ai_family = AF_INET;
    place->info.ai_socktype = SOCK_STREAM;
    place->info.ai_addr = (struct sockaddr *)&place->address;
    place->info.ai_addrlen = sizeof place->address;
    return &place->info;
}

int getaddrinfo(const char *name, const char *service, const struct addrinfo *hints, struct addrinfo **found) {
    (void)name, (void)service, (void)hints;
    const char *names = getenv("NAMES");
    if (!names)
        return EAI_NONAME;
    char *texts = strdup(names), *rest = texts, *text;
    while ((text = strsep(&rest, " "))) {
        *found = place_of(text);
        found = &(*found)->ai_next;
    }
    free(texts);
    return 0;
}

void freeaddrinfo(struct addrinfo *list) {
    while (list) {
        struct addrinfo *next = list->ai_next;
        free(list);
        list = next;
    }
}

int connect(int socket, const struct sockaddr *address, socklen_t size) {
    const char *text = getenv("UNREACHABLE");
    struct in_addr unreachable;
    if (text && inet_pton(AF_INET, text, &unreachable) && address->sa_family == AF_INET
        && ((const struct sockaddr_in *)address)->sin_addr.s_addr == unreachable.s_addr) {
        errno = ENETUNREACH;
        return -1;
    }
    return syscall(SYS_connect, socket, address, size);
}
