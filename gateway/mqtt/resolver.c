#include "resolver.h"

#include <dlfcn.h>
#include <netdb.h>
#include <netinet/in.h>
#include <sys/socket.h>
#include <time.h>

static const struct addrinfo wanted = {.ai_family = AF_UNSPEC, .ai_socktype = SOCK_STREAM};

/* The thread writes to it while it is under way. */
static struct gaicb request;

/* The known addresses, and the selected one of them. */
static struct addrinfo *addresses;
static const struct addrinfo *selected;

/* Calls the getaddrinfo of the C library for the text of an address, so it does not block. */
static int read_address(const char *text, const struct addrinfo *hints, struct addrinfo **found) {
    int (*call)(const char *, const char *, const struct addrinfo *, struct addrinfo **) = NULL;
    struct addrinfo numeric = *hints;
    numeric.ai_flags |= AI_NUMERICHOST;
    *(void **)&call = dlsym(RTLD_NEXT, "getaddrinfo");
    return call ? call(text, NULL, &numeric, found) : EAI_SYSTEM;
}

/* Returns the selected address. libmosquitto calls this function with the name of the broker and without a service. */
int getaddrinfo(const char *restrict name, const char *restrict service, const struct addrinfo *restrict hints,
                struct addrinfo **restrict found) {
    char text[NI_MAXHOST];
    (void)name;
    (void)service;
    if (!selected)
        return EAI_AGAIN;
    int error = getnameinfo(selected->ai_addr, selected->ai_addrlen, text, sizeof text, NULL, 0, NI_NUMERICHOST);
    return error ? error : read_address(text, hints, found);
}

/* Replaces the known addresses. */
static void replace(struct addrinfo *found) {
    if (addresses)
        freeaddrinfo(addresses);
    addresses = found;
    selected = found;
}

void resolver_begin(const char *name) {
    struct addrinfo *found = NULL;
    struct gaicb *requests[] = {&request};
    request = (struct gaicb){.ar_name = name, .ar_request = &wanted};
    if (read_address(name, &wanted, &found) == 0)
        replace(found);
    else
        getaddrinfo_a(GAI_NOWAIT, requests, 1, NULL);
}

int resolver_check(void) {
    const struct gaicb *const requests[] = {&request};
    struct timespec none = {0};
    /* Takes the lock under which the thread has written the result. */
    gai_suspend(requests, 1, &none);
    int error = gai_error(&request);
    if (error == EAI_INPROGRESS)
        return error;
    if (!error && request.ar_result) {
        replace(request.ar_result);
        request.ar_result = NULL;
    }
    return addresses ? 0 : error ? error : EAI_NONAME;
}

void resolver_select(size_t place) {
    size_t count = 0;
    for (const struct addrinfo *at = addresses; at; at = at->ai_next)
        count++;
    selected = addresses;
    for (size_t left = count ? place % count : 0; left; left--)
        selected = selected->ai_next;
}
