/*
 * CoAP over TCP (RFC 8323): a server engine and a client engine without I/O, as a C library.
 *
 * The program passes in received bytes, and writes the bytes that an engine queues. The library opens no socket, reads
 * no clock and starts no thread. It needs these functions of the C library: malloc, realloc and free (or those of the
 * program: see MEMORY), memcpy, memmove and memset.
 *
 * Each exported call is proved to do what its contract states (crates/c_api). Not proved: the inline functions of
 * this header, and what the C program does. The header is for C99 or later, and for C++98 or later.
 *
 * WHAT THE PROGRAM MUST GUARANTEE
 *
 * - A handle is a variable that is {0} before the first call. Only one copy of it is used, and only by these calls.
 * - All calls on one handle come from one thread, never from a signal handler, and never from the forked child of a
 *   process with threads. Handles of different threads share nothing but malloc: the library has no variables.
 * - A pointer with a length (or a count, or room) of 0 may be NULL. So may the outputs `version`, `reply` and `token`,
 *   which are not set then. No other pointer is NULL.
 * - Each pointer points to memory of its type that is aligned, initialised and overlaps neither the memory behind
 *   another argument of the call nor a handle. A length is at most PTRDIFF_MAX.
 * - Lent bytes (struct dachreup_span) are read only before the next call on the same handle, and are no argument of a
 *   call on it. Those that lie in bytes that the program passed in hold no longer than these. They are not written.
 *   This one rule holds for every span. Spans of the calls without a handle lie in the bytes that were passed in.
 * - malloc, realloc and free come from one allocator, align as C requires, and do not call this library.
 *
 * A text or an input is a pointer and a length. It is borrowed during the call alone: the library keeps a copy of what
 * it needs.
 *
 * Structs may grow, and so may their values: set them with a macro or a function of this header, and change the members
 * that differ. The library is static, so a program and its library always have one header.
 *
 * A handle is never const: also a call that only reads takes the engine out of its handle and puts it back.
 *
 * RESULTS
 *
 * Each call returns DACHREUP_OK if it succeeds, otherwise a value of enum dachreup_error. A call that fails leaves the
 * handle and its outputs as they were, unless it says otherwise. Every call with a handle can return DACHREUP_EMPTY.
 * In C++, keep a result in a dachreup_result: it converts to no enum.
 *
 * MEMORY
 *
 * The library calls dachreup_malloc, dachreup_realloc and dachreup_free. If the program does not define them, they are
 * malloc, realloc and free. A program that defines one of them defines all three.
 *
 * All memory of a connection is allocated by open, and by announce for a larger size. With sizes of 1,152 bytes and one
 * connection, without observers, delayed responses and resources, the smallest server allocates 20,951 bytes, and the
 * smallest client 2,608, on x86-64.
 */
#ifndef DACHREUP_H
#define DACHREUP_H

#include <stddef.h>
#include <stdint.h>

#ifdef __cplusplus
extern "C" {
#endif

#define DACHREUP_VERSION "0.1.0"

/* The result of these calls must be used. A program may define the macro itself, also as nothing. */
#ifndef DACHREUP_MUST_USE
#ifdef __GNUC__
#define DACHREUP_MUST_USE __attribute__((warn_unused_result))
#else
#define DACHREUP_MUST_USE
#endif
#endif

/* A value of enum dachreup_error. The size of an enum differs between compilers, that of a result does not. */
typedef uint32_t dachreup_result;

enum dachreup_error {
    DACHREUP_OK = 0,
    DACHREUP_EMPTY = 1,           /* the handle has no engine, or no entries */
    DACHREUP_MEMORY = 2,          /* an allocation failed */
    DACHREUP_OCCUPIED = 3,        /* new: the handle has an engine or entries already */
    DACHREUP_NOT_A_PATH = 4,      /* the text or the list is not a path; message_path: no text names the path */
    DACHREUP_NOT_A_CHOICE = 5,    /* a value that is one of a few, such as a method, is none of them */
    DACHREUP_NO_SUCH = 6,         /* no connection has the id; remove, state: no such resource, or a built-in one */
    DACHREUP_NO_ROOM = 7,         /* the buffer of the program is too small */
    DACHREUP_TOO_MANY = 8,        /* written: more bytes than are queued */
    DACHREUP_BACKWARDS = 9,       /* tick: the time is before that of the server */
    DACHREUP_NO_MORE = 10,        /* option_next, next_output, next_deadline: there is no other */
    DACHREUP_QUEUE_FULL = 11,     /* the output queue has no room; try again after bytes were written */
    DACHREUP_NOT_OPEN = 12,       /* the connection has no CSM of its peer yet, or has been released or stopped */
    DACHREUP_PEER_TOO_SMALL = 13, /* the peer does not accept a message of this size */

    /* new: the first value that is out of its range */
    DACHREUP_MAX_MESSAGE = 32,
    DACHREUP_MAX_SENT = 33,
    DACHREUP_QUEUE = 34,
    DACHREUP_PENDING = 35,
    DACHREUP_OBSERVERS = 36,
    DACHREUP_OUTSTANDING = 37,
    DACHREUP_CONNECTIONS = 38,
    DACHREUP_DYNAMIC_MAX = 39,
    DACHREUP_REP_MAX = 40,

    /* open */
    DACHREUP_FULL = 48,      /* the limit of connections is reached */
    DACHREUP_IDS_SPENT = 49, /* no id is left */

    /* put */
    DACHREUP_TOO_LARGE = 64,      /* the representation exceeds rep_max */
    DACHREUP_LIMIT = 65,          /* dynamic_max resources are stored */
    DACHREUP_BAD_PATH = 66,       /* the path is that of a built-in resource */
    DACHREUP_VERSIONS_SPENT = 67, /* no version is left */

    /* applications_new, applications_add */
    DACHREUP_APPLICATION_FULL = 80,       /* there are 16 entries */
    DACHREUP_APPLICATION_ROOT = 81,       /* the path has no segment */
    DACHREUP_APPLICATION_TWICE = 82,      /* another entry has the path */
    DACHREUP_APPLICATION_METHOD = 83,     /* no method, or a bit above 31 or below 1 */
    DACHREUP_APPLICATION_ATTRIBUTES = 84, /* not of the form of RFC 6690, or above 255 bytes */
    DACHREUP_APPLICATION_DEADLINE = 85,   /* 0 */
    DACHREUP_APPLICATION_BUILT_IN = 86,   /* the path is that of a built-in resource */

    /* respond */
    DACHREUP_NO_SUCH_REQUEST = 96, /* no request with this token waits for a response of the application */
    DACHREUP_NOT_A_RESPONSE = 97,  /* no message of class 2, 4 or 5, or a message with an Observe option */

    /* message_read, message_path: the first error of the frame */
    DACHREUP_FRAME_TOKEN_LENGTH = 112,
    DACHREUP_FRAME_OPTION_DELTA = 113,
    DACHREUP_FRAME_OPTION_LENGTH = 114,
    DACHREUP_FRAME_OPTION_CUT = 115,
    DACHREUP_FRAME_OPTION_NUMBER = 116,
    DACHREUP_FRAME_EMPTY_PAYLOAD = 117,
    DACHREUP_FRAME_NOT_ONE = 118, /* not exactly one frame */

    /* option_next, option_write, message_write */
    DACHREUP_OPTION_MALFORMED = 128,
    DACHREUP_OPTION_ORDER = 129,    /* the number is below that of the option before it */
    DACHREUP_OPTION_TOO_LONG = 130, /* a value above 65,804 bytes */
    DACHREUP_OPTION_NUMBER = 131,   /* above 65,535 */
    DACHREUP_WRITE_CODE = 132,      /* above 255 */
    DACHREUP_WRITE_TOKEN = 133,     /* above 64 bytes */
    DACHREUP_WRITE_OPTIONS = 134,   /* not encoded options, and nothing else */
    DACHREUP_WRITE_TOO_LARGE = 135, /* options, marker and payload of more than 1,048,576 bytes */

    /* target, client_send, client_cancel: the first error of the URI */
    DACHREUP_URI_URL = 144, /* no absolute URL */
    DACHREUP_URI_SCHEME = 145,
    DACHREUP_URI_NO_HOST = 146,
    DACHREUP_URI_USER_INFO = 147,
    DACHREUP_URI_FRAGMENT = 148,
    DACHREUP_URI_PART_TOO_LONG = 149,
    DACHREUP_URI_TOO_MANY_PARTS = 150,

    /* client_send, client_cancel, client_ping, client_forget */
    DACHREUP_REQUEST_TOO_MANY = 160,     /* `outstanding` requests have no last response yet */
    DACHREUP_REQUEST_TOO_BIG = 161,      /* the request exceeds max_sent, or the size that the peer accepts */
    DACHREUP_REQUEST_TOKENS_SPENT = 162, /* no token is left */
    DACHREUP_REQUEST_NO_SUCH_TOKEN = 163, /* nothing outstanding has the token */

    /* announce */
    DACHREUP_ANNOUNCE_LOWER = 176,    /* below the size announced last */
    DACHREUP_ANNOUNCE_TOO_LARGE = 177 /* above 1,048,576 bytes */
};

/* Returns what is wrong, such as "no such connection or resource". */
static inline const char *dachreup_error_text(dachreup_result result);

/* Returns DACHREUP_VERSION. */
static inline const char *dachreup_version(void);

/* Does nothing. It says that a result does not matter: dachreup_ignore(dachreup_server_drop(&server, id)). */
static inline void dachreup_ignore(dachreup_result result);

/* Bytes that the library lends, or that the program names. Lent ones are never at NULL, also with count 0. */
struct dachreup_span {
    const uint8_t *at;
    size_t count;
};

/* Returns the span of these bytes. */
static inline struct dachreup_span dachreup_span_of(const void *bytes, size_t count);

/* Two spans whose bytes follow each other: the layout of two `struct iovec`. The first one is empty only if both are.
   This is tested, not proved. */
struct dachreup_parts {
    struct dachreup_span first;
    struct dachreup_span second;
};

/* Why a connection was released or stopped. */
enum dachreup_reason {
    DACHREUP_REASON_BAD_MESSAGE = 1,
    DACHREUP_REASON_MESSAGE_TOO_LARGE = 2,
    DACHREUP_REASON_BAD_TOKEN_LENGTH = 3,
    DACHREUP_REASON_RESERVED_CODE = 4,
    DACHREUP_REASON_CSM_EXPECTED = 5,
    DACHREUP_REASON_BAD_CSM = 6,
    DACHREUP_REASON_BAD_SIGNAL_OPTION = 7,
    DACHREUP_REASON_PEER_ABORT = 8,
    DACHREUP_REASON_PEER_RELEASE = 9,
    DACHREUP_REASON_PEER_TOO_SMALL = 10,
    DACHREUP_REASON_ENDED = 11,
    DACHREUP_REASON_CUT = 12,
    DACHREUP_REASON_RELEASED_HERE = 13
};

enum dachreup_phase {
    DACHREUP_PHASE_WAITING = 0, /* for the CSM of the peer */
    DACHREUP_PHASE_OPEN = 1,
    DACHREUP_PHASE_RELEASING = 2, /* released by the peer */
    DACHREUP_PHASE_STOPPED = 3
};

/* Names no Content-Format. */
#define DACHREUP_NO_FORMAT UINT32_C(65536)

/* ---- messages, without a handle ---- */

/* The code of a message: DACHREUP_CODE(2, 5) is 2.05 (Content). */
#define DACHREUP_CODE(class_, detail) ((uint32_t)((class_) * 32 + (detail)))

/* A message that was read, as spans of its frame, or one to write. */
struct dachreup_message {
    struct dachreup_span token;   /* at most 64 bytes */
    struct dachreup_span options; /* the encoded options, for dachreup_option_next and dachreup_message_write */
    struct dachreup_span payload; /* empty if there is none */
    uint32_t code;                /* class * 32 + detail */
};

/* Returns the message with this code and this token, without options and payload. */
static inline struct dachreup_message dachreup_message_of(uint32_t code, struct dachreup_span token);

/* Reads one message: `frame` is its whole encoding (RFC 8323 section 3.2). Returns DACHREUP_FRAME_... */
DACHREUP_MUST_USE static inline dachreup_result
dachreup_message_read(const void *frame, size_t length, struct dachreup_message *message);

/* Bytes of the longest text that names a path. */
#define DACHREUP_PATH_ROOM 254

/*
 * Writes the path of the request that a frame encodes to the start of `path`, which has `room` bytes, and sets
 * *path_length. The text is the segments with slashes between them, as dachreup_server_state takes it. No zero byte
 * follows it. Returns DACHREUP_NOT_A_PATH (no resource can have the path, or a segment has a slash, so that no text
 * names it), DACHREUP_NO_ROOM or DACHREUP_FRAME_...
 */
DACHREUP_MUST_USE static inline dachreup_result
dachreup_message_path(const void *frame, size_t length, char *path, size_t room,
                      size_t *path_length);

/* Numbers of options (RFC 7252 section 5.10, RFC 7641 section 2). An odd number is critical. */
enum dachreup_number {
    DACHREUP_NUMBER_IF_MATCH = 1,
    DACHREUP_NUMBER_URI_HOST = 3,
    DACHREUP_NUMBER_ETAG = 4,
    DACHREUP_NUMBER_IF_NONE_MATCH = 5,
    DACHREUP_NUMBER_OBSERVE = 6,
    DACHREUP_NUMBER_URI_PORT = 7,
    DACHREUP_NUMBER_URI_PATH = 11,
    DACHREUP_NUMBER_CONTENT_FORMAT = 12,
    DACHREUP_NUMBER_URI_QUERY = 15,
    DACHREUP_NUMBER_ACCEPT = 17
};

/*
 * Reads the next one of encoded options. *at and *number are 0 before the first call. Sets *number to the number of the
 * option, such as one of enum dachreup_number, and *value to its value, which lies in `options`. Moves *at to the next
 * option.
 * Returns DACHREUP_NO_MORE at the end or at a payload marker, and DACHREUP_OPTION_MALFORMED.
 */
DACHREUP_MUST_USE static inline dachreup_result
dachreup_option_next(const void *options, size_t length, size_t *at, uint32_t *number,
                     struct dachreup_span *value);

/*
 * Appends one encoded option to the first *length bytes of `options`, which has `room` bytes. *length and *last are 0
 * before the first call. Moves *length past the option, and sets *last to its number. Numbers do not descend.
 * Returns the first of DACHREUP_OPTION_NUMBER, _OPTION_ORDER, _OPTION_TOO_LONG and _NO_ROOM.
 */
DACHREUP_MUST_USE static inline dachreup_result
dachreup_option_write(uint8_t *options, size_t room, size_t *length, uint32_t *last,
                      uint32_t number, const void *value, size_t value_length);

/*
 * Writes the encoding of one message to the start of `buffer`, which has `room` bytes, and sets *length. The other
 * bytes of the buffer stay. The options are those of dachreup_option_write or of a message that was read. Without
 * options and payload, 67 bytes are enough.
 * Returns the first of DACHREUP_WRITE_CODE, _WRITE_TOKEN, _WRITE_OPTIONS, _WRITE_TOO_LARGE and _NO_ROOM.
 */
DACHREUP_MUST_USE static inline dachreup_result
dachreup_message_write(const struct dachreup_message *message, uint8_t *buffer, size_t room,
                       size_t *length);

/* ---- server ---- */

/* A server, owned by the handle from dachreup_server_new to dachreup_server_free. */
struct dachreup_server {
    void *at;
};

/*
 * Configuration of a server. Sizes are in bytes. With 0, `max_message`, `max_sent`, `queue`, `outstanding` and
 * `connections` have their defaults, and `pending`, `observers`, `dynamic_max` and `rep_max` mean none.
 *
 * The pending entries of a connection are delayed responses, delayed Pongs, and requests that the application has not
 * answered. A request that would exceed `pending` gets 5.03. So with 0, no request reaches the application.
 *
 * An engine accepts bytes only while its queue has room for `max_sent` bytes. So a program that joins two engines
 * without a buffer between them gives one of them a queue of more than `max_sent` bytes.
 */
struct dachreup_settings {
    size_t max_message; /* largest message accepted: 1,152 to 1,048,576; 0: 65,536 */
    size_t max_sent;    /* largest message sent: 1,152 to 65,536; 0: 65,536 */
    size_t queue;       /* output queue of a connection: max_sent to 4,194,304; 0: 131,072 */
    size_t pending;     /* pending entries of a connection: at most 256 */
    size_t observers;   /* observers of a connection: at most 256 */
    size_t outstanding; /* outstanding requests of a connection: 1 to 256; 0: 16 */
    size_t connections; /* connections: 1 to 256; 0: 16 */
    size_t dynamic_max; /* resources that clients and the program create: at most 1,000 */
    size_t rep_max;     /* largest representation: at most 1,048,576 */
    uint64_t moment;    /* start time in seconds */
    uint64_t versions;  /* the first representation has the next version; the version is the ETag */
    uint64_t ids;       /* the first connection has the next id */
};

/* The default limits of the engine, with room for `resources` resources. The time and the versions begin at 0: a server
   that starts again repeats its ETags for other representations. dachreup_settings_at does not. */
#define DACHREUP_SETTINGS(resources) { 65536, 65536, 131072, 16, 16, 16, 16, (resources), 65536, 0, 0, 0 }

/*
 * Returns DACHREUP_SETTINGS(resources) for a server that starts at this time, in seconds since the epoch. Versions
 * begin at 65,536 times the time. A server that starts again in a later second therefore repeats no ETag, unless it
 * stored more than 65,536 representations a second. Its dachreup_server_tick counts in seconds since the epoch too.
 */
static inline struct dachreup_settings dachreup_settings_at(size_t resources, uint64_t seconds);

enum dachreup_handled { DACHREUP_HANDLED_NOTHING = 0, DACHREUP_HANDLED_MESSAGE = 1, DACHREUP_HANDLED_STOPPED = 2 };

/* Result of a take. */
struct dachreup_took {
    size_t bytes;     /* bytes accepted from the start of the input */
    uint32_t handled; /* enum dachreup_handled; after DACHREUP_HANDLED_STOPPED no more messages are accepted */
    uint32_t reason;  /* enum dachreup_reason of a stop, otherwise 0 */
    uint32_t memory;  /* 1: an allocation failed, and the call returned DACHREUP_OK; otherwise 0 */
    /* The request that the application answers, if the accepted bytes end with one: one encoded message, otherwise
       count 0. The span is lent: copy the bytes that you pass to a call on this server. */
    struct dachreup_span request;
    /* The request that stored or deleted a resource, if the accepted bytes end with one, otherwise count 0.
       dachreup_message_path writes its path. No other resource has changed. */
    struct dachreup_span changed;
};

/* Snapshot of a connection. */
struct dachreup_status {
    uint32_t phase;    /* enum dachreup_phase */
    uint32_t reason;   /* enum dachreup_reason of a release or a stop, otherwise 0 */
    size_t kept;       /* bytes kept of an unfinished message */
    size_t waiting;    /* bytes queued for writing */
    size_t pending;    /* pending entries: responses, Pongs and requests */
    size_t observers;  /* observers */
    uint32_t peer_max; /* largest message that the peer accepts */
    /* 1 if nothing more will be written: the program may close the connection, and call dachreup_server_drop. Until
       then, it counts as one of `connections`. */
    uint32_t finished;
};

/*
 * Makes a server without connections. The handle owns it until dachreup_server_free. It has four built-in resources:
 * the root, /.well-known/core, /time and /async. A program can neither store these nor answer requests for them.
 * Returns DACHREUP_MEMORY, DACHREUP_OCCUPIED, or the first setting out of range (32 to 40).
 */
DACHREUP_MUST_USE dachreup_result
dachreup_server_new(struct dachreup_server *server, const struct dachreup_settings *settings);

/* Frees the server, if the handle has one. The handle is empty then, and can be used again. */
void dachreup_server_free(struct dachreup_server *server);

/*
 * The entries of an application: paths whose requests the program itself answers. The handle owns them from
 * dachreup_applications_new to dachreup_server_new_for or dachreup_applications_free.
 */
struct dachreup_applications {
    void *at;
};

/*
 * Makes an empty list of entries. A request that has no response after `deadline` seconds gets 5.04.
 * Returns DACHREUP_MEMORY, DACHREUP_OCCUPIED or DACHREUP_APPLICATION_DEADLINE.
 */
DACHREUP_MUST_USE dachreup_result
dachreup_applications_new(struct dachreup_applications *applications, uint32_t deadline);

/*
 * Adds an entry: the application answers requests at the paths that begin with the segments of `path`, unless another
 * entry has more of them. Bit n of `methods` is the method with code 0.n, such as 1 << DACHREUP_POST: DACHREUP_POST
 * alone would be GET. The engine answers other methods. `attributes` are those of the link in /.well-known/core, such
 * as "rt=\"core.rd\"", or empty.
 * Returns DACHREUP_MEMORY, DACHREUP_NOT_A_PATH or DACHREUP_APPLICATION_...
 *
 * Seven critical options reach the application: If-Match, Uri-Host, If-None-Match, Uri-Port, Uri-Path, Uri-Query and
 * Accept. The engine answers Proxy-Uri and Proxy-Scheme with 5.05, and other critical options with 4.02. Critical ones
 * are also answered with 4.02 if they have an invalid length, or are repeated and may not be. All elective options
 * reach the application.
 *
 * The application checks the options: the whole path and Uri-Query (4.04), If-Match and If-None-Match (4.12), Accept
 * (4.06) and Content-Format (4.15). It responds with 4.02 to one of the critical options that it does not support (RFC
 * 7252 sections 5.4.1 and 5.10).
 */
DACHREUP_MUST_USE static inline dachreup_result
dachreup_applications_add(struct dachreup_applications *applications, const char *path,
                          size_t path_length, uint32_t methods, const char *attributes,
                          size_t attributes_length);

/* Frees the entries, if the handle has some. The handle is empty then, and can be used again. */
void dachreup_applications_free(struct dachreup_applications *applications);

/*
 * Makes a server as dachreup_server_new does, whose application answers the requests of these entries. The server takes
 * them: their handle is empty after success, and also after DACHREUP_MEMORY.
 * Returns DACHREUP_OCCUPIED, the first setting out of range (32 to 40), then DACHREUP_EMPTY (there are no entries),
 * then DACHREUP_MEMORY.
 */
DACHREUP_MUST_USE dachreup_result
dachreup_server_new_for(struct dachreup_server *server, const struct dachreup_settings *settings,
                        struct dachreup_applications *applications);

/*
 * Opens a connection, queues the server's CSM on it, and sets *id. Ids count up, and none is used twice.
 * Returns DACHREUP_MEMORY, DACHREUP_FULL or DACHREUP_IDS_SPENT.
 */
DACHREUP_MUST_USE dachreup_result
dachreup_server_open(struct dachreup_server *server, uint64_t *id);

/*
 * Accepts the first bytes of `piece`, which the connection received, and processes at most one message. The program
 * offers the other bytes again. No byte is accepted if the queue has no room for a message of max_sent bytes, or if
 * the connection accepts no more messages. Sets *took in every case.
 * If took->memory is 1, the bytes before the last one of a message were accepted, and the message was not processed.
 * The result is DACHREUP_OK. The program may offer the last byte again.
 * Returns DACHREUP_NO_SUCH.
 */
DACHREUP_MUST_USE static inline dachreup_result
dachreup_server_take(struct dachreup_server *server, uint64_t id, const void *piece, size_t length,
                     struct dachreup_took *took);

/*
 * Sets *id to a connection that has queued bytes, and that was not yielded since bytes were added to them or a part of
 * them was written. So each connection is yielded after every such change, in any order; several changes count once.
 * Another call that concerns the connection may make it yielded too. A take that handles nothing does not: a take that
 * accepts no byte, or only a part of a message. Nor does written with 0.
 * Returns DACHREUP_NO_MORE if there is no such connection.
 *
 * Repeat it after calls that can queue bytes (open, take, respond, tick, put, put_at, remove, remove_at, ended,
 * release, announce), and write the bytes of each id by dachreup_server_parts and _written. Between, offer kept bytes
 * again if need be, and make no other call that can queue bytes: otherwise there may be no end.
 *
 * If the transport accepts none or only a part of the bytes, keep the id. Call dachreup_server_parts with it once the
 * transport is writable. Without a further change, such as a part that was written, the id is not yielded again.
 */
DACHREUP_MUST_USE dachreup_result
dachreup_server_next_output(struct dachreup_server *server, uint64_t *id);

/* Lends the queued bytes of a connection, without a copy. Returns DACHREUP_NO_SUCH. */
DACHREUP_MUST_USE dachreup_result
dachreup_server_parts(struct dachreup_server *server, uint64_t id, struct dachreup_parts *parts);

/* Removes the first `count` bytes from the queue, after the program has written them. Returns DACHREUP_NO_SUCH or
   DACHREUP_TOO_MANY. */
DACHREUP_MUST_USE dachreup_result
dachreup_server_written(struct dachreup_server *server, uint64_t id, size_t count);

enum dachreup_reply { DACHREUP_REPLY_WHOLE = 0, DACHREUP_REPLY_BARE = 1, DACHREUP_REPLY_STOPPED = 2 };

/*
 * Queues the response to a request that the application answers, and sets *reply (enum dachreup_reply). `response` is
 * one encoded message with the token of the request. If it exceeds the size that the peer accepts, it is reduced to its
 * code and token (DACHREUP_REPLY_BARE); if that exceeds it too, the connection stops (DACHREUP_REPLY_STOPPED).
 * Returns DACHREUP_NO_SUCH, DACHREUP_NO_SUCH_REQUEST, DACHREUP_NOT_A_RESPONSE or DACHREUP_QUEUE_FULL. Directly after
 * the take of the request, the queue has room. Forget a request at its deadline: the client may use its token again,
 * and a late response would answer the new request.
 */
DACHREUP_MUST_USE static inline dachreup_result
dachreup_server_respond(struct dachreup_server *server, uint64_t id, const void *response,
                        size_t length, uint32_t *reply);

/* Sets the time in seconds: delayed responses, 5.04 after a deadline, and observers of /time. Returns
   DACHREUP_BACKWARDS. */
DACHREUP_MUST_USE dachreup_result
dachreup_server_tick(struct dachreup_server *server, uint64_t now);

/*
 * Sets *seconds to the time at which a dachreup_server_tick is needed next. Every other call can make it earlier.
 * Delays of the server count from its last tick. So a program also ticks after a wait, before it offers bytes.
 * Returns DACHREUP_NO_MORE if no time is needed.
 */
DACHREUP_MUST_USE dachreup_result
dachreup_server_next_deadline(struct dachreup_server *server, uint64_t *seconds);

/*
 * Stores a representation at a path, notifies the observers, and sets *version. `path` is the segments with slashes
 * between them, such as "sensors/1", not encoded. It has no slash at the start or the end: "/a" is an empty segment and
 * "a". `format` is a Content-Format, or a number above 65,535 for none. Each put notifies the observers, also with
 * equal bytes.
 * Returns DACHREUP_MEMORY, _NOT_A_PATH, _TOO_LARGE, _LIMIT, _BAD_PATH or _VERSIONS_SPENT.
 */
DACHREUP_MUST_USE static inline dachreup_result
dachreup_server_put(struct dachreup_server *server, const char *path, size_t path_length,
                    uint32_t format, const void *bytes, size_t length, uint64_t *version);

/* A stored representation. */
struct dachreup_state {
    struct dachreup_span bytes; /* lent */
    uint64_t version;           /* that of the put; the ETag */
    uint32_t format;            /* Content-Format, or DACHREUP_NO_FORMAT */
};

/* Sets *state to the representation stored at a path. Returns DACHREUP_NOT_A_PATH or DACHREUP_NO_SUCH. */
DACHREUP_MUST_USE static inline dachreup_result
dachreup_server_state(struct dachreup_server *server, const char *path, size_t path_length,
                      struct dachreup_state *state);

/* Removes the resource at a path, and notifies its observers. Returns DACHREUP_NOT_A_PATH or DACHREUP_NO_SUCH. */
DACHREUP_MUST_USE static inline dachreup_result
dachreup_server_remove(struct dachreup_server *server, const char *path, size_t path_length);

/*
 * put, state and remove at a path that a list of segments names. Each segment is a byte with its length, followed by
 * its bytes: the six bytes "\1a\3b/c" are the segments "a" and "b/c". So these calls also reach the paths that no text
 * names, because a segment has a slash. The list of no bytes is the root, as the empty text is.
 * Each call returns the results of the call with a text. DACHREUP_NOT_A_PATH is also the result if a segment has fewer
 * bytes than its length.
 */
DACHREUP_MUST_USE static inline dachreup_result
dachreup_server_put_at(struct dachreup_server *server, const void *segments, size_t segments_length,
                       uint32_t format, const void *bytes, size_t length, uint64_t *version);
DACHREUP_MUST_USE static inline dachreup_result
dachreup_server_state_at(struct dachreup_server *server, const void *segments,
                         size_t segments_length, struct dachreup_state *state);
DACHREUP_MUST_USE static inline dachreup_result
dachreup_server_remove_at(struct dachreup_server *server, const void *segments,
                          size_t segments_length);

/* Records the end of the input of a connection. Returns DACHREUP_NO_SUCH. */
DACHREUP_MUST_USE dachreup_result
dachreup_server_ended(struct dachreup_server *server, uint64_t id);

/* Queues a Release and stops the connection. Returns DACHREUP_NO_SUCH, _NOT_OPEN, _QUEUE_FULL or _PEER_TOO_SMALL. */
DACHREUP_MUST_USE dachreup_result
dachreup_server_release(struct dachreup_server *server, uint64_t id);

/* Removes a connection, with its queued bytes. Returns DACHREUP_NO_SUCH. */
DACHREUP_MUST_USE dachreup_result
dachreup_server_drop(struct dachreup_server *server, uint64_t id);

/* Announces the largest message accepted from now on, in bytes. Returns DACHREUP_MEMORY, _NO_SUCH, _NOT_OPEN,
   _ANNOUNCE_LOWER, _ANNOUNCE_TOO_LARGE, _QUEUE_FULL or _PEER_TOO_SMALL. */
DACHREUP_MUST_USE dachreup_result
dachreup_server_announce(struct dachreup_server *server, uint64_t id, uint32_t size);

/* Sets *status to the status of a connection. Returns DACHREUP_NO_SUCH. */
DACHREUP_MUST_USE dachreup_result
dachreup_server_status(struct dachreup_server *server, uint64_t id, struct dachreup_status *status);

/* ---- client ---- */

/* Host and port of a URI. */
struct dachreup_place {
    size_t host;         /* bytes of the host, 1 to 255 */
    uint32_t is_address; /* 1 for an IPv4 or IPv6 address, 0 for a name */
    uint32_t port;
};

/*
 * Reads a URI of the scheme coap+tcp. Writes the host and a zero byte to the start of `host`, which has `room` bytes
 * (256 are enough), and sets *place. The host has no brackets and no escapes. A name may contain a zero byte: compare
 * strlen with place->host before it is given to a resolver.
 * Returns DACHREUP_MEMORY, DACHREUP_NO_ROOM or DACHREUP_URI_...
 */
DACHREUP_MUST_USE static inline dachreup_result
dachreup_target(const char *uri, size_t length, char *host, size_t room,
                struct dachreup_place *place);

/* A client of one connection, owned by the handle from dachreup_client_new to dachreup_client_free. */
struct dachreup_client {
    void *at;
};

/* Limits of a client. Sizes are in bytes; the ranges and the meaning of 0 are those of struct dachreup_settings.
   `observers` does not limit the observations of the client: `outstanding` does. */
struct dachreup_limits {
    size_t max_message;
    size_t max_sent;
    size_t queue;
    size_t pending;
    size_t observers;
    size_t outstanding; /* requests, observations and Pings that wait for a response: 1 to 256 */
};

/* The default limits of the engine. */
#define DACHREUP_LIMITS { 65536, 65536, 131072, 16, 16, 16 }

/*
 * Makes a client, and queues its CSM. Each request has a token: a number above `tokens`, counting up from the next one.
 * The token of a message is the shortest encoding of the number in network order.
 * Returns DACHREUP_MEMORY, DACHREUP_OCCUPIED, or the first limit out of range (32 to 37).
 */
DACHREUP_MUST_USE dachreup_result
dachreup_client_new(struct dachreup_client *client, const struct dachreup_limits *limits,
                    uint64_t tokens);

/* Frees the client, if the handle has one. The handle is empty then, and can be used again. */
void dachreup_client_free(struct dachreup_client *client);

enum dachreup_method { DACHREUP_GET = 1, DACHREUP_POST = 2, DACHREUP_PUT = 3, DACHREUP_DELETE = 4 };

/* Flags of a request, joined with |. */
enum dachreup_flag {
    DACHREUP_OBSERVE = 1, /* registers as an observer: only with DACHREUP_GET, which no call checks */
    DACHREUP_PLAIN = 2    /* sends no Uri-Host */
};

/* Properties of a request besides its URI and its payload. Begin with DACHREUP_REQUEST: the format 0 of a zeroed struct
   is text/plain. */
struct dachreup_request {
    uint32_t method;         /* enum dachreup_method */
    uint32_t flags;          /* enum dachreup_flag */
    uint32_t content_format; /* of the payload, or DACHREUP_NO_FORMAT */
    uint32_t accept;         /* the wanted Content-Format, or DACHREUP_NO_FORMAT */
};

/* A request with a method and no properties, and a GET that observes. */
#define DACHREUP_REQUEST(method) { (method), 0, DACHREUP_NO_FORMAT, DACHREUP_NO_FORMAT }
#define DACHREUP_REQUEST_GET DACHREUP_REQUEST(DACHREUP_GET)
#define DACHREUP_REQUEST_OBSERVE { DACHREUP_GET, DACHREUP_OBSERVE, DACHREUP_NO_FORMAT, DACHREUP_NO_FORMAT }

/*
 * Queues a request for a URI, and sets *token. Before the event DACHREUP_EVENT_READY it fails with DACHREUP_NOT_OPEN.
 * The request is outstanding until its last response.
 * Returns DACHREUP_MEMORY, _NOT_A_CHOICE, _URI_.., _NOT_OPEN, _QUEUE_FULL, _REQUEST_TOO_MANY, _REQUEST_TOO_BIG or
 * _REQUEST_TOKENS_SPENT.
 */
DACHREUP_MUST_USE static inline dachreup_result
dachreup_client_send(struct dachreup_client *client, const struct dachreup_request *request,
                     const char *uri, size_t uri_length, const void *payload, size_t payload_length,
                     uint64_t *token);

/*
 * Cancels the observation with this token: queues a GET with Observe 1. The URI and the request are those of the
 * observation. It stays outstanding until its last response. Returns DACHREUP_MEMORY, _NOT_A_CHOICE, _URI_..,
 * _NOT_OPEN, _QUEUE_FULL, _REQUEST_TOO_BIG or _REQUEST_NO_SUCH_TOKEN.
 */
DACHREUP_MUST_USE static inline dachreup_result
dachreup_client_cancel(struct dachreup_client *client, const struct dachreup_request *request,
                       const char *uri, size_t uri_length, uint64_t token);

/* Queues a Ping, with Custody if `custody` is 1, otherwise 0, and sets *token. Returns DACHREUP_NOT_A_CHOICE,
   _NOT_OPEN, _QUEUE_FULL, _REQUEST_TOO_MANY, _REQUEST_TOO_BIG or _REQUEST_TOKENS_SPENT. */
DACHREUP_MUST_USE static inline dachreup_result
dachreup_client_ping(struct dachreup_client *client, uint32_t custody, uint64_t *token);

/*
 * Ends an outstanding request, observation or Ping with this token, without a message: for a program that has waited
 * long enough. A response that comes later is DACHREUP_EVENT_STRANGER. Returns DACHREUP_REQUEST_NO_SUCH_TOKEN.
 */
DACHREUP_MUST_USE dachreup_result
dachreup_client_forget(struct dachreup_client *client, uint64_t token);

enum dachreup_event_kind {
    DACHREUP_EVENT_NONE = 0,
    DACHREUP_EVENT_READY = 1,        /* requests can be sent from now on */
    DACHREUP_EVENT_RESPONSE = 2,     /* last response to a request or an observation */
    DACHREUP_EVENT_NOTIFICATION = 3, /* response to an observation; more may follow */
    DACHREUP_EVENT_REJECTED = 4,     /* response with a critical option that is not recognised; the request has ended */
    DACHREUP_EVENT_PONG = 5,
    DACHREUP_EVENT_STRANGER = 6,     /* response or Pong that matches nothing outstanding */
    DACHREUP_EVENT_STOPPED = 7       /* no more messages are accepted */
};

/* Result of a take. What an event does not set is 0, with empty spans. */
struct dachreup_event {
    size_t bytes;     /* bytes accepted from the start of the input */
    uint32_t kind;    /* enum dachreup_event_kind */
    uint32_t reason;  /* STOPPED: enum dachreup_reason */
    uint32_t option;  /* REJECTED: the number of the option */
    uint32_t custody; /* PONG: 1 if it has Custody */
    uint64_t token;   /* RESPONSE, NOTIFICATION, REJECTED, PONG: the number of the token */
    struct dachreup_message message; /* RESPONSE, NOTIFICATION: the message */
};

/*
 * Accepts the first bytes of `piece`, which the connection received, and processes at most one message. The program
 * offers the other bytes again. No byte is accepted if the queue has no room for a message of max_sent bytes, or after
 * DACHREUP_EVENT_STOPPED. Sets *event in every case. Returns DACHREUP_EMPTY alone.
 */
DACHREUP_MUST_USE static inline dachreup_result
dachreup_client_take(struct dachreup_client *client, const void *piece, size_t length,
                     struct dachreup_event *event);

/* Lends the queued bytes, without a copy. Returns DACHREUP_EMPTY alone. */
DACHREUP_MUST_USE dachreup_result
dachreup_client_parts(struct dachreup_client *client, struct dachreup_parts *parts);

/* Removes the first `count` bytes from the queue, after the program has written them. Returns DACHREUP_TOO_MANY. */
DACHREUP_MUST_USE dachreup_result
dachreup_client_written(struct dachreup_client *client, size_t count);

/*
 * Records the end of the input. Outstanding requests, observations and Pings end without an event. The program may
 * close the connection if `phase` is DACHREUP_PHASE_STOPPED or DACHREUP_PHASE_RELEASING, and `waiting` is 0.
 * Returns DACHREUP_EMPTY alone.
 */
DACHREUP_MUST_USE dachreup_result
dachreup_client_ended(struct dachreup_client *client);

/* Queues a Release and stops the connection. Returns DACHREUP_NOT_OPEN, _QUEUE_FULL or _PEER_TOO_SMALL. */
DACHREUP_MUST_USE dachreup_result
dachreup_client_release(struct dachreup_client *client);

/* Announces the largest message accepted from now on, in bytes. Returns DACHREUP_MEMORY, _NOT_OPEN, _ANNOUNCE_LOWER,
   _ANNOUNCE_TOO_LARGE, _QUEUE_FULL or _PEER_TOO_SMALL. */
DACHREUP_MUST_USE dachreup_result
dachreup_client_announce(struct dachreup_client *client, uint32_t size);

/* Snapshot of a client. */
struct dachreup_client_snapshot {
    uint32_t phase;     /* enum dachreup_phase */
    uint32_t reason;    /* enum dachreup_reason of a release or a stop, otherwise 0 */
    size_t waiting;     /* bytes queued for writing */
    size_t outstanding; /* outstanding requests, observations and Pings */
    uint32_t peer_max;  /* largest message that the peer accepts */
};

/* Sets *status to the status of the client. Returns DACHREUP_EMPTY alone. */
DACHREUP_MUST_USE dachreup_result
dachreup_client_status(struct dachreup_client *client, struct dachreup_client_snapshot *status);

/* ---- memory ---- */

/* The allocator of the library, which the program may define (MEMORY above). They are those of the C library, and
   otherwise weak. A block is aligned as that of malloc. */
void *dachreup_malloc(size_t size);
void *dachreup_realloc(void *block, size_t size);
void dachreup_free(void *block);

/* ---- called by the functions above, not by a program: no pointer is NULL ---- */

dachreup_result dachreup_raw_message_read(const uint8_t *frame, size_t length, struct dachreup_message *message);
dachreup_result dachreup_raw_message_path(const uint8_t *frame, size_t length, char *path, size_t room,
                                          size_t *path_length);
dachreup_result dachreup_raw_option_next(const uint8_t *options, size_t length, size_t *at, uint32_t *number,
                                         struct dachreup_span *value);
dachreup_result dachreup_raw_option_write(uint8_t *options, size_t room, size_t *length, uint32_t *last,
                                          uint32_t number, const uint8_t *value, size_t value_length);
dachreup_result dachreup_raw_message_write(uint32_t code, const uint8_t *token, size_t token_length,
                                           const uint8_t *options, size_t options_length, const uint8_t *payload,
                                           size_t payload_length, uint8_t *buffer, size_t room, size_t *length);
dachreup_result dachreup_raw_applications_add(struct dachreup_applications *applications, const char *path,
                                              size_t path_length, uint32_t methods, const char *attributes,
                                              size_t attributes_length);
dachreup_result dachreup_raw_server_take(struct dachreup_server *server, uint64_t id, const uint8_t *piece,
                                         size_t length, struct dachreup_took *took);
dachreup_result dachreup_raw_server_respond(struct dachreup_server *server, uint64_t id, const uint8_t *response,
                                            size_t length, uint32_t *reply);
dachreup_result dachreup_raw_server_put(struct dachreup_server *server, const char *path, size_t path_length,
                                        uint32_t format, const uint8_t *bytes, size_t length, uint64_t *version);
dachreup_result dachreup_raw_server_state(struct dachreup_server *server, const char *path, size_t path_length,
                                          struct dachreup_state *state);
dachreup_result dachreup_raw_server_remove(struct dachreup_server *server, const char *path, size_t path_length);
dachreup_result dachreup_raw_server_put_at(struct dachreup_server *server, const uint8_t *segments,
                                           size_t segments_length, uint32_t format, const uint8_t *bytes, size_t length,
                                           uint64_t *version);
dachreup_result dachreup_raw_server_state_at(struct dachreup_server *server, const uint8_t *segments,
                                             size_t segments_length, struct dachreup_state *state);
dachreup_result dachreup_raw_server_remove_at(struct dachreup_server *server, const uint8_t *segments,
                                              size_t segments_length);
dachreup_result dachreup_raw_target(const char *uri, size_t length, char *host, size_t room,
                                    struct dachreup_place *place);
dachreup_result dachreup_raw_client_send(struct dachreup_client *client, const struct dachreup_request *request,
                                         const char *uri, size_t uri_length, const uint8_t *payload,
                                         size_t payload_length, uint64_t *token);
dachreup_result dachreup_raw_client_cancel(struct dachreup_client *client, const struct dachreup_request *request,
                                           const char *uri, size_t uri_length, uint64_t token);
dachreup_result dachreup_raw_client_ping(struct dachreup_client *client, uint32_t custody, uint64_t *token);
dachreup_result dachreup_raw_client_take(struct dachreup_client *client, const uint8_t *piece, size_t length,
                                         struct dachreup_event *event);

/* ---- the functions of this header, which are not proved ---- */

static inline const char *dachreup_error_text(dachreup_result result) {
    switch (result) {
    case DACHREUP_OK:
        return "no error";
    case DACHREUP_EMPTY:
        return "empty handle";
    case DACHREUP_MEMORY:
        return "out of memory";
    case DACHREUP_OCCUPIED:
        return "handle in use";
    case DACHREUP_NOT_A_PATH:
        return "invalid path";
    case DACHREUP_NOT_A_CHOICE:
        return "value out of range";
    case DACHREUP_NO_SUCH:
        return "no such connection or resource";
    case DACHREUP_NO_ROOM:
        return "buffer too small";
    case DACHREUP_TOO_MANY:
        return "count exceeds the number of queued bytes";
    case DACHREUP_BACKWARDS:
        return "time is earlier than the current time of the server";
    case DACHREUP_NO_MORE:
        return "no more entries";
    case DACHREUP_QUEUE_FULL:
        return "output queue full";
    case DACHREUP_NOT_OPEN:
        return "connection not open";
    case DACHREUP_PEER_TOO_SMALL:
        return "message exceeds the Max-Message-Size of the peer";
    case DACHREUP_MAX_MESSAGE:
        return "max_message must be between 1,152 and 1,048,576";
    case DACHREUP_MAX_SENT:
        return "max_sent must be between 1,152 and 65,536";
    case DACHREUP_QUEUE:
        return "queue must be between max_sent and 4,194,304";
    case DACHREUP_PENDING:
        return "pending must be at most 256";
    case DACHREUP_OBSERVERS:
        return "observers must be at most 256";
    case DACHREUP_OUTSTANDING:
        return "outstanding must be between 1 and 256";
    case DACHREUP_CONNECTIONS:
        return "connections must be between 1 and 256";
    case DACHREUP_DYNAMIC_MAX:
        return "dynamic_max must be at most 1,000";
    case DACHREUP_REP_MAX:
        return "rep_max must be at most 1,048,576";
    case DACHREUP_FULL:
        return "connection limit reached";
    case DACHREUP_IDS_SPENT:
        return "no connection id left";
    case DACHREUP_TOO_LARGE:
        return "representation exceeds rep_max";
    case DACHREUP_LIMIT:
        return "resource limit reached";
    case DACHREUP_BAD_PATH:
        return "path of a built-in resource";
    case DACHREUP_VERSIONS_SPENT:
        return "no version left";
    case DACHREUP_APPLICATION_FULL:
        return "entry limit reached";
    case DACHREUP_APPLICATION_ROOT:
        return "path of an entry without a segment";
    case DACHREUP_APPLICATION_TWICE:
        return "path of another entry";
    case DACHREUP_APPLICATION_METHOD:
        return "invalid methods of an entry";
    case DACHREUP_APPLICATION_ATTRIBUTES:
        return "invalid attributes of an entry";
    case DACHREUP_APPLICATION_DEADLINE:
        return "deadline of 0 seconds";
    case DACHREUP_APPLICATION_BUILT_IN:
        return "built-in path of an entry";
    case DACHREUP_NO_SUCH_REQUEST:
        return "no request with this token waits for a response";
    case DACHREUP_NOT_A_RESPONSE:
        return "not a response, or one with an Observe option";
    case DACHREUP_FRAME_TOKEN_LENGTH:
        return "reserved token length";
    case DACHREUP_FRAME_OPTION_DELTA:
        return "reserved option delta";
    case DACHREUP_FRAME_OPTION_LENGTH:
        return "reserved option length";
    case DACHREUP_FRAME_OPTION_CUT:
        return "truncated option";
    case DACHREUP_FRAME_OPTION_NUMBER:
        return "option number above 65,535";
    case DACHREUP_FRAME_EMPTY_PAYLOAD:
        return "payload marker without a payload";
    case DACHREUP_FRAME_NOT_ONE:
        return "not exactly one frame";
    case DACHREUP_OPTION_MALFORMED:
        return "malformed option";
    case DACHREUP_OPTION_ORDER:
        return "option number below that of the option before it";
    case DACHREUP_OPTION_TOO_LONG:
        return "option value above 65,804 bytes";
    case DACHREUP_OPTION_NUMBER:
        return "option number to write above 65,535";
    case DACHREUP_WRITE_CODE:
        return "code above 255";
    case DACHREUP_WRITE_TOKEN:
        return "token above 64 bytes";
    case DACHREUP_WRITE_OPTIONS:
        return "malformed options to write";
    case DACHREUP_WRITE_TOO_LARGE:
        return "message above 1,048,576 bytes";
    case DACHREUP_URI_URL:
        return "not an absolute URL";
    case DACHREUP_URI_SCHEME:
        return "scheme of the URI is not coap+tcp";
    case DACHREUP_URI_NO_HOST:
        return "URI without a host";
    case DACHREUP_URI_USER_INFO:
        return "URI with user information";
    case DACHREUP_URI_FRAGMENT:
        return "URI with a fragment";
    case DACHREUP_URI_PART_TOO_LONG:
        return "part of the URI above 255 bytes";
    case DACHREUP_URI_TOO_MANY_PARTS:
        return "too many parts of the URI";
    case DACHREUP_REQUEST_TOO_MANY:
        return "too many outstanding requests";
    case DACHREUP_REQUEST_TOO_BIG:
        return "request too large";
    case DACHREUP_REQUEST_TOKENS_SPENT:
        return "no token left";
    case DACHREUP_REQUEST_NO_SUCH_TOKEN:
        return "nothing outstanding has this token";
    case DACHREUP_ANNOUNCE_LOWER:
        return "size below the one announced last";
    case DACHREUP_ANNOUNCE_TOO_LARGE:
        return "size above 1,048,576 bytes";
    default:
        return "unknown result";
    }
}

static inline const char *dachreup_version(void) {
    return DACHREUP_VERSION;
}

static inline void dachreup_ignore(dachreup_result result) {
    (void)result;
}

static inline struct dachreup_span dachreup_span_of(const void *bytes, size_t count) {
    struct dachreup_span span = {(const uint8_t *)bytes, count};
    return span;
}

static inline struct dachreup_message dachreup_message_of(uint32_t code, struct dachreup_span token) {
    struct dachreup_message message = {{NULL, 0}, {NULL, 0}, {NULL, 0}, 0};
    message.token = token;
    message.code = code;
    return message;
}

static inline struct dachreup_settings dachreup_settings_at(size_t resources, uint64_t seconds) {
    struct dachreup_settings settings = DACHREUP_SETTINGS(0);
    settings.dynamic_max = resources;
    settings.moment = seconds;
    settings.versions = seconds > UINT64_MAX / 65536 ? UINT64_MAX : seconds * 65536;
    return settings;
}

/* Returns the address, or in place of NULL with a length of 0 another one. */
static inline const uint8_t *dachreup_raw_bytes(const void *bytes, size_t length) {
    return (const uint8_t *)(bytes || length ? bytes : "");
}

static inline const char *dachreup_raw_text(const char *text, size_t length) {
    return text || length ? text : "";
}

static inline dachreup_result dachreup_message_read(const void *frame, size_t length,
                                                    struct dachreup_message *message) {
    return dachreup_raw_message_read(dachreup_raw_bytes(frame, length), length, message);
}

static inline dachreup_result dachreup_message_path(const void *frame, size_t length, char *path, size_t room,
                                                    size_t *path_length) {
    char none = 0;
    return dachreup_raw_message_path(dachreup_raw_bytes(frame, length), length, path || room ? path : &none, room,
                                     path_length);
}

static inline dachreup_result dachreup_option_next(const void *options, size_t length, size_t *at, uint32_t *number,
                                                   struct dachreup_span *value) {
    return dachreup_raw_option_next(dachreup_raw_bytes(options, length), length, at, number, value);
}

static inline dachreup_result dachreup_option_write(uint8_t *options, size_t room, size_t *length, uint32_t *last,
                                                    uint32_t number, const void *value, size_t value_length) {
    uint8_t none = 0;
    return dachreup_raw_option_write(options || room ? options : &none, room, length, last, number,
                                     dachreup_raw_bytes(value, value_length), value_length);
}

static inline dachreup_result dachreup_message_write(const struct dachreup_message *message, uint8_t *buffer,
                                                     size_t room, size_t *length) {
    uint8_t none = 0;
    const struct dachreup_span token = message->token, options = message->options, payload = message->payload;
    return dachreup_raw_message_write(message->code, dachreup_raw_bytes(token.at, token.count), token.count,
                                      dachreup_raw_bytes(options.at, options.count), options.count,
                                      dachreup_raw_bytes(payload.at, payload.count), payload.count,
                                      buffer || room ? buffer : &none, room, length);
}

static inline dachreup_result dachreup_applications_add(struct dachreup_applications *applications, const char *path,
                                                        size_t path_length, uint32_t methods, const char *attributes,
                                                        size_t attributes_length) {
    return dachreup_raw_applications_add(applications, dachreup_raw_text(path, path_length), path_length, methods,
                                         dachreup_raw_text(attributes, attributes_length), attributes_length);
}

static inline dachreup_result dachreup_server_take(struct dachreup_server *server, uint64_t id, const void *piece,
                                                   size_t length, struct dachreup_took *took) {
    return dachreup_raw_server_take(server, id, dachreup_raw_bytes(piece, length), length, took);
}

static inline dachreup_result dachreup_server_respond(struct dachreup_server *server, uint64_t id, const void *response,
                                                      size_t length, uint32_t *reply) {
    uint32_t unwanted = 0;
    return dachreup_raw_server_respond(server, id, dachreup_raw_bytes(response, length), length,
                                       reply ? reply : &unwanted);
}

static inline dachreup_result dachreup_server_put(struct dachreup_server *server, const char *path, size_t path_length,
                                                  uint32_t format, const void *bytes, size_t length,
                                                  uint64_t *version) {
    uint64_t unwanted = 0;
    return dachreup_raw_server_put(server, dachreup_raw_text(path, path_length), path_length, format,
                                   dachreup_raw_bytes(bytes, length), length, version ? version : &unwanted);
}

static inline dachreup_result dachreup_server_state(struct dachreup_server *server, const char *path,
                                                    size_t path_length, struct dachreup_state *state) {
    return dachreup_raw_server_state(server, dachreup_raw_text(path, path_length), path_length, state);
}

static inline dachreup_result dachreup_server_remove(struct dachreup_server *server, const char *path,
                                                     size_t path_length) {
    return dachreup_raw_server_remove(server, dachreup_raw_text(path, path_length), path_length);
}

static inline dachreup_result dachreup_server_put_at(struct dachreup_server *server, const void *segments,
                                                     size_t segments_length, uint32_t format, const void *bytes,
                                                     size_t length, uint64_t *version) {
    uint64_t unwanted = 0;
    return dachreup_raw_server_put_at(server, dachreup_raw_bytes(segments, segments_length), segments_length, format,
                                      dachreup_raw_bytes(bytes, length), length, version ? version : &unwanted);
}

static inline dachreup_result dachreup_server_state_at(struct dachreup_server *server, const void *segments,
                                                       size_t segments_length, struct dachreup_state *state) {
    return dachreup_raw_server_state_at(server, dachreup_raw_bytes(segments, segments_length), segments_length, state);
}

static inline dachreup_result dachreup_server_remove_at(struct dachreup_server *server, const void *segments,
                                                        size_t segments_length) {
    return dachreup_raw_server_remove_at(server, dachreup_raw_bytes(segments, segments_length), segments_length);
}

static inline dachreup_result dachreup_target(const char *uri, size_t length, char *host, size_t room,
                                              struct dachreup_place *place) {
    char none = 0;
    return dachreup_raw_target(dachreup_raw_text(uri, length), length, host || room ? host : &none, room, place);
}

static inline dachreup_result dachreup_client_send(struct dachreup_client *client,
                                                   const struct dachreup_request *request, const char *uri,
                                                   size_t uri_length, const void *payload, size_t payload_length,
                                                   uint64_t *token) {
    uint64_t unwanted = 0;
    return dachreup_raw_client_send(client, request, dachreup_raw_text(uri, uri_length), uri_length,
                                    dachreup_raw_bytes(payload, payload_length), payload_length,
                                    token ? token : &unwanted);
}

static inline dachreup_result dachreup_client_cancel(struct dachreup_client *client,
                                                     const struct dachreup_request *request, const char *uri,
                                                     size_t uri_length, uint64_t token) {
    return dachreup_raw_client_cancel(client, request, dachreup_raw_text(uri, uri_length), uri_length, token);
}

static inline dachreup_result dachreup_client_ping(struct dachreup_client *client, uint32_t custody, uint64_t *token) {
    uint64_t unwanted = 0;
    return dachreup_raw_client_ping(client, custody, token ? token : &unwanted);
}

static inline dachreup_result dachreup_client_take(struct dachreup_client *client, const void *piece, size_t length,
                                                   struct dachreup_event *event) {
    return dachreup_raw_client_take(client, dachreup_raw_bytes(piece, length), length, event);
}

#ifdef __cplusplus
}
#endif

#endif
