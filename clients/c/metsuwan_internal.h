/* What the files of metsuwan_tls have among themselves. */
#ifndef METSUWAN_INTERNAL_H
#define METSUWAN_INTERNAL_H
#include "metsuwan_tls.h"

#include <pthread.h>
#include <stdarg.h>
#include <sys/types.h>

#ifdef __GNUC__
#define HIDDEN __attribute__((visibility("hidden")))
#define NOT_INLINE __attribute__((noinline))
#define PRINTS(text, first) __attribute__((format(printf, text, first)))
#else
#define HIDDEN
#define NOT_INLINE
#define PRINTS(text, first)
#endif

/* Bytes in memory that grows; it is overwritten before it is let go. */
typedef struct {
    uint8_t *bytes;
    size_t room;
} kmip_room;

/* Makes room for so many bytes, and keeps those that are there; false where memory runs out. */
HIDDEN bool kmip_room_has(kmip_room *into, size_t room);
HIDDEN void kmip_room_free(kmip_room *into);

/* A copy of a text, or a null pointer where memory runs out. */
HIDDEN char *kmip_copy_of(const char *text);
HIDDEN void kmip_copy_free(char *text);

/* A call of words: its name, with a zero after it, and the words. A null pointer: memory ran out. */
typedef struct {
    kmip_word *at;
    size_t count;
} kmip_words;

/* The words of a call, in room that is to be freed; their bytes are the caller's. Of an array that
   has a null word those after it are left out. */
HIDDEN kmip_words kmip_words_of_array(const char *call, const kmip_word *words, size_t count);
HIDDEN kmip_words kmip_words_of_texts(const char *call, const char *const *texts);
HIDDEN kmip_words kmip_words_of_list(const char *call, va_list given);

/* A part of a text. */
typedef struct {
    const char *at;
    size_t length;
} kmip_span;

/* The items of a list that are left: values of an array of JSON, with a comma between two; of a tree
   those among them that have this tag. */
typedef struct {
    const char *next; /* a null pointer: there is none */
    bool is_alone;    /* it is in no array */
    kmip_span tag;    /* a null pointer where it is no tree */
} kmip_items;

/* The item of a list of the last answer that was asked for last. */
typedef struct {
    char list[100]; /* the path of the list */
    size_t index;
    kmip_span item; /* where it stands in the line; a null pointer: none was asked for */
    kmip_items left;
} kmip_walk;

/* A number of four bytes, as TTLV has it (KMIP 1.0, 9.1.1): read, and written. */
static inline uint32_t kmip_number_at(const uint8_t *at) {
    return (uint32_t)at[0] << 24 | (uint32_t)at[1] << 16 | (uint32_t)at[2] << 8 | at[3];
}

static inline void kmip_number_into(uint8_t *at, uint32_t number) {
    for (int i = 0; i < 4; i++)
        at[i] = (uint8_t)(number >> (24 - 8 * i));
}

/* The bytes of the head of a response, and of the whole, where the head announces so many more;
   false where a size_t is too small for it, as one of 32 bits may be. */
#define KMIP_HEAD 8
static inline bool kmip_response_len(uint64_t more, size_t *length) {
    if (more > SIZE_MAX - KMIP_HEAD) return false;
    *length = KMIP_HEAD + (size_t)more;
    return true;
}

/* A process, which no other one is, also where its number comes again. */
typedef struct {
    pid_t number;
    unsigned forks;
} kmip_process;

/* Says which one this is; false where memory runs out. */
HIDDEN bool kmip_process_here(kmip_process *into);

/* Whether this is that process, and not a child of it. */
HIDDEN bool kmip_process_is(const kmip_process *process);

/* Why something is not so. */
typedef struct {
    char text[256];
} kmip_reason;

/* Adds one to those that are there, unless it is among them. */
HIDDEN void kmip_reason_add(kmip_reason *into, const char *text);

/* What the system says of an error: in this room, or elsewhere. */
HIDDEN const char *kmip_said_of(int error, char *text, size_t room);

/* The time of a use: when it is over, by kmip_now, and how many seconds it was, for what is told; an
   end of 0: it has none. */
typedef struct {
    double end, seconds;
} kmip_time;

HIDDEN bool kmip_time_is_over(const kmip_time *time);

/* The first of so many parts of what is left, but at most so many seconds (0: no such bound). */
HIDDEN kmip_time kmip_time_share(const kmip_time *whole, double parts, double most);

/* A TLS connection, of which each use has to end by a deadline. */
typedef struct kmip_wire kmip_wire;

/* A server of a list, and how it does; times are those of kmip_now. */
typedef struct {
    char *host, *port, *text; /* as "a.example", "5696", "a.example:5696" */
    double out_until;         /* until when others are asked before it */
    double answered_at, failed_at;
    unsigned failures; /* since it last answered */
    bool refused;      /* the last was that it refused the certificate */
    char why[256];     /* and why it failed */
} kmip_server;

/* The servers of a client, or of the clients of a pool. */
#define KMIP_SERVERS_MOST 16
typedef struct {
    pthread_mutex_t lock;
    size_t users;
    kmip_server at[KMIP_SERVERS_MOST];
    size_t count, turn;
    bool by_turns;
} kmip_servers;

/* The servers of settings; a null pointer and what is wrong with them, as that memory ran out. */
#define KMIP_SERVERS_MEMORY "out of memory"
HIDDEN kmip_servers *kmip_servers_of(const kmip_settings *settings, const char **wrong);

/* The same list for one user more; and for one less, the last of whom frees it. */
HIDDEN kmip_servers *kmip_servers_take(kmip_servers *servers);
HIDDEN void kmip_servers_leave(kmip_servers *servers);

/* What is wrong with a host and a port, or a null pointer. */
HIDDEN const char *kmip_wrong_server(const char *host, const char *port);

/* The server to try next, but for those tried, a bit for each; -1: there is none. One that is left
   out is still tried where there is no other, but not where it refused the certificate. */
HIDDEN int kmip_servers_next(kmip_servers *servers, uint32_t tried);

/* A connection of it has failed, or the try of one, that began at this time: for how long it is left
   out. What began before it failed last has failed with that. It has answered: whether it had failed
   before. */
HIDDEN double kmip_servers_failed(kmip_servers *servers, int which, double began, bool refused,
                                  const char *why);
HIDDEN bool kmip_servers_answered(kmip_servers *servers, int which);

/* Whether it has answered, or failed, at this time or later. */
HIDDEN bool kmip_servers_answered_since(kmip_servers *servers, int which, double when);
HIDDEN bool kmip_servers_failed_since(kmip_servers *servers, int which, double when);

/* For how long it is still left out, and why. */
HIDDEN double kmip_servers_out(kmip_servers *servers, int which, bool *refused, kmip_reason *why);

struct kmip_client {
    kmip_wire *wire;    /* a null pointer once the connection is lost */
    double opened_at;   /* when it was opened, by kmip_now; or the try of that began */
    kmip_process owner; /* the process that opened it */
    char *user, *password;
    kmip_servers *servers;
    int at;                     /* the server of the connection, or the last tried */
    int pending_at;             /* the one of which the last call is that is pending; -1: none */
    char *server_name;          /* what each certificate has to have; null: its host */
    struct ssl_ctx_st *context; /* what connects: no file is read again, no passphrase kept */
    struct ossl_lib_ctx_st *library;
    bool reconnects;    /* a connection that is lost is opened again */
    double max_age;     /* the most seconds that a connection is used; 0: no end */
    double seconds;     /* the time of the opening, and of each call; 0: no deadline */
    double end;         /* when that is over */
    uint32_t tried;     /* the servers that failed within it, a bit for each, .. */
    char reasons[2048]; /* .. and why */
    uint32_t limit;
    int status;
    bool sent;        /* whether a part of the last request was handed to a connection, .. */
    bool sent_before; /* .. and before the last try of it */
    bool torn;        /* whether the last exchange failed by its connection, .. */
    bool late;        /* .. since its time was over, .. */
    bool refused;     /* .. or since the server refused the certificate .. */
    char reason[300]; /* .. and why */
    kmip_room request, response, line, value, pem;
    kmip_room item; /* the line of an item of a list */
    kmip_walk walk;
    size_t request_len, response_len;
    /* while a call is made its words, or of any operation its three texts; else null pointers, .. */
    kmip_words words;
    const char *name, *version, *payload;
    /* .. and its Unique Batch Item ID: of no bytes where it has none, as in a batch, whose own it
       has */
    uint8_t item_id[8];
    size_t item_id_len;
    kmip_log *log;
    void *log_data;
    kmip_record *record;
    void *record_data;
    const char *operation; /* that of the last call, for the log, .. */
    double begun;          /* .. and when it began */
};

/* kmip_connect with a list of servers that others use too, in the place of that of the settings; a
   null pointer: their own. */
HIDDEN int kmip_connect_sharing(const kmip_settings *settings, kmip_servers *servers,
                                kmip_client **client, char *error, size_t room);

/* Begins a call: KMIP_ANSWERED, or the status of what went wrong. At its end its words and texts are
   forgotten. */
HIDDEN int kmip_begin(kmip_client *client, const char *operation);

/* The same of one that is not sent, and wants no connection. */
HIDDEN int kmip_begin_unsent(kmip_client *client, const char *operation);
HIDDEN void kmip_forget_call(kmip_client *client);

/* Makes the request of a call, in client->request: KMIP_ANSWERED and its length, or the status of
   what went wrong. The words or the three texts then stand in the client. The request of a single
   call, which is none of a batch, has a Unique Batch Item ID, but for that of a typed call. */
HIDDEN int kmip_make_call(kmip_client *client, kmip_words words, bool is_single, size_t *length);
HIDDEN int kmip_make_operation(kmip_client *client, const char *name, const char *version,
                               const char *payload, bool is_single, size_t *length);

/* Chooses a Unique Batch Item ID, which no answer to another call has: KMIP_ANSWERED, or the status
   of what went wrong. */
HIDDEN int kmip_choose_item_id(kmip_client *client, uint8_t into[8]);

/* Where the eight bytes of the Unique Batch Item ID stand in a request, which was made here; a null
   pointer: it has none. */
HIDDEN uint8_t *kmip_item_id_in(uint8_t *request);

/* Whether a call of this name changes nothing, so that it may be made twice. */
HIDDEN bool kmip_is_changeless(const char *operation);

/* Opens a connection to the first server, in its turn, with which that comes about: KMIP_ANSWERED, or
   the status of what went wrong, and why in client->reasons. */
HIDDEN int kmip_open_any(kmip_client *client);

/* Whether a connection that is lost is opened again: not in the child of a fork. */
HIDDEN bool kmip_reconnects(const kmip_client *client);

/* Tells the log what has happened, with the server in front. */
PRINTS(4, 5)
HIDDEN void kmip_log_event(kmip_client *client, kmip_event_kind what, int status,
                           const char *format, ...);

/* Sends the request, and reads the response; where that is wanted and harmless, once more on a new
   connection, or with each other server. KMIP_ANSWERED, or the status of what went wrong. */
HIDDEN int kmip_exchange(kmip_client *client, size_t request_len, bool is_changeless);

/* Says what the response answers to the call, whose line is kept. The connection is left as it
   is. */
HIDDEN int kmip_read_answer(kmip_client *client);

/* What the response answers to the operation Get, whose line is kept; -1: memory ran out. The
   client has no call then. */
HIDDEN int32_t kmip_line_of_get(kmip_client *client);

/* Tells the log what came of a call, which is called so. */
HIDDEN void kmip_tell_call(kmip_client *client, const char *call);

/* Tells the record of the request, in which the credential and the ID of a single call are not left,
   and the response; false where memory ran out. */
HIDDEN bool kmip_tell_record(kmip_client *client);

/* A client without a connection, as settings say; a null pointer, and why. */
HIDDEN kmip_client *kmip_unopened(const kmip_settings *settings, char *error, size_t room);

/* Opens another client like this one until this time (0: without end): KMIP_ANSWERED, or the status of
   what went wrong, and why. */
HIDDEN int kmip_open_like(const kmip_client *like, double end, kmip_client **into, char *error,
                          size_t room);

/* Overwrites and frees what a client has of its last call. */
HIDDEN void kmip_forget_answer(kmip_client *client);

/* Keeps what came of a call. After a status that loses the connection it is closed. */
HIDDEN int kmip_ends_as(kmip_client *client, int status);

/* The least room for a line: that of an error always fits. */
#define KMIP_LINE 4096

/* Keeps a status and the line of an error of this client; the second closes the connection after a
   status that loses it. So do the next two, where memory ran out. */
HIDDEN int kmip_says(kmip_client *client, int status, const char *kind, const char *text);
HIDDEN int kmip_fails_as(kmip_client *client, int status, const char *kind, const char *text);
HIDDEN int kmip_says_no_memory(kmip_client *client);
HIDDEN int kmip_out_of_memory(kmip_client *client);

/* What connects to servers, with what the settings say of certificates: a reference of the caller's;
   or a null pointer, and why. */
struct ssl_st;
HIDDEN struct ssl_ctx_st *kmip_context_of(const kmip_settings *settings, kmip_reason *why);

/* The connections that are made side by side to the addresses of a host, which are looked up; a null
   pointer, and why. */
typedef struct kmip_race kmip_race;
HIDDEN kmip_race *kmip_race_begin(const char *host, const char *port, const kmip_time *time,
                                  kmip_reason *why);

/* The socket of the first that is connected, or -1; why is added. */
HIDDEN int kmip_race_next(kmip_race *race, const kmip_time *time, kmip_reason *why);

/* How many addresses are left. */
HIDDEN size_t kmip_race_left(const kmip_race *race);
HIDDEN void kmip_race_end(kmip_race *race);

/* The way to a server.

   context, library   of kmip_context_of, and of the settings
   host, port         where it is
   name               what its certificate has to have; null: the host
   time               in which the connection has to be open */
typedef struct {
    struct ssl_ctx_st *context;
    struct ossl_lib_ctx_st *library;
    const char *host, *port, *name;
    kmip_time time;
} kmip_way;

/* Connects; a null pointer where there is no connection, and why. Then `status` is KMIP_LOST or
   KMIP_NO_MEMORY, and `refused` says whether the server refused the certificate. */
HIDDEN kmip_wire *kmip_wire_open(const kmip_way *way, int *status, bool *refused, kmip_reason *why);

/* From here on the wire has this time; and also has sent nothing. */
HIDDEN void kmip_wire_until(kmip_wire *wire, const kmip_time *time);
HIDDEN void kmip_wire_begin(kmip_wire *wire, const kmip_time *time);

/* Whether the connection is open, and has no bytes to read that nobody asked for. */
HIDDEN bool kmip_wire_is_idle(kmip_wire *wire);

HIDDEN bool kmip_wire_write(kmip_wire *wire, const uint8_t *bytes, size_t count);

/* Reads until there are `count` bytes, of which `done` are there, and counts them. */
HIDDEN bool kmip_wire_read(kmip_wire *wire, uint8_t *into, size_t count, size_t *done);

/* Why the last of these calls was false, and whether it was since the time was over. */
HIDDEN const char *kmip_wire_reason(const kmip_wire *wire);
HIDDEN bool kmip_wire_is_late(const kmip_wire *wire);

/* Of one whose time was over: it has more. */
HIDDEN void kmip_wire_goes_on(kmip_wire *wire);

/* Whether the server has refused the certificate, and so has read nothing of what was sent. */
HIDDEN bool kmip_wire_is_refused(const kmip_wire *wire);

/* Whether the handshake that was made is one by which it is known who the server is, and what is sent
   is for it alone: TLS 1.2 or later, a cipher of 112 bits or more, no earlier session, and a
   certificate that names the host and whose chain is verified anew, by the authorities of the
   context and with no callback of it. `library`: the OSSL_LIB_CTX of the context, or null. */
HIDDEN bool kmip_is_known(struct ssl_st *tls, struct ossl_lib_ctx_st *library, const char *host,
                          kmip_reason *why);

/* The time in seconds. Without a clock each deadline is over. */
HIDDEN double kmip_now(void);

/* Writes so many random bytes of the system's, at most 256; or a reason why there are none, and is
   false. */
HIDDEN bool kmip_random(uint8_t *into, size_t count, char *reason, size_t room);

/* Ends the connection, and waits for nothing. A null pointer is fine. */
HIDDEN void kmip_wire_close(kmip_wire *wire);

/* Has it be ended without a byte on it. */
HIDDEN void kmip_wire_abandon(kmip_wire *wire);

/* Whether a byte was handed to the socket in kmip_wire_write since kmip_wire_begin. */
HIDDEN bool kmip_wire_was_sent(const kmip_wire *wire);

/* The errors that OpenSSL has queued in this thread. Between the two calls the queue is empty but
   for what is queued there, and after them it is as it was. */
typedef struct {
    struct kmip_queued *errors;
    size_t count;
    int marks;
} kmip_queue;
HIDDEN void kmip_queue_take(kmip_queue *queue);

/* It is the last that a call does: what the library and OpenSSL had on the stack is overwritten, too. */
HIDDEN void kmip_queue_give_back(kmip_queue *queue);

/* Overwrites the stack below the caller, as far down as calls of the library take it, and vector
   registers: what was signed may stand there. */
HIDDEN void kmip_clean_stack(void);

/* The kind of the error that a line has, after a call with this status. */
HIDDEN kmip_kind kmip_kind_of(const char *line, int status);

/* The value of a member of the object of JSON that begins here, which has no white space; or a null
   pointer. */
HIDDEN const char *kmip_member(const char *at, const char *name);
HIDDEN const char *kmip_member_named(const char *at, kmip_span name);

/* What stands after the value of JSON that begins here. */
HIDDEN const char *kmip_past_value(const char *at);

/* Whether the answer of a line is a tree, an item of KMIP's JSON. */
HIDDEN bool kmip_is_tree(const char *line);

/* Writes those characters of a line of JSON as their escapes, which say the same; false where memory
   runs out. */
HIDDEN bool kmip_escape_line(kmip_room *line);

/* Writes {"error":..,"text":..}, in which the text is cut to the room. */
HIDDEN void kmip_error_line(char *into, size_t room, const char *kind, const char *text);

/* Writes the first character of a text as a string of JSON has it, and says how many bytes of the
   text that was. A byte that is not UTF-8 becomes a question mark, and what a terminal would not show,
   as ESC, C1 controls and U+202E, its escape. */
HIDDEN size_t kmip_write_character(const char *text, char into[8]);

/* Writes the value at a path of a line to room that is made for it, with a byte 0 after it, and says
   how many bytes it has; -1: there is no such value, or memory ran out. */
HIDDEN int64_t kmip_value_of(const char *line, const char *path, bool hex, kmip_room *into);

/* The same of the last answer, to client->value: items of a list that are asked for in their order
   are found in one pass. */
HIDDEN int64_t kmip_value_at(kmip_client *client, const char *path, bool hex);

/* A value as a text; a null pointer where it has a byte 0 within, and its length is not asked for. */
HIDDEN const char *kmip_text_of(const kmip_room *value, size_t found, size_t *length);

/* Writes the payload of a request to register a certificate; or says what is wrong with it. Without
   bytes, memory ran out. `name` and `usage` may be null. */
HIDDEN const char *kmip_write_certificate(kmip_room *into, const uint8_t *certificate,
                                          size_t length, const char *name, const char *usage);

/* The same for a key of this kind, PrivateKey or PublicKey, in PEM. */
HIDDEN const char *kmip_write_key(kmip_room *into, const char *kind, const void *pem, size_t length,
                                  const char *name, const char *usage);

/* The same for a secret, a Password or a Seed. */
HIDDEN const char *kmip_write_secret(kmip_room *into, const void *data, size_t length,
                                     const char *kind, const char *name, const char *usage);

/* Writes the DER of a key whose parts the line of Get tells one by one, in this format, and returns
   its label in PEM; a null pointer where it has none, or memory ran out. */
HIDDEN const char *kmip_write_parts(kmip_room *into, size_t *length, const char *line,
                                    const char *format);

/* Whether a text is UTF-8. */
HIDDEN bool kmip_is_utf8(const char *text);

#endif
