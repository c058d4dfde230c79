/* Calls of a KMIP server over OpenSSL: a connection, and one call at a time on it.

       kmip_settings settings = kmip_defaults();
       settings.host = "kms.example";
       settings.port = "5696";
       settings.certificate = "client.pem";
       settings.key = "client.key";
       settings.authority = "ca.pem";
       char error[300];
       kmip_client *client = kmip_open(&settings, error, sizeof error);
       if (client && kmip_call(client, "sign", "2", "68656C6C6F", NULL) == KMIP_ANSWERED) {
           size_t length;
           const uint8_t *signature = kmip_bytes(client, "signature_data", &length);
           ..
       }
       kmip_close(client);

   A client is for one thread at a time, and for the process that opened it. A call takes less than
   96 KiB of its thread's stack, whatever the server answers; one of an operation whose payload the
   program itself nests deeper than 30 levels less than 128. (So it was on x86-64 with OpenSSL 3.0.)
   Of the stack that it took 32 KiB are overwritten at its end. The errors that OpenSSL
   has queued in the caller's thread are the same before and after each call. Programs link
   -lmetsuwan_tls -lmetsuwan -lssl -lcrypto, or what `pkg-config --libs metsuwan_tls` says. */
#ifndef METSUWAN_TLS_H
#define METSUWAN_TLS_H
#include "metsuwan.h"
#ifdef __cplusplus
extern "C" {
#endif

#ifdef __GNUC__
#define KMIP_ENDS_WITH_NULL __attribute__((sentinel))
#else
#define KMIP_ENDS_WITH_NULL
#endif

typedef struct kmip_client kmip_client;

/* OSSL_LIB_CTX and SSL_CTX, as OpenSSL's own headers name them. */
struct ossl_lib_ctx_st;
struct ssl_ctx_st;

/* What the log of a client is told. More may be added. */
typedef enum {
    KMIP_EVENT_CALL = 0,   /* a call, or a batch, whose request was made has ended */
    KMIP_EVENT_REPEATED,   /* the connection was lost, and the call is made again */
    KMIP_EVENT_REOPENED,   /* the connection was lost, or old, and is opened again for this call */
    KMIP_EVENT_SERVER_OUT, /* a server of several has failed, and is left out for a while */
    KMIP_EVENT_SERVER_BACK /* it has answered again */
} kmip_event_kind;

/* No value of a call stands in it, and no identifier.

   size           of this structure, whose next version may be longer
   what           of which kind it is
   operation      the name of the call, as sign, or of the operation, as Encrypt; "batch" of a batch,
                  "open" within kmip_open
   status         that of a call that has ended; of the others KMIP_LOST
   seconds        how long the call has taken until now
   text           all that in words, with the server, as "localhost:5696: sign: status 0, 288 bytes
                  sent, 432 read, 1.5 ms"

   It stays until the log returns. */
typedef struct {
    size_t size;
    kmip_event_kind what;
    const char *operation;
    int status;
    double seconds;
    const char *text;
} kmip_event;

/* A log. It is called within a call of a client, which it may not use. */
typedef void kmip_log(void *data, const kmip_event *event);

/* A record. It is told of each exchange whose whole response came, also of an operation and of a
   batch, one line that ends with a line feed and, after `length` bytes, a byte 0:

       raw REQUEST RESPONSE          both in hex, the request without its credential and, of a
                                     single call, its Unique Batch Item ID: kmip_run replay
                                     (docs/PROGRAM.md) answers the line again
       message REQUEST RESPONSE      kmip_run has no such call, as encrypt or Encrypt, or a batch

   Keys stand in it where they were sent or given. It is called within a call of a client, which it
   may not use; what it cannot write is its own to tell. */
typedef void kmip_record(void *data, const char *line, size_t length);

/* What opens a connection. Begin with kmip_defaults; host and port are needed, and certificate, key
   and authority, or context in place of the three. Nothing of it is looked at after kmip_open; log_data and
   record_data are given to the log and the record until kmip_close.

   size           of this structure; kmip_defaults sets it, and by it a program that was compiled
                  with an older version of this header, and so without the last members, runs too
   host           the name or the address, as "::1", that the server's certificate has to have
   port           as "5696", or the name of a service
   certificate    PEM files: the client's certificate, and after it those of authorities between, ..
   key            .. its private key, ..
   authority      .. and the authority of the server's certificate, which may be the one that made
                  it or one above; no other is trusted
   passphrase     that of a private key that is encrypted; no terminal is asked
   user, password a credential in each request: both, or neither
   limit          the most bytes of a response, its head counted; 0: no limit. kmip_defaults sets
                  1048576
   seconds        the most time of kmip_open, and of each call, whatever the server does; 0: no
                  deadline. kmip_defaults sets 30
   library        an OSSL_LIB_CTX of OpenSSL 3, of which all is fetched; null: the default one. It
                  has to stay until kmip_close
   context        an SSL_CTX with a certificate, its key, and the authorities of servers: for keys
                  in hardware, revocation lists, PEM in memory. Then certificate, key, authority,
                  passphrase and library are null. Nothing of it is changed. Whatever it and its
                  callbacks say, TLS is 1.2 or later with a cipher of 112 bits or more and with no
                  earlier session, and the server has a certificate that names the host and that
                  is verified anew after the handshake, by the authorities of the context (its
                  SSL_CTX_set1_verify_cert_store or else its store); or nothing is sent. So a
                  context that trusts by a pin, by DANE or by a callback of its own alone connects
                  to no server
   reconnect      a connection that is lost is opened again for the next call, with no file read
                  again. A call itself is made again, once, where nothing of it was sent, or where
                  it changes nothing (query, discover, locate, get, attributes, sign, encrypt,
                  decrypt, mac, mac-verify, verify, hash, check, attribute-list, validate; Encrypt,
                  Decrypt, MAC, SignatureVerify and the like; a batch of these), and not where its
                  time was over. The log is told
   log, log_data  what is told of each call, and what it is given; null: nobody
   record,        what is told of each exchange, and what it is given; null: nobody
   record_data
   server         in the place of host and port, one or more, at most 16, as
                  "a.example:5696,b.example,[::1]:5697", whose port is 5696 where none stands. They
                  have one set of objects; docs/SEVERAL.md says what else a program has to know of
                  them. With more than one, `reconnect` is set
   server_name    the name or the address that each certificate has to have in the place of the host,
                  which is also asked for (SNI); null: the host
   order          "first": a connection is to the first server that is not left out. "turns": each
                  is to the next, the first to any. Null: first
   max_age        the most seconds that a connection is used, where it is opened again; 0: no end

   Several servers have one deadline. Each has an equal part of what is left, for connecting and TLS
   at most 5 seconds, and the last has all; so `seconds` are the slowest answer times the servers. It
   goes on to the next server where there is no connection, where nothing of a request was sent, and
   where a call that changes nothing was not answered in its part of the time, but for a server that
   has answered another call meanwhile. What makes or changes is sent to no second server once a
   byte of it was sent; then the line says to which it was. What was answered is answered, refusals
   too. A server that failed is left out for 1 second, twice as long at each failure more, at most
   60, until it answers. `poll` and `cancel` go to the server of the call that is pending. Under
   KMIP's Usage Limits a `sign`, `encrypt`, `decrypt` or `mac` that is made again may count twice */
typedef struct {
    size_t size;
    const char *host, *port;
    const char *certificate, *key, *authority;
    const char *passphrase;
    const char *user, *password;
    uint32_t limit;
    double seconds;
    struct ossl_lib_ctx_st *library;
    struct ssl_ctx_st *context;
    bool reconnect;
    kmip_log *log;
    void *log_data;
    kmip_record *record;
    void *record_data;
    const char *server, *server_name, *order;
    double max_age;
} kmip_settings;

/* What settings begin with: a limit of 1048576 bytes, 30 seconds, and nothing else. */
static inline kmip_settings kmip_defaults(void) {
    kmip_settings settings = {sizeof(kmip_settings),
                              NULL,
                              NULL,
                              NULL,
                              NULL,
                              NULL,
                              NULL,
                              NULL,
                              NULL,
                              1048576,
                              30.0,
                              NULL,
                              NULL,
                              false,
                              NULL,
                              NULL,
                              NULL,
                              NULL,
                              NULL,
                              NULL,
                              NULL,
                              0.0};
    return settings;
}

/* Connects. A null pointer where there is no connection; then `error`, of `room` bytes, is a line
   of JSON that says why, as {"error":"ConnectError","text":"connect: Connection refused"}, cut to
   its room. 300 bytes are enough for all that OpenSSL says of one server, 2048 for all of several. */
KMIP_LOOKED_AT kmip_client *kmip_open(const kmip_settings *settings, char *error, size_t room);

/* The same, with a status: KMIP_ANSWERED, and the client is written to `client`; KMIP_CALL_GRAMMAR,
   the settings are wrong; KMIP_LOST, there is no connection; KMIP_NO_MEMORY. Of the last three a
   null pointer is written. */
KMIP_LOOKED_AT int kmip_connect(const kmip_settings *settings, kmip_client **client, char *error,
                                size_t room);

/* Makes a call, and returns its status: KMIP_ANSWERED, KMIP_REFUSED, KMIP_CALL_GRAMMAR, KMIP_LOST
   or KMIP_NO_MEMORY. After KMIP_LOST and KMIP_NO_MEMORY the connection is closed, and without
   `reconnect` each further call is KMIP_LOST: close the client, and open another. A null client is
   KMIP_LOST too.

   The call is one of metsuwan.h, a typed one or one of the table, as `encrypt`. Its words are texts
   as they are, identifiers, names and numbers, and in place of data hex digits. The last is followed
   by a null pointer:

       kmip_call(client, "rename", "4", "issuing key, 50%", NULL)

   Options stand after the other words, each as NAME=TEXT:

       kmip_call(client, "sign", "4", "68656C6C6F", "hash=SHA384", "padding=PSS", NULL)
       kmip_call(client, "encrypt", "5", "68656C6C6F", "mode=CBC", "random-iv=true", NULL)

   An empty identifier is KMIP_CALL_GRAMMAR: a server may take it for the last object that was made
   on the connection. So is a null pointer in the place of the call's name or of the words, and
   `sign` with both `prehashed` and `hash=`: KMIP 1.2 has no digested data, and the server would
   digest the digest. So are the bytes of a PEM for `register`.

   `locate` takes a single word as a name, whatever stands in it. Attributes stand behind `where`,
   which may be left out before two or more:

       kmip_call(client, "locate", "where", "state=Active", NULL)

   The request of a call of the table has eight random bytes as its Unique Batch Item ID, as that of
   kmip_operation, which says what that means. */
KMIP_LOOKED_AT int kmip_call(kmip_client *client, const char *call, ...) KMIP_ENDS_WITH_NULL;

/* What the words of kmip_call end with: a null pointer, which NULL is where it is one of C's own.
   So a word that happens to be null ends them too, and those after it are not asked for: where
   words are chosen as the program runs, kmip_call_array counts them. */
#define KMIP_END ((const char *)0)

/* The same, with the words in an array that ends with a null pointer. */
KMIP_LOOKED_AT int kmip_call_words(kmip_client *client, const char *call, const char *const *words);

/* The same, with so many words, each a text or data of any length and with any bytes:

       kmip_word words[] = {kmip_text_word("5"), kmip_data_word(data, count),
                            kmip_text_word("mode=ECB")};
       kmip_call_array(client, "encrypt", words, 3)

   A word whose `bytes` are null is KMIP_CALL_GRAMMAR. `words` may be null where `count` is 0. */
KMIP_LOOKED_AT int kmip_call_array(kmip_client *client, const char *call, const kmip_word *words,
                                   size_t count);

/* Makes a call of any operation of KMIP 1.0 to 1.2, and returns its status, as kmip_call does. Its
   name, its version and its payload are those of kmip_operation_request, each a text:

       kmip_operation(client, "Encrypt", "1.2", "{\"tag\":\"RequestPayload\",\"value\":[..]}")

   The answer is the line, {"answer":ITEM}, with the response's payload. kmip_text and kmip_bytes
   have its values, and kmip_pem that of Get. Whether it is about the object that was asked about is
   the caller's to look at. A payload with an empty UniqueIdentifier is KMIP_CALL_GRAMMAR, and so is
   a null pointer.

   The request has eight random bytes as its Unique Batch Item ID. A response with another one, or
   with none, is KMIP_LOST, KMIP_KIND_OTHER_ANSWER: it is that of another call. Where the system has
   no random bytes nothing is sent: KMIP_LOST, KMIP_KIND_WRITE. */
KMIP_LOOKED_AT int kmip_operation(kmip_client *client, const char *name, const char *version,
                                  const char *payload);

/* Has the server keep an X.509 certificate, and returns the status, as kmip_operation does:

       kmip_register_certificate(client, pem, length, "root", "Verify,CertificateSign")

   certificate, length  DER, or a PEM that holds the certificate and no other
   name                 the object's name, as UTF-8; null: none is told
   usage                KMIP's names of what it is for, with a comma between two; null: none are
   told

   Its identifier is then kmip_text(client, "UniqueIdentifier", NULL). KMIP_CALL_GRAMMAR: it is
   neither DER nor PEM or no certificate, as a private key, a null pointer, or has no bytes; or the
   name or the usage is none. Then nothing was sent, and the connection stays. */
KMIP_LOOKED_AT int kmip_register_certificate(kmip_client *client, const void *certificate,
                                             size_t length, const char *name, const char *usage);

/* Has the server keep a key that OpenSSL wrote, a private one or a public one, as that of a
   certificate:

       kmip_register_private_key(client, pem, length, "issuing", "Sign")

   pem, length          the text, with one block of PEM beside parameters of a curve: a key of RSA, of
                        DSA or of a curve, in PKCS#8, PKCS#1 or ECPrivateKey, or in X.509
                        (SubjectPublicKeyInfo) or PKCS#1

   KMIP_CALL_GRAMMAR: it is none, a null pointer, a key of the other kind, or an encrypted one, or
   KMIP 1.2 has no name for its algorithm. Then nothing was sent, and the connection stays. */
KMIP_LOOKED_AT int kmip_register_private_key(kmip_client *client, const void *pem, size_t length,
                                             const char *name, const char *usage);
KMIP_LOOKED_AT int kmip_register_public_key(kmip_client *client, const void *pem, size_t length,
                                            const char *name, const char *usage);

/* The same with a secret that is no key, whatever its bytes, but one at least: `kind` is "Password" or
   "Seed". */
KMIP_LOOKED_AT int kmip_register_secret(kmip_client *client, const void *data, size_t length,
                                        const char *kind, const char *name, const char *usage);

/* Several calls that are made in one message, in their order, each with a Unique Batch Item ID of
   its own:

       kmip_batch *batch = kmip_batch_new(client, KMIP_ON_ERROR_STOP);
       kmip_batch_call(batch, "activate", key, NULL);
       kmip_batch_call(batch, "sign", key, "68656C6C6F", NULL);
       if (kmip_batch_send(batch) == KMIP_ANSWERED && kmip_batch_answer(batch, 1) == KMIP_ANSWERED)
           signature = kmip_bytes(client, "signature_data", &length);
       kmip_batch_free(batch);

   It is one of its client, and is not used after kmip_close but by kmip_batch_free. */
typedef struct kmip_batch kmip_batch;

/* KMIP's Batch Error Continuation Option: what the server does after a call that failed. */
typedef enum {
    KMIP_ON_ERROR_CONTINUE = 1, /* it goes on, .. */
    KMIP_ON_ERROR_STOP = 2,     /* .. ends, .. */
    KMIP_ON_ERROR_UNDO = 3      /* .. or takes back what it did, so far as it can */
} kmip_on_error;

/* A batch without calls; a null pointer where memory runs out, the client is null, or `on_error` is
   none. A null batch is KMIP_LOST, and has no calls. */
KMIP_LOOKED_AT kmip_batch *kmip_batch_new(kmip_client *client, kmip_on_error on_error);

/* Adds a call, as kmip_call, kmip_call_words, kmip_call_array and kmip_operation make one. Nothing
   is sent, and the connection may be closed. KMIP_ANSWERED: it is added. KMIP_CALL_GRAMMAR and
   KMIP_REFUSED: it is none, or its request has no wire form; kmip_line says why, and the batch is
   as it was. */
KMIP_LOOKED_AT int kmip_batch_call(kmip_batch *batch, const char *call, ...) KMIP_ENDS_WITH_NULL;
KMIP_LOOKED_AT int kmip_batch_words(kmip_batch *batch, const char *call, const char *const *words);
KMIP_LOOKED_AT int kmip_batch_array(kmip_batch *batch, const char *call, const kmip_word *words,
                                    size_t count);
KMIP_LOOKED_AT int kmip_batch_operation(kmip_batch *batch, const char *name, const char *version,
                                        const char *payload);

/* How many calls it has. */
size_t kmip_batch_count(const kmip_batch *batch);

/* Makes the calls. KMIP_ANSWERED: a response came, and kmip_batch_answer has what it says to each of
   them. KMIP_CALL_GRAMMAR: there are no calls. KMIP_LOST: the connection is lost, or the response is
   none to this batch: it has another Batch Count than items, an item of it is of no call, or a call
   has two, or none where no call before it failed; of no call it is known whether it was done.

   The Unique Batch Item IDs are numbers of eight bytes that follow each other, and the first is
   random: so the answer to another batch is of no call of this one. Without random bytes it ends as
   kmip_operation does. */
KMIP_LOOKED_AT int kmip_batch_send(kmip_batch *batch);

/* Has the answer to the call at this place, from 0, be the last one: its status is returned, as that
   of the single call, and kmip_line, kmip_error_kind, kmip_bytes, kmip_text and kmip_pem are its
   own. KMIP_REFUSED with {"error":"NotDone",..}: the server has not come to it; with
   {"error":"Undone",..}: it has undone it. KMIP_LOST: the response is none to this call, and
   kmip_batch_send has closed the connection. KMIP_CALL_GRAMMAR: there is no such call, or no
   response to it. Nothing is sent, and nothing closed. */
KMIP_LOOKED_AT int kmip_batch_answer(kmip_batch *batch, size_t at);

/* Frees it, and overwrites its requests and responses first. A null pointer is fine. */
void kmip_batch_free(kmip_batch *batch);

/* The line of JSON of the last call, without its line feed: {"answer":..} after KMIP_ANSWERED, and
   {"error":..,"text":..} after KMIP_REFUSED, KMIP_CALL_GRAMMAR and KMIP_LOST; "" where memory ran
   out, or no call was made. It stays until the next call. */
const char *kmip_line(const kmip_client *client);

/* What came of the last call, for a program to decide by. The first are KMIP's reasons of a failure
   that the server tells, by KMIP's own numbers; more may be added. */
typedef enum {
    KMIP_KIND_NONE = 0,                  /* it was answered, or no call was made */
    KMIP_KIND_ITEM_NOT_FOUND = 0x01,     /* the server knows no such object */
    KMIP_KIND_RESPONSE_TOO_LARGE = 0x02, /* .. */
    KMIP_KIND_AUTHENTICATION = 0x03,     /* Authentication Not Successful */
    KMIP_KIND_INVALID_MESSAGE = 0x04,    /* .. */
    KMIP_KIND_OPERATION_NOT_SUPPORTED = 0x05,
    KMIP_KIND_MISSING_DATA = 0x06,
    KMIP_KIND_INVALID_FIELD = 0x07,
    KMIP_KIND_FEATURE_NOT_SUPPORTED = 0x08,
    KMIP_KIND_CANCELED = 0x09, /* Operation Canceled By Requester */
    KMIP_KIND_CRYPTOGRAPHIC_FAILURE = 0x0A,
    KMIP_KIND_ILLEGAL_OPERATION = 0x0B,
    KMIP_KIND_PERMISSION_DENIED = 0x0C,
    KMIP_KIND_OBJECT_ARCHIVED = 0x0D,
    KMIP_KIND_INDEX_OUT_OF_BOUNDS = 0x0E,
    KMIP_KIND_APPLICATION_NAMESPACE = 0x0F, /* Application Namespace Not Supported */
    KMIP_KIND_KEY_FORMAT = 0x10,            /* Key Format Type Not Supported */
    KMIP_KIND_KEY_COMPRESSION = 0x11,       /* Key Compression Type Not Supported */
    KMIP_KIND_ENCODING_OPTION = 0x12,       /* Encoding Option Error */
    KMIP_KIND_KEY_VALUE_NOT_PRESENT = 0x13,
    KMIP_KIND_ATTESTATION_REQUIRED = 0x14,
    KMIP_KIND_ATTESTATION_FAILED = 0x15,
    KMIP_KIND_GENERAL_FAILURE = 0x100,
    KMIP_KIND_OTHER_REASON = 0x10000, /* the server refused, for another reason or for none; or the
                                         line does not have it */
    KMIP_KIND_NO_ANSWER,              /* one whole message came, and it is no answer to this call */
    KMIP_KIND_GRAMMAR,                /* the call is not of the grammar; nothing was sent */
    KMIP_KIND_NO_FORM,                /* the request has no wire form; nothing was sent */
    KMIP_KIND_WRITE,                  /* lost before all of the request was sent: kmip_was_sent */
    KMIP_KIND_READ,                   /* lost before all of the response was read */
    KMIP_KIND_NO_MESSAGE,             /* lost: what came is no message, or longer than the limit */
    KMIP_KIND_OTHER_ANSWER,           /* lost: what came answers for another object or call */
    KMIP_KIND_MEMORY,                 /* out of memory */
    KMIP_KIND_CONNECT,                /* lost: the connection was, and could not be opened again; or
                                         the server refused the certificate, and read no request */
    KMIP_KIND_NOT_DONE,               /* the server has not done this call of a batch, .. */
    KMIP_KIND_UNDONE                  /* .. or has undone it, since another one failed */
} kmip_kind;

/* A null client is KMIP_KIND_WRITE: its calls are lost, and send nothing. */
kmip_kind kmip_error_kind(const kmip_client *client);

/* The server that was asked last, as "a.example:5696"; "" of a null client. */
const char *kmip_server_of(const kmip_client *client);

/* Whether the request of the last call, or a part of it, was handed to the connection. False means
   that the server has seen nothing of it, so that the call may be made again on another client;
   after true and KMIP_LOST it is not known whether the server did what was asked. */
bool kmip_was_sent(const kmip_client *client);

/* A value of the last answer, at a path of kmip_value: as the bytes that a string of hex digits
   stands for, or as text. A byte 0 follows it, which `length` does not count. A null pointer where
   the last call was not answered, its answer has no such value, or memory ran out.

       kmip_text(client, "attributes.0.name", NULL)
       kmip_bytes(client, "data", &length)         what was encrypted by a call of words

   After kmip_operation, and after a `get` or `attributes` of what the tables of these calls have no
   words for, as a key of EC or HMAC, the answer is a tree (the line then begins with
   {"answer":{"tag":), and the path is one of tags below the response's payload, as
   KeyBlock.KeyFormatType or Attribute.1.AttributeName. kmip_text has an Enumeration by its name, or
   as 0x00000001, a mask by the names of its bits, as Encrypt|Decrypt, and numbers, dates and
   booleans as the line writes them.

   `length` may be null. Where it is, kmip_text is null for a text that has a byte 0 within, which C
   would take for its end.

   The items of a list may be asked for one after the other, as unique_identifiers.0, .1, ..: the
   line is then read once in all, and not once for each.

   Both, and kmip_pem, stay until the next of the three and until kmip_close; so one of them may be
   a word of the next call. */
const uint8_t *kmip_bytes(kmip_client *client, const char *path, size_t *length);
const char *kmip_text(kmip_client *client, const char *path, size_t *length);

/* How many items the list at a path of the last answer has: a list of JSON, as unique_identifiers,
   where any other value is one item; in a tree the items with this tag, as Attribute, of one
   structure. 0 where the last call was not answered, or its answer has nothing there. */
size_t kmip_count(kmip_client *client, const char *path);

/* The items of such a list, from the first to the last:

       kmip_list *found = kmip_list_new(client, "unique_identifiers");
       while (kmip_list_next(found))
           puts(kmip_list_text(found, NULL, NULL));
       kmip_list_free(found);

   It is a copy: other calls may be made meanwhile, and the client may be closed. The time that it
   takes to go through it grows as the list does. It is for one thread at a time. */
typedef struct kmip_list kmip_list;

/* The list at a path of the last answer, before its first item; without items where the answer has
   nothing there. A null pointer where the last call was not answered, `path` is null, or memory ran
   out. */
KMIP_LOOKED_AT kmip_list *kmip_list_new(kmip_client *client, const char *path);

/* Goes to the next item. False where there is none, and of a null list. */
bool kmip_list_next(kmip_list *list);

/* A value of the item at hand, as kmip_bytes and kmip_text have one of an answer: at a path below
   it, as name or AttributeName, or the item itself where the path is null. A null pointer also
   where there is no item at hand. It stays until the next of these two of this list, and until
   kmip_list_free. */
const uint8_t *kmip_list_bytes(kmip_list *list, const char *path, size_t *length);
const char *kmip_list_text(kmip_list *list, const char *path, size_t *length);

/* Frees it, and overwrites it first. A null pointer is fine. */
void kmip_list_free(kmip_list *list);

/* The key or the certificate of the last answer, which was one to `get`, as PEM: a public key in
   PKCS#1 or X.509, a private key in PKCS#1, PKCS#8 or ECPrivateKey, a key of RSA or of a curve whose
   parts are told one by one, or a certificate in X.509. A null pointer where there is none of these,
   as for a key that is wrapped. */
const char *kmip_pem(kmip_client *client);

/* Ends the connection, at once whatever the server does, and frees what belongs to it; texts, keys
   and the password are overwritten first. A null pointer is fine. */
void kmip_close(kmip_client *client);

/* The same without a byte on the connection: for the child after a fork, in which the connection is
   the parent's. There kmip_close does no more than this, and a call is KMIP_LOST and sends
   nothing. */
void kmip_abandon(kmip_client *client);

/* Connections that threads share, at most so many at once, with one list of servers for all of them:

       kmip_pool *pool = kmip_pool_new(&settings, 8, error, sizeof error);
       ..
       kmip_client *client = kmip_pool_take(pool, error, sizeof error);
       if (client && kmip_call(client, "sign", "2", "68656C6C6F", NULL) == KMIP_ANSWERED)
           ..
       kmip_pool_give_back(pool, client);

   Any thread may make any of these calls at any time, but for kmip_pool_free. Log and record of the
   settings are called by all threads that make calls, and so by several at once. */
typedef struct kmip_pool kmip_pool;
#define KMIP_POOL_MOST 1024

/* A pool of 1 to KMIP_POOL_MOST connections, none of which is opened yet: files are read now, and a
   credential is kept. A null pointer where the settings are wrong or memory runs out; then `error` is
   as after kmip_open. */
KMIP_LOOKED_AT kmip_pool *kmip_pool_new(const kmip_settings *settings, size_t size, char *error,
                                        size_t room);

/* A connection, for one thread, until it is given back. It waits for one where all are taken, and opens
   one where none is free; for both together it has the seconds of the settings. One that is free is
   looked at before: where it has ended, is older than max_age, or its server has failed since it was
   opened, another is taken. With the order `first` it is the one that was used last, with `turns` the
   one that is free for longest. A null pointer where there is none, and `error` says why. */
KMIP_LOOKED_AT kmip_client *kmip_pool_take(kmip_pool *pool, char *error, size_t room);

/* Gives it back, also where its connection is lost, in place of kmip_close; what it has of its last
   call is overwritten and freed. Batches of it are not used after that but by kmip_batch_free. A null
   client is fine.

   In the child of a fork a pool has new connections: it closes its copies of those that were free, and
   one that was taken before is of no use but to be given back. */
void kmip_pool_give_back(kmip_pool *pool, kmip_client *client);

/* Ends those that are free, and when the last is given back what is left. A null pointer is fine. */
void kmip_pool_free(kmip_pool *pool);

#ifdef __cplusplus
}
#endif
#endif
