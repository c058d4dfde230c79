/* What a library needs that makes calls within another program, as a provider of OpenSSL does:
   library MODE HOST PORT CERTIFICATE KEY AUTHORITY. */
#define _DEFAULT_SOURCE
#include "metsuwan_internal.h"
#include "testing.h"

#include <openssl/crypto.h>
#include <openssl/err.h>
#include <openssl/ssl.h>
#include <stddef.h>
#include <sys/wait.h>
#include <unistd.h>

/* A child of a fork leaves the connection to its parent; `leave` is how. */
static void leaves(kmip_client *client, void (*leave)(kmip_client *), const char *what) {
    int status = 0;
    pid_t child = fork();
    if (child == 0) {
        leave(client);
        _exit(0);
    }
    check(child > 0 && waitpid(child, &status, 0) == child && WIFEXITED(status) &&
              WEXITSTATUS(status) == 0,
          what);
    check(kmip_call(client, "sign", "mine", "00", NULL) == KMIP_ANSWERED,
          "and the parent's connection is good");
}

static void makes_no_call(kmip_client *client) {
    if (kmip_call(client, "query", NULL) != KMIP_LOST || kmip_was_sent(client)) _exit(1);
    kmip_close(client);
}

static void forks(const kmip_settings *settings) {
    kmip_client *client = opened(settings);
    leaves(client, kmip_abandon, "a child gives its parent's client up");
    leaves(client, kmip_close, "a child closes its parent's client");
    leaves(client, makes_no_call, "a child makes no call over its parent's connection");
    kmip_close(client);
    kmip_abandon(NULL);
}

/* The server says how the connection before ended. */
static void abandons(kmip_settings settings) {
    settings.user = "abandoned";
    settings.password = "";
    for (int i = 0; i < 2; i++) {
        kmip_client *client = opened(&settings);
        check(kmip_call(client, "query", NULL) == KMIP_ANSWERED, "a call");
        if (i == 1)
            check_text(kmip_text(client, "vendor_identification", NULL), "torn",
                       "a client that is given up says nothing to the server");
        kmip_abandon(client);
    }
}

static void sent_and_answered(const kmip_settings *settings) {
    kmip_client *client = opened(settings);
    check(!kmip_was_sent(client) && kmip_error_kind(client) == KMIP_KIND_NONE, "before a call");
    check(kmip_call(client, "query", NULL) == KMIP_ANSWERED && kmip_was_sent(client) &&
              kmip_error_kind(client) == KMIP_KIND_NONE,
          "an answered call was sent");
    check(kmip_call(client, "sing", NULL) == KMIP_CALL_GRAMMAR && !kmip_was_sent(client) &&
              kmip_error_kind(client) == KMIP_KIND_GRAMMAR,
          "one that is not of the grammar was not");
    check(!kmip_was_sent(NULL) && kmip_error_kind(NULL) == KMIP_KIND_WRITE, "nor one of no client");
    kmip_close(client);
}

/* The server answers once and then ends the connection. */
static void not_sent(const kmip_settings *settings) {
    kmip_client *client = opened(settings);
    check(kmip_call(client, "query", NULL) == KMIP_ANSWERED, "a call");
    for (int i = 0; i < 2; i++)
        check(kmip_call(client, "query", NULL) == KMIP_LOST && !kmip_was_sent(client) &&
                  kmip_error_kind(client) == KMIP_KIND_WRITE,
              "over a connection that has ended nothing is sent");
    kmip_close(client);
}

/* The server takes the request, and answers as `kind` says; `data` are signed. */
static void sent_for_nothing(const kmip_settings *settings, const char *data, kmip_kind kind) {
    kmip_client *client = opened(settings);
    check(kmip_call(client, "sign", "mine", data, NULL) == KMIP_LOST && kmip_was_sent(client),
          "a request, or a part of it, was sent");
    check(kmip_error_kind(client) == kind, "and the kind of the error is known");
    kmip_close(client);
}

static void partly_sent(const kmip_settings *settings) {
    size_t count = 24000000;
    char *data = malloc(count + 1);
    if (!data) exit(1);
    memset(data, 'A', count);
    data[count] = 0;
    sent_for_nothing(settings, data, KMIP_KIND_WRITE);
    free(data);
}

/* The caller's errors in OpenSSL's queue: two, and a mark at the second. */
static void put_errors(void) {
    ERR_clear_error();
    ERR_put_error(ERR_LIB_USER, 0, 11, "first.c", 1);
    ERR_add_error_data(1, "of the first");
    ERR_put_error(ERR_LIB_USER, 0, 12, "second.c", 2);
    ERR_set_mark();
}

static bool error_is(int reason, const char *file, int line, const char *text) {
    const char *found_file = "", *found_text = "";
    int found_line = 0, flags = 0;
    unsigned long code = ERR_get_error_line_data(&found_file, &found_line, &found_text, &flags);
    return ERR_GET_LIB(code) == ERR_LIB_USER && ERR_GET_REASON(code) == reason &&
           strcmp(found_file, file) == 0 && found_line == line && strcmp(found_text, text) == 0;
}

/* They are there, and no other; the mark is where it was. */
static void has_errors(const char *what) {
    ERR_put_error(ERR_LIB_USER, 0, 13, "third.c", 3);
    int marked = ERR_pop_to_mark();
    bool first = error_is(11, "first.c", 1, "of the first");
    bool second = error_is(12, "second.c", 2, "");
    check(marked == 1 && first && second && ERR_get_error() == 0, what);
}

static void queue(const kmip_settings *settings) {
    kmip_settings wrong = *settings;
    wrong.authority = wrong.key;
    put_errors();
    kmip_client *client = kmip_open(&wrong, NULL, 0);
    has_errors("the caller's errors are kept where no client is opened");
    check(client == NULL, "as it was not");
    put_errors();
    client = kmip_open(settings, NULL, 0);
    has_errors("where one is opened");
    put_errors();
    check(kmip_call(client, "query", NULL) == KMIP_ANSWERED, "a call with errors of the caller");
    has_errors("where a call is answered");
    put_errors();
    check(kmip_call(client, "sing", NULL) == KMIP_CALL_GRAMMAR, "a call that is none");
    has_errors("where one is not");
    put_errors();
    check(kmip_operation(client, "Query", "1.0", "{}") == KMIP_CALL_GRAMMAR, "no payload");
    has_errors("where an operation is not");
    put_errors();
    check(kmip_register_certificate(client, "x", 1, NULL, NULL) == KMIP_CALL_GRAMMAR, "none");
    has_errors("where no certificate is registered");
    put_errors();
    kmip_close(client);
    has_errors("and where a client is closed");
    ERR_clear_error();
    client = kmip_open(&wrong, NULL, 0);
    check(client == NULL && ERR_get_error() == 0, "no error is left in a queue that had none");
}

/* A server whose answer is cut off: the caller's errors, and not the server's, are in the queue. */
static void queue_of_lost(const kmip_settings *settings) {
    kmip_client *client = opened(settings);
    put_errors();
    check(kmip_call(client, "query", NULL) == KMIP_LOST, "a call that is lost");
    has_errors("leaves the caller's errors");
    kmip_close(client);
}

static SSL_CTX *context_of(const kmip_settings *settings) {
    SSL_CTX *context = SSL_CTX_new(TLS_client_method());
    if (!context) exit(1);
    SSL_CTX_set_mode(context, SSL_MODE_ENABLE_PARTIAL_WRITE | SSL_MODE_AUTO_RETRY);
    SSL_CTX_set_read_ahead(context, 1);
    SSL_CTX_set_verify(context, SSL_VERIFY_NONE, NULL);
    if (SSL_CTX_use_certificate_chain_file(context, settings->certificate) != 1 ||
        SSL_CTX_use_PrivateKey_file(context, settings->key, SSL_FILETYPE_PEM) != 1 ||
        SSL_CTX_load_verify_locations(context, settings->authority, NULL) != 1)
        exit(1);
    return context;
}

/* The server says who the client is. */
static void is_alice(const kmip_settings *settings, const char *what) {
    kmip_client *client = opened(settings);
    check(kmip_call(client, "query", NULL) == KMIP_ANSWERED, "a call");
    check_text(kmip_text(client, "vendor_identification", NULL), "alice", what);
    kmip_close(client);
}

static void contexts(const kmip_settings *settings) {
    SSL_CTX *context = context_of(settings);
    kmip_settings changed = *settings;
    changed.context = context;
    kmip_client *client = NULL;
    char error[300];
    check(kmip_connect(&changed, &client, error, sizeof error) == KMIP_CALL_GRAMMAR && !client,
          "a context with a certificate beside it is refused");
    check_text(error,
               "{\"error\":\"ConfigurationError\",\"text\":\"certificate, key, authority, "
               "passphrase and library are those of context\"}",
               "and why");
    changed.certificate = changed.key = changed.authority = NULL;
    is_alice(&changed, "the certificate is that of the caller's context");
    check(SSL_CTX_get_verify_mode(context) == SSL_VERIFY_NONE, "which is not changed");
    is_alice(&changed, "it may be taken again");
    SSL_CTX_free(context);
#if OPENSSL_VERSION_NUMBER >= 0x30000000L
    changed = *settings;
    changed.library = OSSL_LIB_CTX_new();
    is_alice(&changed, "a connection in another library context");
    OSSL_LIB_CTX_free(changed.library);
#endif
}

/* A context that verifies nobody is none by which a stranger is taken for the server. */
static void strangers(const kmip_settings *settings, const char *wanted) {
    SSL_CTX *context = context_of(settings);
    kmip_settings changed = *settings;
    changed.context = context;
    changed.certificate = changed.key = changed.authority = NULL;
    kmip_client *client = NULL;
    char error[300];
    check(kmip_connect(&changed, &client, error, sizeof error) == KMIP_LOST && !client,
          "a context that verifies nobody does not let a stranger in");
    check(strstr(error, wanted) != NULL, "and why is said");
    SSL_CTX_free(context);
}

/* Settings of a program that was compiled with another version of the header. */
static void sizes(const kmip_settings *settings) {
    const size_t old = offsetof(kmip_settings, library),
                 second = offsetof(kmip_settings, reconnect),
                 third = offsetof(kmip_settings, record), fourth = offsetof(kmip_settings, server);
    const struct {
        size_t size;
        int status;
    } rows[] = {
        {old, KMIP_ANSWERED},         {sizeof *settings, KMIP_ANSWERED},
        {second, KMIP_ANSWERED},      {second - 1, KMIP_CALL_GRAMMAR},
        {old - 1, KMIP_CALL_GRAMMAR}, {sizeof *settings + sizeof(void *), KMIP_CALL_GRAMMAR},
        {third, KMIP_ANSWERED},       {0, KMIP_CALL_GRAMMAR},
        {fourth, KMIP_ANSWERED},      {fourth - 1, KMIP_CALL_GRAMMAR},
    };
    for (size_t i = 0; i < sizeof rows / sizeof *rows; i++) {
        size_t room = rows[i].size < sizeof(size_t) ? sizeof(size_t) : rows[i].size;
        void *place = calloc(1, room); /* not a byte more: it is read to its end and no further */
        kmip_client *client = NULL;
        if (!place) exit(1);
        memcpy(place, settings, room < sizeof *settings ? room : sizeof *settings);
        memcpy(place, &rows[i].size, sizeof rows[i].size);
        check(kmip_connect(place, &client, NULL, 0) == rows[i].status,
              "settings of this and of an older version are taken, and no others");
        check(!client == (rows[i].status != KMIP_ANSWERED), "as the client says");
        kmip_close(client);
        free(place);
    }
}

static void kinds(void) {
    static const struct {
        const char *line;
        int status;
        kmip_kind kind;
    } rows[] = {
        {"{\"answer\":{}}", KMIP_ANSWERED, KMIP_KIND_NONE},
        {"", KMIP_NO_MEMORY, KMIP_KIND_MEMORY},
        {"{\"error\":\"GrammarError\",\"text\":\"\"}", KMIP_CALL_GRAMMAR, KMIP_KIND_GRAMMAR},
        {"{\"error\":\"SerializeError\",\"text\":\"\"}", KMIP_REFUSED, KMIP_KIND_NO_FORM},
        {"{\"error\":\"RequestWriteError\",\"text\":\"\"}", KMIP_LOST, KMIP_KIND_WRITE},
        {"{\"error\":\"ResponseReadError\",\"text\":\"\"}", KMIP_LOST, KMIP_KIND_READ},
        {"{\"error\":\"ConnectError\",\"text\":\"\"}", KMIP_LOST, KMIP_KIND_CONNECT},
        {"{\"error\":\"NotDone\",\"text\":\"\"}", KMIP_REFUSED, KMIP_KIND_NOT_DONE},
        {"{\"error\":\"DeserializeError\",\"text\":\"\"}", KMIP_LOST, KMIP_KIND_NO_MESSAGE},
        {"{\"error\":\"InternalError\",\"text\":\"\"}", KMIP_LOST, KMIP_KIND_OTHER_ANSWER},
        {"{\"error\":\"InternalError\",\"text\":\"\"}", KMIP_REFUSED, KMIP_KIND_NO_ANSWER},
        {"{\"error\":\"ItemNotFound\",\"text\":\"Permission Denied\"}", KMIP_REFUSED,
         KMIP_KIND_ITEM_NOT_FOUND},
        /* Not by what a server writes in its text. */
        {"{\"error\":\"ServerError\",\"text\":\"Item Not Found\"}", KMIP_REFUSED,
         KMIP_KIND_OTHER_REASON},
        {"{\"error\":\"ServerError\",\"text\":\"\\\",\\\"reason\\\":12,\\\"\"}", KMIP_REFUSED,
         KMIP_KIND_OTHER_REASON},
        {"{\"error\":\"ServerError\",\"text\":\"\",\"reason\":\"PermissionDenied\"}", KMIP_REFUSED,
         KMIP_KIND_PERMISSION_DENIED},
        {"{\"error\":\"ServerError\",\"text\":\"\",\"reason\":\"Permission Denied\"}", KMIP_REFUSED,
         KMIP_KIND_PERMISSION_DENIED},
        {"{\"error\":\"ServerError\",\"text\":\"\",\"reason\":12,\"message\":\"\"}", KMIP_REFUSED,
         KMIP_KIND_PERMISSION_DENIED},
        {"{\"error\":\"ServerError\",\"text\":\"\",\"reason\":256}", KMIP_REFUSED,
         KMIP_KIND_GENERAL_FAILURE},
        {"{\"error\":\"ServerError\",\"text\":\"\",\"reason\":"
         "{\"name\":\"IllegalOperation\",\"number\":11}}",
         KMIP_REFUSED, KMIP_KIND_ILLEGAL_OPERATION},
        {"{\"error\":\"ServerError\",\"text\":\"\",\"reason\":{\"name\":\"InvalidField\"}}",
         KMIP_REFUSED, KMIP_KIND_INVALID_FIELD},
        {"{\"error\":\"ServerError\",\"text\":\"\",\"reason\":{}}", KMIP_REFUSED,
         KMIP_KIND_OTHER_REASON},
        {"{\"error\":\"ServerError\",\"text\":\"\",\"reason\":65536}", KMIP_REFUSED,
         KMIP_KIND_OTHER_REASON},
        {"{\"error\":\"ServerError\",\"text\":\"\",\"reason\":\"Permission\"}", KMIP_REFUSED,
         KMIP_KIND_OTHER_REASON},
        {"{\"error\":\"InternalError\",\"text\":\"\",\"reason\":18,\"message\":\"\"}", KMIP_REFUSED,
         KMIP_KIND_ENCODING_OPTION},
        {"{\"error\":\"InternalError\",\"text\":\"\",\"reason\":32767}", KMIP_REFUSED,
         KMIP_KIND_OTHER_REASON},
    };
    for (size_t i = 0; i < sizeof rows / sizeof *rows; i++)
        check(kmip_kind_of(rows[i].line, rows[i].status) == rows[i].kind, rows[i].line);
    static const char version[] = METSUWAN_VERSION ", ";
    check(strncmp(kmip_version(), version, sizeof version - 1) == 0,
          "the library has the version of its header, and says what it was compiled from");
}

/* Whether a number stands in place of a length, and is no status. Two that were equal would be an
   error of the compiler. */
static bool is_no_length(int64_t number) {
    switch (number) {
    case KMIP_LENGTH_GRAMMAR:
    case KMIP_LENGTH_ABSENT:
    case KMIP_LENGTH_LIMIT:
    case KMIP_LENGTH_MEMORY:
    case KMIP_LENGTH_NO_FORM: return true;
    case KMIP_ANSWERED:
    case KMIP_REFUSED:
    case KMIP_CALL_GRAMMAR:
    case KMIP_LOST:
    case KMIP_NO_MEMORY:
    default: return false;
    }
}

/* What the library gives in place of a length is none of the statuses of a call. */
static void no_lengths(void) {
    const kmip_word call = kmip_text_word("sing");
    const uint8_t none[8] = {0};
    uint8_t room[8];
    int64_t absent = kmip_contents_len(none, sizeof none, 0);
    int64_t grammar = kmip_request(&call, 1, none, 0, false, none, 0, none, 0, room, sizeof room);
    check(is_no_length(absent) && absent == KMIP_LENGTH_ABSENT, "a head that is none");
    check(is_no_length(grammar) && grammar == KMIP_LENGTH_GRAMMAR, "a call that is none");
    check(!is_no_length(KMIP_LOST), "no status is a length");
}

/* Whether the request of a search has this text. */
static bool asks_for(const kmip_words *words, const char *text) {
    uint8_t request[4096];
    const uint8_t none[1] = {0};
    int64_t length = kmip_request(words->at, words->count, none, 0, false, none, 0, none, 0,
                                  request, sizeof request);
    size_t count = strlen(text);
    for (int64_t at = 0; at + (int64_t)count <= length; at++)
        if (memcmp(request + at, text, count) == 0) return true;
    return false;
}

/* A single word of `locate` is a name, whatever stands in it. */
static void searches(void) {
    static const struct {
        const char *words[4], *asked[2], *other;
    } rows[] = {
        {{"state=Active", NULL}, {"Name", "state=Active"}, "State"},
        {{"where", NULL}, {"Name", "where"}, "State"},
        {{"where", "state=Active", NULL}, {"State", "State"}, "where"},
        {{"where", "state=Active", "name=a b", NULL}, {"State", "a b"}, "where"},
        {{"state=Active", "name=50% of a=b", NULL}, {"State", "50% of a=b"}, "where"},
    };
    for (size_t i = 0; i < sizeof rows / sizeof *rows; i++) {
        kmip_words words = kmip_words_of_texts("locate", rows[i].words);
        if (!words.at) exit(1);
        check(asks_for(&words, rows[i].asked[0]) && asks_for(&words, rows[i].asked[1]) &&
                  !asks_for(&words, rows[i].other),
              "a search asks for what is meant");
        free(words.at);
    }
}

int main(int argc, char **argv) {
    if (argc < 7) return 2;
    const char *mode = argv[1];
    const kmip_settings settings = settings_of(argv + 1);
    if (strcmp(mode, "good") == 0) {
        forks(&settings);
        sent_and_answered(&settings);
        queue(&settings);
        sizes(&settings);
        kinds();
        no_lengths();
        searches();
    }
    if (strcmp(mode, "ends") == 0) abandons(settings);
    if (strcmp(mode, "end_after") == 0) not_sent(&settings);
    if (strcmp(mode, "end") == 0) {
        sent_for_nothing(&settings, "00", KMIP_KIND_READ);
        queue_of_lost(&settings);
    }
    if (strcmp(mode, "closing") == 0) partly_sent(&settings);
    if (strcmp(mode, "over_limit") == 0) sent_for_nothing(&settings, "00", KMIP_KIND_NO_MESSAGE);
    if (strcmp(mode, "other_object") == 0)
        sent_for_nothing(&settings, "00", KMIP_KIND_OTHER_ANSWER);
    if (strcmp(mode, "certificate") == 0) contexts(&settings);
    if (strcmp(mode, "wrong_host") == 0) strangers(&settings, "ostname mismatch");
    if (strcmp(mode, "other/server") == 0) strangers(&settings, "certificate");
    return outcome();
}
