/* A session of calls with a server that makes it hard: calls MODE HOST PORT CERTIFICATE KEY
   AUTHORITY. */
#define _DEFAULT_SOURCE
#include "ders.h"
#include "testing.h"

#include <signal.h>
#include <sys/resource.h>
#include <sys/time.h>
#include <unistd.h>

static volatile sig_atomic_t ticks;

static void tick(int number) {
    (void)number;
    ticks++;
}

/* A handler of a signal runs five times a second; the server answers after three seconds. */
static void signals(kmip_client *client, int flags) {
    struct sigaction action = {.sa_handler = tick, .sa_flags = flags};
    struct itimerval often = {{0, 200000}, {0, 200000}}, never = {{0, 0}, {0, 0}};
    sigaction(SIGALRM, &action, NULL);
    setitimer(ITIMER_REAL, &often, NULL);
    check(kmip_call(client, "sign", "slow", "00", NULL) == KMIP_ANSWERED,
          "a call is answered while a handler of a signal runs");
    setitimer(ITIMER_REAL, &never, NULL);
    check(ticks > 0, "which it did");
}

/* The other side ends the connection while a large request is sent: no SIGPIPE ends the process. */
static void sigpipe(kmip_client *client) {
    size_t count = 24000000;
    struct sigaction now;
    char *data = malloc(count + 1);
    if (!data) exit(1);
    memset(data, 'A', count);
    data[count] = 0;
    check(kmip_call(client, "sign", "mine", data, NULL) == KMIP_LOST,
          "a connection that ends within a request is lost");
    check(strstr(kmip_line(client), "RequestWriteError") != NULL, "which is said");
    check(kmip_call(client, "query", NULL) == KMIP_LOST, "and stays so");
    sigaction(SIGPIPE, NULL, &now);
    check(now.sa_handler == SIG_DFL, "SIGPIPE is left as it was");
    free(data);
}

/* No call takes what came before it. */
static void out_of_step(kmip_client *client) {
    check(kmip_call(client, "sign", "mine", "00", NULL) == KMIP_ANSWERED, "the first call");
    check(kmip_call(client, "sign", "other", "00", NULL) == KMIP_LOST,
          "no later call takes bytes that came before it");
    check(kmip_text(client, "unique_identifier", NULL) == NULL, "nor a value of them");
    check_text(kmip_line(client),
               "{\"error\":\"RequestWriteError\",\"text\":\"the server sent bytes that no call had "
               "asked for; nothing was sent\"}",
               "the reason is said");
}

static void another_object(kmip_client *client) {
    check(kmip_call(client, "sign", "mine", "00", NULL) == KMIP_LOST,
          "an answer about another object loses the connection");
    static const char why[] = "{\"error\":\"InternalError\",\"text\":\"answer for another object\"";
    check(strncmp(kmip_line(client), why, sizeof why - 1) == 0, "and says why");
    check(kmip_bytes(client, "signature_data", NULL) == NULL, "it has no value");
    check(kmip_call(client, "query", NULL) == KMIP_LOST, "no later call is made");
    check_text(kmip_line(client),
               "{\"error\":\"RequestWriteError\",\"text\":\"the connection is closed; nothing was "
               "sent\"}",
               "and says so");
}

/* The connection is ended by the server while nobody calls. */
static void ended(kmip_client *client) {
    check(kmip_call(client, "query", NULL) == KMIP_ANSWERED, "the first call");
    check(kmip_call(client, "query", NULL) == KMIP_LOST, "a connection that has ended is lost");
    check_text(kmip_line(client),
               "{\"error\":\"RequestWriteError\",\"text\":\"end of input; nothing was sent\"}",
               "it is known that nothing was sent");
}

/* Values come out of the answer of the last call, and of no other. */
static void values(kmip_client *client) {
    size_t length = 0;
    const uint8_t *bytes;
    check(kmip_text(client, "unique_identifier", NULL) == NULL, "no value before a call");
    check_text(kmip_line(client), "", "no line before a call");
    check(kmip_call(client, "sign", "a\"\n\xC3\xA9", "00", NULL) == KMIP_ANSWERED, "sign");
    check_text(kmip_text(client, "unique_identifier", NULL), "a\"\n\xC3\xA9",
               "a text is as it is, and not as JSON writes it");
    bytes = kmip_bytes(client, "signature_data", &length);
    check(bytes && length == 18 && memcmp(bytes, "signature by a\"\n\xC3\xA9", length) == 0,
          "bytes are as they are");
    check(kmip_bytes(client, "unique_identifier", NULL) == NULL, "a text is no bytes");
    check(kmip_text(client, "no.such", NULL) == NULL, "a value that is missing is none");
    check(kmip_call(client, "activate", kmip_text(client, "unique_identifier", NULL), NULL) ==
              KMIP_ANSWERED,
          "a value may be a word of the next call");
    check(kmip_bytes(client, "signature_data", NULL) == NULL, "an older answer is not looked at");
    check(kmip_call(client, "sing", NULL) == KMIP_CALL_GRAMMAR, "a call that is none");
    check(kmip_text(client, "unique_identifier", NULL) == NULL, "after it there is no value");
    check(kmip_call(client, "query", NULL) == KMIP_ANSWERED, "the connection is good");
    check_text(kmip_text(client, "operations.0", NULL), "Create", "an item of a list");
}

/* What has to be refused before it is sent: the server would do it. */
static void refused(kmip_client *client) {
    static const struct {
        const char *call, *words[6], *text;
    } rows[] = {
        {"destroy", {"", NULL}, "an identifier is empty; "},
        {"sign -", {"00", NULL}, "there is no call sign -"},
        {"query\nquery", {NULL}, "there is no call query\\u000Aquery"},
        {"", {NULL}, "there is no call "},
        {"operation", {"Query", "{}", NULL}, "the words are not those of operation "},
        {"sing", {"1", NULL}, "there is no call sing"},
        {"rename", {"1", NULL}, "the words are not those of rename ID NAME"},
        {"query", {"1", NULL}, "the words are not those of query"},
        {"sign", {"1", "0", NULL}, "sign: HEX is no even number of hex digits"},
        {"rng", {"007", NULL}, "rng: N is no number from -2147483648 to "},
        {"rng", {"2147483648", NULL}, "rng: N is no number from -2147483648 to "},
        {"get", {"\xED\xA0\x80", NULL}, "the name of the call is no text, or a text is not UTF-8"},
        {"attributes",
         {"1", "State", "\xFF", NULL},
         "the name of the call is no text, or a text is not UTF-8"},
        {"attributes", {NULL}, "the words are not those of attributes ID [NAME..]"},
        {"sign",
         {"1", "00", "padding=PSS", "hash=SHA3", NULL},
         "sign: hash= is none of MD2, MD4, MD5, SHA1, "},
        {"get", {"1", "format=Raw", "format=Raw", NULL}, "get: format= is given twice"},
        {"get", {"1", "format=PKCS_1", NULL}, "get: format= is none of Raw, Opaque, PKCS1, "},
        {"revoke",
         {"1", "message=a b", "since=-1", NULL},
         "revoke: since= is no number from 0 to 9223372036854775807"},
        {"create",
         {"HMAC_SHA256", "8", "n", NULL},
         "create: ALGORITHM is none of DES, TRIPLE_DES, AES, RSA"},
        {"register",
         {"secret", "00", "format=Raw", "algorithm=AES", "length=8", NULL},
         "register: KIND is none of public, private, symmetric"},
        {"register",
         {"public", "00", "format=Raw", "length=8", NULL},
         "register: algorithm= is missing"},
        {"register",
         {"public", "00", "format=Raw", "algorithm=EC", "length=8", NULL},
         "register: algorithm= is none of DES, TRIPLE_DES, AES, RSA"},
        {"locate",
         {"where", "name=a", "state=x", NULL},
         "locate: state= is none of PreActive, Active, "},
        {"locate", {"name=a", "state=x", NULL}, "locate: state= is none of PreActive, Active, "},
        {"locate", {"name=a", "b", NULL}, "locate: ATTRIBUTE is none of name=, group=, "},
        {"locate", {"where", "name=a", "b", NULL}, "locate: ATTRIBUTE is none of name=, group=, "},
        {"locate", {"\xFF", NULL}, "the name of the call is no text, or a text is not UTF-8"},
        {"sign",
         {"1", "00", "hash=SHA384", "prehashed", NULL},
         "prehashed and hash= exclude each other: KMIP 1.2 has no digested data in Sign, "},
        {"get", {"1", "wrap=", NULL}, "an identifier is empty; "},
        {"attribute-add", {"1", NULL}, "the words are not those of attribute-add ID ATTRIBUTE"},
        {"attribute-add",
         {"1", "name=a", "group=b", NULL},
         "the words are not those of attribute-add ID ATTRIBUTE"},
        {"attribute-modify",
         {"1", "index=0", "name=a", NULL},
         "the words are not those of attribute-modify ID ATTRIBUTE [index=]"},
        {"attribute-modify",
         {"1", "type=x", "index=0", NULL},
         "attribute-modify: type= is none of Certificate, "},
        {"raw", {"00", NULL}, "raw: the bytes are not the one canonical message of a request"},
    };
    for (size_t i = 0; i < sizeof rows / sizeof *rows; i++) {
        char line[300];
        snprintf(line, sizeof line, "{\"error\":\"GrammarError\",\"text\":\"%s", rows[i].text);
        check(kmip_call_words(client, rows[i].call, rows[i].words) == KMIP_CALL_GRAMMAR,
              "a call that is refused");
        check(strncmp(kmip_line(client), line, strlen(line)) == 0, rows[i].text);
    }
    check(kmip_call(client, "sign", "1", "00", "padding=PSS", "prehashed", NULL) == KMIP_ANSWERED,
          "a digest is signed as it is");
    check(kmip_call(client, "activate", "-", NULL) == KMIP_ANSWERED,
          "the identifier - is none that is empty");
    check(kmip_call(client, "query", NULL) == KMIP_ANSWERED, "the connection is good");
}

/* A connection that is good is ended in order: the next client is told how. */
static void in_order(kmip_client *client, const kmip_settings *settings) {
    check(kmip_call(client, "query", NULL) == KMIP_ANSWERED, "a call");
    kmip_close(client);
    client = opened(settings);
    check(kmip_call(client, "query", NULL) == KMIP_ANSWERED, "a call on another connection");
    check_text(kmip_text(client, "vendor_identification", NULL), "in order",
               "kmip_close has told the server");
    kmip_close(client);
}

/* kmip_close waits for nobody. */
static void close_waits(kmip_client *client) {
    check(kmip_call(client, "query", NULL) == KMIP_ANSWERED, "a call");
    double from = seconds_now();
    kmip_close(client);
    check(seconds_now() - from < LONG_WAIT,
          "kmip_close does not wait for a server that says nothing");
}

/* A client with the shortest deadline within which there is a connection. */
static kmip_client *hurried(kmip_settings settings, double *seconds) {
    static const double choices[] = {1.5, 12, 60};
    kmip_client *client = NULL;
    for (size_t i = 0; !client && i < sizeof choices / sizeof *choices; i++) {
        settings.seconds = *seconds = choices[i];
        client = kmip_open(&settings, NULL, 0);
    }
    if (!client) exit(1);
    return client;
}

/* A call ends with its deadline, and says so. */
static void ends_in_time(kmip_client *client, double seconds) {
    char reading[200], writing[200];
    double from = seconds_now();
    check(kmip_call(client, "query", NULL) == KMIP_LOST,
          "a call with a server that sends tickets without end");
    check(seconds_now() - from < seconds + 20, "ends with its deadline");
    snprintf(reading, sizeof reading,
             "{\"error\":\"ResponseReadError\",\"text\":\"no answer within %g seconds\"}", seconds);
    snprintf(writing, sizeof writing,
             "{\"error\":\"RequestWriteError\",\"text\":\"no answer within %g seconds; nothing was "
             "sent\"}",
             seconds);
    check_text(kmip_line(client), kmip_was_sent(client) ? reading : writing, "and says so");
    from = seconds_now();
    kmip_close(client);
    check(seconds_now() - from < 20, "so does kmip_close");
}

static void tickets(const kmip_settings *settings) {
    double seconds;
    kmip_client *client = hurried(*settings, &seconds);
    ends_in_time(client, seconds);
}

/* They come after an answer: in the look before the next call, and at the end. */
static void tickets_after(const kmip_settings *settings) {
    double seconds;
    kmip_client *client = hurried(*settings, &seconds);
    check(kmip_call(client, "query", NULL) == KMIP_ANSWERED, "a call before the tickets");
    usleep(300000); /* so that they are there, mostly */
    ends_in_time(client, seconds);
    client = hurried(*settings, &seconds);
    check(kmip_call(client, "query", NULL) == KMIP_ANSWERED, "a call before the tickets");
    double from = seconds_now();
    kmip_close(client);
    check(seconds_now() - from < seconds + 20, "kmip_close takes none of them");
}

/* The most memory that the process has had, in KiB. */
static long most_memory(void) {
    struct rusage usage;
    return getrusage(RUSAGE_SELF, &usage) == 0 ? usage.ru_maxrss : -1;
}

/* A response whose head announces nearly 4 GiB, of which a thousand bytes come. */
static void announced(kmip_settings settings) {
    double seconds;
    settings.limit = 0;
    kmip_client *client = hurried(settings, &seconds);
    long before = most_memory();
    check(kmip_call(client, "query", NULL) == KMIP_LOST, "a response that does not come");
    kmip_close(client);
    long after = most_memory();
    check(before > 0 && after - before < 65536, "takes no memory for what was announced");
    if (after - before >= 65536) printf("        it took %ld KiB\n", after - before);
}

/* Any operation, by its name and a payload in JSON. */
static void any_operation(kmip_client *client) {
    static const char encrypt[] =
        "{\"tag\":\"RequestPayload\",\"value\":[{\"tag\":"
        "\"UniqueIdentifier\",\"type\":\"TextString\",\"value\":\"k1\"}]}";
    check(kmip_operation(client, "Encrypt", "1.2", encrypt) == KMIP_ANSWERED, "Encrypt");
    check_text(kmip_line(client),
               "{\"answer\":{\"tag\":\"ResponsePayload\",\"value\":[{\"tag\":"
               "\"UniqueIdentifier\",\"type\":\"TextString\",\"value\":\"k1\"}]}}",
               "its answer is the payload of the response");
    check_text(kmip_text(client, "UniqueIdentifier", NULL), "k1",
               "whose values have paths of tags");
    check(kmip_bytes(client, "UniqueIdentifier", NULL) == NULL, "a text is no bytes");
    check(kmip_text(client, "tag", NULL) == NULL, "a value that is missing is none");
    check(kmip_pem(client) == NULL, "it is no key of a get");
    check(kmip_operation(client, "encrypt", "1.2", encrypt) == KMIP_CALL_GRAMMAR,
          "another name is no call");
    check(kmip_operation(client, "Encrypt", "1.2", "{}") == KMIP_CALL_GRAMMAR,
          "nor is another payload");
    check_text(
        kmip_line(client),
        "{\"error\":\"GrammarError\",\"text\":\"the payload: line 1, column 1, tag: expected the "
        "name of a tag, or 0x and six hex digits, found nothing\"}",
        "the reason is said");
    check(kmip_operation(client, "Encrypt", "1.3", encrypt) == KMIP_CALL_GRAMMAR,
          "nor is another version");
    check_text(kmip_line(client),
               "{\"error\":\"GrammarError\",\"text\":\"the version is none of 1.0, 1.1 and 1.2\"}",
               "the reason is said");
    check(kmip_operation(client, "encrypt", "1.2", encrypt) == KMIP_CALL_GRAMMAR,
          "another name again");
    check_text(kmip_line(client),
               "{\"error\":\"GrammarError\",\"text\":\"KMIP 1.2 has no operation of this name\"}",
               "the reason is said");
    check(kmip_text(client, "UniqueIdentifier", NULL) == NULL, "after it there is no value");
    check(kmip_call(client, "query", NULL) == KMIP_ANSWERED, "the next call is one of words");
    check(kmip_text(client, "vendor_identification", NULL) != NULL, "and has its values");
    check(kmip_operation(NULL, "Encrypt", "1.2", encrypt) == KMIP_LOST, "a null client is lost");
}

/* An identifier that is empty, wherever it stands in a payload. */
static void empty_identifier(kmip_client *client) {
    static const char *const payloads[] = {
        "{\"tag\":\"RequestPayload\",\"value\":[{\"tag\":\"UniqueIdentifier\",\"type\":"
        "\"TextString\",\"value\":\"\"}]}",
        "{\"tag\": \"RequestPayload\", \"value\": [{\"tag\": \"0x420094\", \"type\": "
        "\"TextString\", \"value\": \"\"}]}",
        "{\"tag\":\"RequestPayload\",\"value\":[{\"tag\":\"UniqueIdentifier\",\"type\":"
        "\"TextString\",\"value\":\"k\"},{\"tag\":\"KeyWrappingSpecification\",\"value\":[{\"tag\":"
        "\"EncryptionKeyInformation\",\"value\":[{\"tag\":\"UniqueIdentifier\",\"type\":"
        "\"TextString\",\"value\":\"\"}]}]}]}",
    };
    for (size_t i = 0; i < sizeof payloads / sizeof *payloads; i++) {
        check(kmip_operation(client, "Get", "1.2", payloads[i]) == KMIP_CALL_GRAMMAR &&
                  !kmip_was_sent(client),
              "a payload with an empty identifier is not sent");
        check_text(kmip_line(client),
                   "{\"error\":\"GrammarError\",\"text\":\"the payload: an identifier or an "
                   "AsynchronousCorrelationValue in it is empty\"}",
                   "and why");
    }
}

static void refuses_certificate(kmip_client *client, const void *bytes, size_t length,
                                const char *why) {
    char line[200];
    check(kmip_register_certificate(client, bytes, length, NULL, NULL) == KMIP_CALL_GRAMMAR &&
              !kmip_was_sent(client),
          "what is no certificate is not sent");
    snprintf(line, sizeof line, "{\"error\":\"GrammarError\",\"text\":\"the certificate is %s\"}",
             why);
    check_text(kmip_line(client), line, "and why");
}

/* Certificates that are registered, and what is none. */
static void certificate(kmip_client *client, const kmip_settings *settings) {
    size_t length;
    uint8_t *der = der_of_certificate(settings->certificate, &length);
    check(kmip_register_certificate(client, der, length, "root", "Verify") == KMIP_ANSWERED,
          "a certificate is registered");
    check_text(kmip_text(client, "UniqueIdentifier", NULL), "1", "and its identifier is known");
    check(kmip_register_certificate(NULL, der, length, NULL, NULL) == KMIP_LOST,
          "a null client is lost");
    OPENSSL_free(der);
    refuses_certificate(client, "x", 1, "neither DER nor PEM");
    der = der_of_key(settings->key, &length);
    refuses_certificate(client, der, length, "none of X.509");
    OPENSSL_free(der);
    check(kmip_text(client, "UniqueIdentifier", NULL) == NULL, "after it there is no value");
    check(kmip_call(client, "query", NULL) == KMIP_ANSWERED, "the connection is good");
}

/* Words that are counted: none is lost where one is null. */
static void counted(kmip_client *client) {
    const kmip_word none = {NULL, 0, false};
    const kmip_word words[] = {kmip_text_word("mine"), kmip_text_word("00"), none,
                               kmip_text_word("hash=SHA512")};
    check(kmip_call_array(client, "sign", words, 2) == KMIP_ANSWERED, "words that are counted");
    check_text(kmip_text(client, "unique_identifier", NULL), "mine", "and their answer");
    check(kmip_call_array(client, "sign", words, 4) == KMIP_CALL_GRAMMAR && !kmip_was_sent(client),
          "one of them is null");
    check_text(kmip_line(client),
               "{\"error\":\"GrammarError\",\"text\":\"sign: word 3 after it is a null pointer\"}",
               "which is said");
    check(kmip_call_array(client, "query", NULL, 0) == KMIP_ANSWERED, "there may be none");
    check(kmip_call_array(client, "query", words, SIZE_MAX / 4) == KMIP_CALL_GRAMMAR,
          "they are looked at up to the first that is null");
    check(kmip_call(client, "sign", "mine", "00", KMIP_END) == KMIP_ANSWERED, "their end, by name");
    check(kmip_call_array(NULL, "query", NULL, 0) == KMIP_LOST, "a null client is lost");
}

int main(int argc, char **argv) {
    if (argc < 7) return 2;
    const char *mode = argv[1];
    kmip_settings settings = settings_of(argv + 1);
    if (strcmp(mode, "close") == 0) settings.seconds = 2 * LONG_WAIT;
    if (strcmp(mode, "in_order") == 0) settings.user = "in order", settings.password = "";
    if (strcmp(mode, "announced") == 0) return announced(settings), outcome();
    if (strcmp(mode, "tickets") == 0) return tickets(&settings), outcome();
    if (strcmp(mode, "tickets_after") == 0) return tickets_after(&settings), outcome();
    kmip_client *client = opened(&settings);
    if (strcmp(mode, "close") == 0) return close_waits(client), outcome();
    if (strcmp(mode, "in_order") == 0) return in_order(client, &settings), outcome();
    if (strcmp(mode, "restart") == 0) signals(client, SA_RESTART);
    if (strcmp(mode, "interrupt") == 0) signals(client, 0);
    if (strcmp(mode, "sigpipe") == 0) sigpipe(client);
    if (strcmp(mode, "out_of_step") == 0) out_of_step(client);
    if (strcmp(mode, "another_object") == 0) another_object(client);
    if (strcmp(mode, "ended") == 0) ended(client);
    if (strcmp(mode, "values") == 0) values(client);
    if (strcmp(mode, "operation") == 0) any_operation(client), empty_identifier(client);
    if (strcmp(mode, "certificate") == 0) certificate(client, &settings);
    if (strcmp(mode, "counted") == 0) counted(client);
    if (strcmp(mode, "refused") == 0) refused(client);
    kmip_close(client);
    return outcome();
}
