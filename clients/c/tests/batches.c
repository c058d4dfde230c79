/* Several calls in one message: batches MODE HOST PORT CERTIFICATE KEY AUTHORITY. */
#define _DEFAULT_SOURCE
#include "testing.h"

#define ITEM(tag, type, value) "{\"tag\":\"" tag "\",\"type\":\"" type "\",\"value\":\"" value "\"}"
#define PAYLOAD(items) "{\"tag\":\"RequestPayload\",\"value\":[" items "]}"

static const char archive[] = PAYLOAD(ITEM("UniqueIdentifier", "TextString", "a"));
static const char not_done[] =
    "{\"error\":\"NotDone\",\"text\":\"the server has not done this call "
    "of the batch\"}";

static kmip_batch *batch_of(kmip_client *client, kmip_on_error on_error) {
    kmip_batch *batch = kmip_batch_new(client, on_error);
    if (!batch) exit(1);
    return batch;
}

/* A batch that activates these objects. */
static kmip_batch *activating(kmip_client *client, kmip_on_error on_error, const char *first,
                              const char *second, const char *third) {
    kmip_batch *batch = batch_of(client, on_error);
    const char *const names[] = {first, second, third};
    for (size_t i = 0; i < 3 && names[i]; i++)
        if (kmip_batch_call(batch, "activate", names[i], NULL) != KMIP_ANSWERED) exit(1);
    return batch;
}

/* The answer at this place is that of the last call of another client, which was a single one. */
static void is_same(kmip_client *client, kmip_batch *batch, size_t at, kmip_client *single,
                    int status, const char *what) {
    check(kmip_batch_answer(batch, at) == status, "an answer of the batch");
    check_text(kmip_line(client), kmip_line(single), what);
    check(kmip_error_kind(client) == kmip_error_kind(single), "and its kind");
}

/* The calls of the batch that `answers` makes. */
static void add_calls(kmip_batch *batch) {
    const char *const words[] = {"k", "78", "hash=SHA384", NULL};
    bool added = kmip_batch_call(batch, "query", NULL) == KMIP_ANSWERED &&
                 kmip_batch_words(batch, "sign", words) == KMIP_ANSWERED &&
                 kmip_batch_operation(batch, "Archive", "1.2", archive) == KMIP_ANSWERED &&
                 kmip_batch_call(batch, "activate", "k 1", NULL) == KMIP_ANSWERED &&
                 kmip_batch_call(batch, "get", "PublicKey.EC", NULL) == KMIP_ANSWERED;
    check(added && kmip_batch_count(batch) == 5, "calls are added");
}

/* A value may be a word of the next call, also where that is answered as a tree: it is the object that
   the answer has to be about. */
static void about_values(kmip_client *client) {
    check(kmip_call(client, "get", "PublicKey.EC", NULL) == KMIP_ANSWERED &&
              kmip_call(client, "get", kmip_text(client, "UniqueIdentifier", NULL), NULL) ==
                  KMIP_ANSWERED &&
              kmip_pem(client),
          "a value of a tree is a word of the next call");
    check(kmip_call(client, "attributes", "elsewhere", NULL) == KMIP_ANSWERED &&
              kmip_call(client, "get", kmip_text(client, "unique_identifier", NULL), NULL) ==
                  KMIP_LOST &&
              kmip_error_kind(client) == KMIP_KIND_OTHER_ANSWER,
          "and an answer about another object is lost");
}

/* Each answer is that of the single call, whatever their order in the response. */
static void answers(kmip_client *client, const kmip_settings *good, const kmip_settings *keys) {
    kmip_client *single = opened(good), *of_keys = opened(keys);
    kmip_batch *batch = batch_of(client, KMIP_ON_ERROR_CONTINUE);
    size_t length = 0;
    add_calls(batch);
    check(kmip_text(client, "unique_identifier", NULL) == NULL, "which have no value");
    check(kmip_batch_send(batch) == KMIP_ANSWERED && kmip_was_sent(client), "a batch is answered");
    check(kmip_text(client, "unique_identifier", NULL) == NULL && kmip_pem(client) == NULL,
          "and has no value itself");
    check(kmip_call(single, "query", NULL) == KMIP_ANSWERED, "query");
    is_same(client, batch, 0, single, KMIP_ANSWERED, "as the single call");
    check_text(kmip_text(client, "vendor_identification", NULL), "fake", "a value of it");
    check(kmip_call(single, "sign", "k", "78", "hash=SHA384", NULL) == KMIP_ANSWERED, "sign");
    is_same(client, batch, 1, single, KMIP_ANSWERED, "as the single call");
    const uint8_t *bytes = kmip_bytes(client, "signature_data", &length);
    check(bytes && length == 14 && memcmp(bytes, "signature by k", length) == 0, "its bytes");
    check(kmip_operation(single, "Archive", "1.2", archive) == KMIP_ANSWERED, "Archive");
    is_same(client, batch, 2, single, KMIP_ANSWERED, "as the single call");
    check_text(kmip_text(client, "UniqueIdentifier", NULL), "a", "a value of it");
    check(kmip_call(single, "activate", "k 1", NULL) == KMIP_ANSWERED, "activate");
    is_same(client, batch, 3, single, KMIP_ANSWERED, "as the single call");
    check(kmip_call(of_keys, "get", "PublicKey.EC", NULL) == KMIP_ANSWERED, "get of a key of EC");
    is_same(client, batch, 4, of_keys, KMIP_ANSWERED, "as the single call");
    const char *pem = kmip_pem(client);
    check(pem && strncmp(pem, "-----BEGIN PUBLIC KEY-----", 26) == 0, "its PEM");
    is_same(client, batch, 3, single, KMIP_ANSWERED, "any answer may be read again");
    kmip_batch_free(batch);
    kmip_close(single);
    about_values(of_keys);
    kmip_close(of_keys);
}

/* An error stands in the place of an answer, and what the server does then is the caller's. */
static void errors(kmip_client *client) {
    static const struct {
        kmip_on_error how;
        int last;
        kmip_kind kind;
        const char *what;
    } rows[] = {
        {KMIP_ON_ERROR_CONTINUE, KMIP_ANSWERED, KMIP_KIND_NONE, "the server goes on"},
        {KMIP_ON_ERROR_STOP, KMIP_REFUSED, KMIP_KIND_NOT_DONE, "it ends"},
        {KMIP_ON_ERROR_UNDO, KMIP_ANSWERED, KMIP_KIND_NONE, "or takes back what it did"},
    };
    for (size_t i = 0; i < sizeof rows / sizeof *rows; i++) {
        kmip_batch *batch = activating(client, rows[i].how, "a", "failing", "k");
        check(kmip_batch_send(batch) == KMIP_ANSWERED, "a batch with a call that fails");
        check(kmip_batch_answer(batch, 0) == KMIP_ANSWERED, "the call before it is answered");
        check(kmip_batch_answer(batch, 1) == KMIP_REFUSED &&
                  kmip_error_kind(client) == KMIP_KIND_ITEM_NOT_FOUND,
              "it has its error");
        check(kmip_batch_answer(batch, 2) == rows[i].last &&
                  kmip_error_kind(client) == rows[i].kind,
              rows[i].what);
        if (rows[i].kind == KMIP_KIND_NOT_DONE) check_text(kmip_line(client), not_done, "said so");
        kmip_batch_free(batch);
    }
    check(kmip_call(client, "query", NULL) == KMIP_ANSWERED, "the connection is good");
}

/* This batch loses the connection, and says why. */
static void loses(const kmip_settings *settings, const char *const *names, const char *text) {
    char line[200];
    kmip_client *client = opened(settings);
    kmip_batch *batch = activating(client, KMIP_ON_ERROR_CONTINUE, names[0], names[1], names[2]);
    check(kmip_batch_send(batch) == KMIP_LOST && kmip_was_sent(client), "a batch is lost");
    snprintf(line, sizeof line, "{\"error\":\"InternalError\",\"text\":\"%s\"}", text);
    check_text(kmip_line(client), line, "and why");
    check(kmip_error_kind(client) == KMIP_KIND_OTHER_ANSWER, "which is a kind");
    check(kmip_batch_answer(batch, 0) == KMIP_CALL_GRAMMAR, "no call of it has an answer");
    check(kmip_call(client, "query", NULL) == KMIP_LOST, "the connection is closed");
    kmip_batch_free(batch);
    kmip_close(client);
}

/* What the server has undone is told as that, and the connection is good. */
static void undone(kmip_client *client) {
    kmip_batch *batch = activating(client, KMIP_ON_ERROR_UNDO, "undone", "failing", NULL);
    check(kmip_batch_send(batch) == KMIP_ANSWERED, "a batch that is undone");
    check(kmip_batch_answer(batch, 0) == KMIP_REFUSED &&
              kmip_error_kind(client) == KMIP_KIND_UNDONE,
          "a call that the server has undone");
    check_text(kmip_line(client),
               "{\"error\":\"Undone\",\"text\":\"the server has undone this call of the batch\"}",
               "said so");
    check(kmip_batch_answer(batch, 1) == KMIP_REFUSED &&
              kmip_error_kind(client) == KMIP_KIND_ITEM_NOT_FOUND,
          "since another one failed");
    kmip_batch_free(batch);
    check(kmip_call(client, "query", NULL) == KMIP_ANSWERED, "the connection is good");
}

/* Calls are added without a connection; what is sent is not. */
static void on_closed(const kmip_settings *settings) {
    kmip_client *client = opened(settings);
    kmip_batch *batch = activating(client, KMIP_ON_ERROR_STOP, "unknown", NULL, NULL);
    check(kmip_batch_send(batch) == KMIP_LOST, "a batch that loses the connection");
    check(kmip_call(client, "query", NULL) == KMIP_LOST, "which is closed");
    check(kmip_batch_call(batch, "activate", "k", NULL) == KMIP_ANSWERED &&
              kmip_batch_operation(batch, "Archive", "1.2", archive) == KMIP_ANSWERED &&
              kmip_batch_count(batch) == 3,
          "calls are added all the same");
    check(kmip_batch_call(batch, "activat", "k", NULL) == KMIP_CALL_GRAMMAR,
          "and those that are none are refused");
    check(kmip_batch_send(batch) == KMIP_LOST && !kmip_was_sent(client) &&
              kmip_error_kind(client) == KMIP_KIND_WRITE,
          "nothing of it is sent");
    kmip_batch_free(batch);
    kmip_close(client);
}

/* What is no response to a batch loses the connection. */
static void odd(const kmip_settings *settings) {
    static const char not_one[] = "not a response message";
    static const struct {
        const char *name, *text;
    } rows[] = {
        {"counts seven", "the Batch Count is not that of the items of the response"},
        {"a request", not_one},
        {"two headers", not_one},
        {"bytes", not_one},
        {"more", not_one},
    };
    for (size_t i = 0; i < sizeof rows / sizeof *rows; i++) {
        const char *const names[] = {rows[i].name, "b", NULL};
        loses(settings, names, rows[i].text);
    }
}

/* What is no batch. */
static void refused(kmip_client *client) {
    static const char empty[] = PAYLOAD(ITEM("UniqueIdentifier", "TextString", ""));
    kmip_batch *batch = batch_of(client, KMIP_ON_ERROR_CONTINUE);
    check(kmip_batch_send(batch) == KMIP_CALL_GRAMMAR && !kmip_was_sent(client), "no calls");
    check_text(kmip_line(client),
               "{\"error\":\"GrammarError\",\"text\":\"the batch has no calls\"}", "which is said");
    check(kmip_batch_call(batch, "activat", "k", NULL) == KMIP_CALL_GRAMMAR, "a call that is none");
    check_text(kmip_line(client),
               "{\"error\":\"GrammarError\",\"text\":\"there is no call activat\"}", "and why");
    check(kmip_batch_call(batch, "destroy", "", NULL) == KMIP_CALL_GRAMMAR, "no identifier");
    check(kmip_batch_operation(batch, "Archive", "1.2", "{}") == KMIP_CALL_GRAMMAR, "no payload");
    check(kmip_batch_operation(batch, "Get", "1.2", empty) == KMIP_CALL_GRAMMAR, "an empty one");
    check(kmip_batch_call(batch, "register", "private", "2D2D2D2D2D424547494E20", "format=PKCS8",
                          "algorithm=RSA", "length=2048", NULL) == KMIP_CALL_GRAMMAR,
          "a key that is PEM");
    check(kmip_batch_count(batch) == 0, "none of them is in the batch");
    check(kmip_batch_answer(batch, 0) == KMIP_CALL_GRAMMAR, "which has no answer");
    kmip_batch_free(batch);
    check(!kmip_batch_new(client, (kmip_on_error)0) && !kmip_batch_new(client, (kmip_on_error)4) &&
              !kmip_batch_new(NULL, KMIP_ON_ERROR_STOP),
          "what makes no batch");
    check(kmip_batch_call(NULL, "query", NULL) == KMIP_LOST && kmip_batch_count(NULL) == 0 &&
              kmip_batch_send(NULL) == KMIP_LOST && kmip_batch_answer(NULL, 0) == KMIP_LOST &&
              kmip_batch_operation(NULL, "Archive", "1.2", archive) == KMIP_LOST,
          "a null batch is lost");
    kmip_batch_free(NULL);
    batch = activating(client, KMIP_ON_ERROR_CONTINUE, "a", NULL, NULL);
    check(kmip_batch_send(batch) == KMIP_ANSWERED, "the connection is good");
    check(kmip_batch_call(batch, "query", NULL) == KMIP_ANSWERED &&
              kmip_batch_answer(batch, 1) == KMIP_CALL_GRAMMAR,
          "a call that was not sent has no answer");
    check(kmip_batch_answer(batch, 0) == KMIP_ANSWERED, "one that was has its own");
    check(kmip_batch_send(batch) == KMIP_ANSWERED && kmip_batch_answer(batch, 1) == KMIP_ANSWERED,
          "until it is");
    kmip_batch_free(batch);
}

static void other_items(const kmip_settings *settings) {
    static const char of_no_call[] = "an item of the response is of no call of the batch",
                      missing[] = "a call of the batch has no item in the response";
    static const struct {
        const char *names[3], *text;
    } rows[] = {
        {{"unknown", "k"}, of_no_call},    {{"twice", "k"}, of_no_call},
        {{"unnamed", "k"}, of_no_call},    {{"unnamed"}, of_no_call},
        {{"a", "left out", "k"}, missing}, {{"failing", "left out"}, missing},
    };
    for (size_t i = 0; i < sizeof rows / sizeof *rows; i++)
        loses(settings, rows[i].names, rows[i].text);
}

/* An answer that comes twice is none to the next batch, though that asks the same; nor is it where
   the same batch is sent again. */
static void earlier(const kmip_settings *settings, bool same) {
    kmip_client *client = opened(settings);
    kmip_batch *first = activating(client, KMIP_ON_ERROR_CONTINUE, "a", "k", NULL);
    kmip_batch *second = activating(client, KMIP_ON_ERROR_CONTINUE, "a", "k", NULL);
    kmip_batch *next = same ? first : second;
    check(kmip_batch_send(first) == KMIP_ANSWERED && kmip_batch_answer(first, 1) == KMIP_ANSWERED,
          "the first batch is answered");
    check(kmip_batch_send(next) == KMIP_LOST && kmip_was_sent(client) &&
              kmip_error_kind(client) == KMIP_KIND_OTHER_ANSWER,
          same ? "the same answer again is none" : "an answer to an earlier batch is none");
    check_text(kmip_line(client),
               "{\"error\":\"InternalError\",\"text\":\"an item of the response is of no call of "
               "the batch\"}",
               "and why is said");
    check(kmip_batch_answer(next, 0) == KMIP_CALL_GRAMMAR, "no call of it has an answer");
    check(kmip_call(client, "query", NULL) == KMIP_LOST && !kmip_was_sent(client),
          "the connection is closed");
    kmip_batch_free(first);
    kmip_batch_free(second);
    kmip_close(client);
}

/* A message that is refused as a whole is the error of each. */
static void no_batches(kmip_client *client) {
    kmip_batch *batch = activating(client, KMIP_ON_ERROR_STOP, "a", "k", NULL);
    check(kmip_batch_send(batch) == KMIP_ANSWERED, "a batch that is refused");
    for (size_t i = 0; i < 2; i++) {
        check(kmip_batch_answer(batch, i) == KMIP_REFUSED &&
                  kmip_error_kind(client) == KMIP_KIND_OPERATION_NOT_SUPPORTED,
              "has its error for each call");
        check(strstr(kmip_line(client), "\"message\":\"no batches\"") != NULL, "and its message");
    }
    check(kmip_batch_send(batch) == KMIP_ANSWERED, "the connection is good");
    kmip_batch_free(batch);
}

/* What comes is none, or answers one call and says not which; or it is none to each of them. */
static void others(kmip_client *client) {
    kmip_batch *batch = activating(client, KMIP_ON_ERROR_CONTINUE, "a", "k", NULL);
    int status = kmip_batch_send(batch);
    bool each = status == KMIP_ANSWERED && kmip_batch_answer(batch, 0) == KMIP_LOST &&
                kmip_batch_answer(batch, 1) == KMIP_LOST;
    check(status == KMIP_LOST || each, "a response that is none to the batch");
    check(kmip_call(client, "query", NULL) == KMIP_LOST, "loses the connection");
    kmip_batch_free(batch);
}

/* An item of another operation than its call: that call is lost, and the connection with it. */
static void another_operation(kmip_client *client) {
    kmip_batch *batch = activating(client, KMIP_ON_ERROR_CONTINUE, "a", "other operation", NULL);
    check(kmip_batch_send(batch) == KMIP_ANSWERED, "a batch with an answer to another call");
    check(kmip_batch_answer(batch, 0) == KMIP_ANSWERED, "the other has its own");
    check(kmip_batch_answer(batch, 1) == KMIP_LOST &&
              kmip_error_kind(client) == KMIP_KIND_OTHER_ANSWER,
          "its call is lost");
    check(kmip_batch_answer(batch, 0) == KMIP_ANSWERED, "which takes no answer of another");
    check(kmip_call(client, "query", NULL) == KMIP_LOST, "the connection is closed");
    kmip_batch_free(batch);
}

int main(int argc, char **argv) {
    if (argc < 9) return 2;
    const char *mode = argv[1];
    kmip_settings settings = settings_of(argv + 3), good = settings, keys = settings;
    good.port = argv[2];
    keys.port = argv[3];
    if (strcmp(mode, "others") == 0) settings.limit = 4096;
    kmip_client *client = opened(&settings);
    if (strcmp(mode, "batches") == 0) {
        answers(client, &good, &keys);
        errors(client);
        undone(client);
        refused(client);
        other_items(&settings);
        on_closed(&settings);
        another_operation(client);
    }
    if (strcmp(mode, "earlier_batch") == 0) {
        earlier(&settings, false);
        earlier(&settings, true);
    }
    if (strcmp(mode, "no_batches") == 0) no_batches(client);
    if (strcmp(mode, "odd_batches") == 0) odd(&settings);
    if (strcmp(mode, "others") == 0) others(client);
    kmip_close(client);
    return outcome();
}
