/* Arguments that are null or empty: arguments HOST PORT CERTIFICATE KEY AUTHORITY. */
#define _DEFAULT_SOURCE
#include "testing.h"

static const char payload[] = "{\"tag\":\"RequestPayload\",\"value\":[]}";

/* It is refused as a wrong argument, nothing was sent, and the connection stays. */
static void is_refused(kmip_client *client, int status, const char *text) {
    char line[200];
    snprintf(line, sizeof line, "{\"error\":\"GrammarError\",\"text\":\"%s\"}", text);
    check(status == KMIP_CALL_GRAMMAR && kmip_error_kind(client) == KMIP_KIND_GRAMMAR,
          "a wrong argument is refused");
    check_text(kmip_line(client), line, "and why");
    check(!kmip_was_sent(client), "nothing was sent");
    check(kmip_call(client, "query", NULL) == KMIP_ANSWERED, "and the connection stays");
}

static void objects(kmip_client *client) {
    static const char byte[] = "-";
    is_refused(client, kmip_register_private_key(client, NULL, 0, "k", "Sign"),
               "the key is a null pointer");
    is_refused(client, kmip_register_private_key(client, NULL, 9, NULL, NULL),
               "the key is a null pointer");
    is_refused(client, kmip_register_private_key(client, byte, 0, NULL, NULL), "the key is empty");
    is_refused(client, kmip_register_public_key(client, NULL, 0, NULL, NULL),
               "the key is a null pointer");
    is_refused(client, kmip_register_public_key(client, byte, 0, NULL, NULL), "the key is empty");
    is_refused(client, kmip_register_certificate(client, NULL, 0, NULL, NULL),
               "the certificate is a null pointer");
    is_refused(client, kmip_register_certificate(client, NULL, 9, NULL, NULL),
               "the certificate is a null pointer");
    is_refused(client, kmip_register_certificate(client, byte, 0, NULL, NULL),
               "the certificate is empty");
    is_refused(client, kmip_register_secret(client, NULL, 0, "Password", NULL, NULL),
               "the secret is a null pointer");
    is_refused(client, kmip_register_secret(client, NULL, 9, "Seed", NULL, NULL),
               "the secret is a null pointer");
    is_refused(client, kmip_register_secret(client, byte, 0, "Password", NULL, NULL),
               "the secret is empty");
    is_refused(client, kmip_register_secret(client, byte, 1, NULL, NULL, NULL),
               "a secret is a Password or a Seed");
    is_refused(client, kmip_register_secret(client, byte, 1, "", NULL, NULL),
               "a secret is a Password or a Seed");
    is_refused(client, kmip_register_secret(client, byte, 1, "Certificate", NULL, NULL),
               "a secret is a Password or a Seed");
    is_refused(client, kmip_register_secret(client, byte, 1, "Seed", NULL, ""),
               "usage is not names of KMIP");
    check(kmip_register_secret(client, byte, 1, "Seed", NULL, NULL) == KMIP_ANSWERED,
          "one byte is a secret");
}

static void calls(kmip_client *client) {
    const char *const none[] = {NULL};
    const kmip_word null_word[] = {kmip_text_word(NULL)};
    is_refused(client, kmip_call(client, NULL, NULL), "the name of the call is a null pointer");
    is_refused(client, kmip_call(client, "", NULL), "there is no call ");
    is_refused(client, kmip_call_words(client, NULL, none),
               "the name of the call is a null pointer");
    is_refused(client, kmip_call_words(client, "sign", NULL),
               "sign: word 1 after it is a null pointer");
    is_refused(client, kmip_call_array(client, NULL, NULL, 0),
               "the name of the call is a null pointer");
    is_refused(client, kmip_call_array(client, "sign", NULL, 2),
               "sign: word 1 after it is a null pointer");
    is_refused(client, kmip_call_array(client, "locate", null_word, 1),
               "locate: word 1 after it is a null pointer");
    is_refused(client, kmip_operation(client, NULL, "1.0", payload),
               "the name of the operation is a null pointer");
    is_refused(client, kmip_operation(client, "Query", NULL, payload),
               "the version is a null pointer");
    is_refused(client, kmip_operation(client, "Query", "1.0", NULL),
               "the payload is a null pointer");
    check(kmip_call_array(client, "query", NULL, 0) == KMIP_ANSWERED, "no words are no array");
    check(!kmip_text(client, NULL, NULL) && !kmip_bytes(client, NULL, NULL) &&
              kmip_count(client, NULL) == 0 && !kmip_list_new(client, NULL),
          "at a null path there is no value");
}

static void batches(kmip_client *client) {
    kmip_batch *batch = kmip_batch_new(client, KMIP_ON_ERROR_STOP);
    is_refused(client, kmip_batch_call(batch, NULL, NULL),
               "the name of the call is a null pointer");
    is_refused(client, kmip_batch_words(batch, "sign", NULL),
               "sign: word 1 after it is a null pointer");
    is_refused(client, kmip_batch_array(batch, "sign", NULL, 1),
               "sign: word 1 after it is a null pointer");
    is_refused(client, kmip_batch_operation(batch, NULL, "1.0", payload),
               "the name of the operation is a null pointer");
    is_refused(client, kmip_batch_operation(batch, "Query", "1.0", NULL),
               "the payload is a null pointer");
    check(kmip_batch_count(batch) == 0, "none of them is in the batch");
    kmip_batch_free(batch);
}

/* Before the first call: what went wrong has its kind and its text. */
static void before_a_call(const kmip_settings *settings) {
    kmip_client *client = opened(settings);
    kmip_batch *batch = kmip_batch_new(client, KMIP_ON_ERROR_STOP);
    check(kmip_error_kind(client) == KMIP_KIND_NONE, "before a call there is no error");
    is_refused(client, kmip_batch_answer(batch, 0), "the batch has no answer to such a call");
    kmip_batch_free(batch);
    kmip_close(client);
}

static void openings(const kmip_settings *settings) {
    char error[300];
    kmip_client *client = NULL;
    check(kmip_connect(NULL, &client, error, sizeof error) == KMIP_CALL_GRAMMAR && !client,
          "no settings");
    check_text(error, "{\"error\":\"ConfigurationError\",\"text\":\"settings is a null pointer\"}",
               "and why");
    check(!kmip_open(NULL, NULL, 0) && !kmip_open(NULL, NULL, 300), "with no room for an error");
    check(kmip_connect(settings, NULL, error, sizeof error) == KMIP_CALL_GRAMMAR, "no client");
    check_text(error, "{\"error\":\"ConfigurationError\",\"text\":\"client is a null pointer\"}",
               "and why");
}

int main(int argc, char **argv) {
    if (argc < 6) return 2;
    const kmip_settings settings = settings_of(argv);
    before_a_call(&settings);
    openings(&settings);
    kmip_client *client = opened(&settings);
    objects(client);
    calls(client);
    batches(client);
    kmip_close(client);
    return outcome();
}
