/* The kinds of errors, as numbers of a program, and what they are read from, the members of a line;
   and the errors that OpenSSL has queued in the caller's thread, which are the caller's. */
#define _POSIX_C_SOURCE 200809L
#include "metsuwan_internal.h"

#include <ctype.h>
#include <openssl/err.h>
#include <stdlib.h>
#include <string.h>

/* KMIP 1.2's reasons of failures (9.1.3.2.29). */
static const struct {
    kmip_kind kind;
    const char *name;
} reasons[] = {
    {KMIP_KIND_ITEM_NOT_FOUND, "ItemNotFound"},
    {KMIP_KIND_RESPONSE_TOO_LARGE, "ResponseTooLarge"},
    {KMIP_KIND_AUTHENTICATION, "AuthenticationNotSuccessful"},
    {KMIP_KIND_INVALID_MESSAGE, "InvalidMessage"},
    {KMIP_KIND_OPERATION_NOT_SUPPORTED, "OperationNotSupported"},
    {KMIP_KIND_MISSING_DATA, "MissingData"},
    {KMIP_KIND_INVALID_FIELD, "InvalidField"},
    {KMIP_KIND_FEATURE_NOT_SUPPORTED, "FeatureNotSupported"},
    {KMIP_KIND_CANCELED, "OperationCanceledByRequester"},
    {KMIP_KIND_CRYPTOGRAPHIC_FAILURE, "CryptographicFailure"},
    {KMIP_KIND_ILLEGAL_OPERATION, "IllegalOperation"},
    {KMIP_KIND_PERMISSION_DENIED, "PermissionDenied"},
    {KMIP_KIND_OBJECT_ARCHIVED, "ObjectArchived"},
    {KMIP_KIND_INDEX_OUT_OF_BOUNDS, "IndexOutOfBounds"},
    {KMIP_KIND_APPLICATION_NAMESPACE, "ApplicationNamespaceNotSupported"},
    {KMIP_KIND_KEY_FORMAT, "KeyFormatTypeNotSupported"},
    {KMIP_KIND_KEY_COMPRESSION, "KeyCompressionTypeNotSupported"},
    {KMIP_KIND_ENCODING_OPTION, "EncodingOptionError"},
    {KMIP_KIND_KEY_VALUE_NOT_PRESENT, "KeyValueNotPresent"},
    {KMIP_KIND_ATTESTATION_REQUIRED, "AttestationRequired"},
    {KMIP_KIND_ATTESTATION_FAILED, "AttestationFailed"},
    {KMIP_KIND_GENERAL_FAILURE, "GeneralFailure"},
};
enum { REASONS = sizeof reasons / sizeof *reasons };

/* What stands after the string that begins here; the end of the text, where it does not end. */
static const char *past_string(const char *at) {
    for (at++; *at && *at != '"'; at++)
        if (*at == '\\' && at[1]) at++;
    return *at ? at + 1 : at;
}

const char *kmip_past_value(const char *at) {
    size_t levels = 0;
    while (*at && (levels > 0 || !strchr(",}]", *at))) {
        if (*at == '"') {
            at = past_string(at);
            continue;
        }
        if (*at == '{' || *at == '[') levels++;
        if (*at == '}' || *at == ']') levels--;
        at++;
    }
    return at;
}

const char *kmip_member(const char *at, const char *name) {
    return kmip_member_named(at, (kmip_span){name, strlen(name)});
}

const char *kmip_member_named(const char *at, kmip_span name) {
    while (*at == '{' || *at == ',') {
        const char *own = at + 1;
        if (*own != '"') break;
        at = past_string(own);
        if (*at != ':') break;
        bool same =
            (size_t)(at - own) == name.length + 2 && memcmp(own + 1, name.at, name.length) == 0;
        if (same) return at + 1;
        at = kmip_past_value(at + 1);
    }
    return NULL;
}

bool kmip_is_tree(const char *line) {
    const char *answer = kmip_member(line, "answer");
    return answer && kmip_member(answer, "tag");
}

/* Whether the string of JSON that begins here is a name, whatever its case and with or without
   spaces: KMIP itself writes "Permission Denied", and its encodings "PermissionDenied". */
static bool is_name(const char *json, const char *name) {
    for (json++; *json && *json != '"'; json++) {
        if (*json == ' ') continue;
        if (!*name || tolower((unsigned char)*json) != tolower((unsigned char)*name)) return false;
        name++;
    }
    return *json == '"' && !*name;
}

static kmip_kind kind_of_number(unsigned long number) {
    for (size_t i = 0; i < REASONS; i++)
        if ((unsigned long)reasons[i].kind == number) return reasons[i].kind;
    return KMIP_KIND_OTHER_REASON;
}

/* The kind of a reason as a line has it: a name, a number, or an object with one of these. */
static kmip_kind kind_of_reason(const char *json) {
    if (*json == '{') {
        const char *number = kmip_member(json, "number"), *name = kmip_member(json, "name");
        json = number ? number : name;
    }
    if (!json) return KMIP_KIND_OTHER_REASON;
    if (*json >= '0' && *json <= '9') return kind_of_number(strtoul(json, NULL, 10));
    for (size_t i = 0; i < REASONS && *json == '"'; i++)
        if (is_name(json, reasons[i].name)) return reasons[i].kind;
    return KMIP_KIND_OTHER_REASON;
}

/* The kind of a failure that the server has told, or that its answer is. */
static kmip_kind kind_of_answer(const char *line, int status) {
    const char *error = kmip_member(line, "error"), *reason = kmip_member(line, "reason");
    if (!error) return KMIP_KIND_NO_ANSWER;
    bool of_server = is_name(error, "ServerError");
    if (is_name(error, "DeserializeError")) return KMIP_KIND_NO_MESSAGE;
    if (status == KMIP_LOST) return KMIP_KIND_OTHER_ANSWER;
    if (is_name(error, "ItemNotFound")) return KMIP_KIND_ITEM_NOT_FOUND;
    if (reason) return kind_of_reason(reason);
    return of_server ? KMIP_KIND_OTHER_REASON : KMIP_KIND_NO_ANSWER;
}

kmip_kind kmip_kind_of(const char *line, int status) {
    const char *error = kmip_member(line, "error");
    if (status == KMIP_ANSWERED) return KMIP_KIND_NONE;
    if (status == KMIP_NO_MEMORY) return KMIP_KIND_MEMORY;
    if (status == KMIP_CALL_GRAMMAR) return KMIP_KIND_GRAMMAR;
    if (error && is_name(error, "SerializeError")) return KMIP_KIND_NO_FORM;
    if (error && is_name(error, "NotDone")) return KMIP_KIND_NOT_DONE;
    if (error && is_name(error, "Undone")) return KMIP_KIND_UNDONE;
    if (error && is_name(error, "ConnectError")) return KMIP_KIND_CONNECT;
    if (error && is_name(error, "RequestWriteError")) return KMIP_KIND_WRITE;
    if (error && is_name(error, "ResponseReadError")) return KMIP_KIND_READ;
    return kind_of_answer(line, status);
}

/* OpenSSL's queue. SSL_get_error looks at all of it, and OpenSSL itself empties it in a handshake
   and whenever a ticket comes, so a mark would not do: the errors are taken out and put back. */

/* As long as the queue is (ERR_NUM_ERRORS, which is OpenSSL's own). */
enum { QUEUE = 16, MARKS = 64 };

struct kmip_queued {
    unsigned long code;
    int line;
    char *file, *function, *text;
};

static char *copy_or_none(const char *text) {
    return text ? kmip_copy_of(text) : NULL;
}

/* Takes the oldest error out of the queue, without its texts where memory runs out. */
static bool take_error(struct kmip_queued *error) {
    const char *file = NULL, *function = NULL, *text = NULL;
    int flags = 0;
#if OPENSSL_VERSION_NUMBER >= 0x30000000L
    error->code = ERR_get_error_all(&file, &error->line, &function, &text, &flags);
#else
    error->code = ERR_get_error_line_data(&file, &error->line, &text, &flags);
#endif
    if (error->code == 0) return false;
    error->file = copy_or_none(file);
    error->function = copy_or_none(function);
    error->text = (flags & ERR_TXT_STRING) ? copy_or_none(text) : NULL;
    return true;
}

static void put_error(const struct kmip_queued *error) {
    const char *file = error->file ? error->file : "";
#if OPENSSL_VERSION_NUMBER >= 0x30000000L
    ERR_new();
    ERR_set_debug(file, error->line, error->function ? error->function : "");
    if (error->text)
        ERR_set_error(ERR_GET_LIB(error->code), ERR_GET_REASON(error->code), "%s", error->text);
    else
        ERR_set_error(ERR_GET_LIB(error->code), ERR_GET_REASON(error->code), NULL);
#else
    /* The name of the file has to stay, and so it is left out. */
    (void)file;
    ERR_put_error(ERR_GET_LIB(error->code), ERR_GET_FUNC(error->code), ERR_GET_REASON(error->code),
                  "", error->line);
    if (error->text) ERR_add_error_data(1, error->text);
#endif
}

void kmip_queue_take(kmip_queue *queue) {
    *queue = (kmip_queue){NULL, 0, 0};
    if (ERR_peek_error() == 0) return;
    while (queue->marks < MARKS && ERR_clear_last_mark() == 1)
        queue->marks++;
    queue->errors = calloc(QUEUE, sizeof *queue->errors);
    while (queue->errors && queue->count < QUEUE && take_error(&queue->errors[queue->count]))
        queue->count++;
    ERR_clear_error();
}

/* Where the caller had marks, they stand at the newest error again: in code that sets one and
   calls, that is where they were. */
void kmip_queue_give_back(kmip_queue *queue) {
    ERR_clear_error();
    for (size_t i = 0; i < queue->count; i++) {
        put_error(&queue->errors[i]);
        kmip_copy_free(queue->errors[i].file);
        kmip_copy_free(queue->errors[i].function);
        kmip_copy_free(queue->errors[i].text);
    }
    for (; queue->marks > 0 && queue->count > 0; queue->marks--)
        (void)ERR_set_mark();
    free(queue->errors);
    *queue = (kmip_queue){NULL, 0, 0};
    kmip_clean_stack();
}
