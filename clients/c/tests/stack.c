/* How much stack the client needs, and what it leaves there: stack MODE HOST PORT CERTIFICATE KEY
   AUTHORITY. A thread with a stack of 96 KiB makes calls, and what it left is looked at: with the mode
   `signs` and `batch` it signs, the second in a batch, with `lists` it reads lists, with `deep` an
   answer that is as deep as may be, with `registers` it registers what OpenSSL reads. */
#define _DEFAULT_SOURCE
#include "ders.h"
#include "testing.h"

#include <pthread.h>
#include <sys/mman.h>
#include <unistd.h>

#define STACK 98304
#define UNTOUCHED 0xA5
#define BLOCK "00112233445566778899AABBCCDDEEFF"

/* What is signed, with all bits turned: neither it nor its digits stand in the program itself. */
enum { SIGNED = 200 };
static uint8_t turned[SIGNED];

typedef struct {
    const char *mode;
    kmip_settings settings;
    kmip_client *client;
    bool done;
} task;

/* Writes the digits of what is signed, to memory that is none of the stack. */
static void write_digits(char *into) {
    for (size_t i = 0; i < SIGNED; i++) {
        into[2 * i] = "0123456789ABCDEF"[(uint8_t)~turned[i] >> 4];
        into[2 * i + 1] = "0123456789ABCDEF"[(uint8_t)~turned[i] & 15];
    }
}

/* Signs as the last that it does. */
static bool signs(kmip_client *client) {
    char *digits = calloc(1, 2 * SIGNED + 1);
    if (!digits) return false;
    write_digits(digits);
    bool done = kmip_call(client, "query", NULL) == KMIP_ANSWERED &&
                kmip_call(client, "sign", "k", digits, NULL) == KMIP_ANSWERED;
    /* It is linked so that this is looked for now: the dynamic linker saves registers meanwhile. */
    done = done && getppid() != 0;
    explicit_bzero(digits, 2 * SIGNED);
    free(digits);
    return done;
}

static bool makes_a_batch(kmip_client *client) {
    char *digits = calloc(1, 2 * SIGNED + 1);
    if (!digits) return false;
    write_digits(digits);
    kmip_batch *batch = kmip_batch_new(client, KMIP_ON_ERROR_STOP);
    bool done = kmip_batch_call(batch, "get", "PublicKey.EC", NULL) == KMIP_ANSWERED &&
                kmip_batch_call(batch, "sign", "k", digits, NULL) == KMIP_ANSWERED &&
                kmip_batch_call(batch, "encrypt", "aes", BLOCK, "mode=ECB", "padding=None", NULL) ==
                    KMIP_ANSWERED &&
                kmip_batch_send(batch) == KMIP_ANSWERED &&
                kmip_batch_answer(batch, 0) == KMIP_ANSWERED && kmip_pem(client) != NULL &&
                kmip_batch_answer(batch, 1) == KMIP_ANSWERED &&
                kmip_bytes(client, "signature_data", NULL) != NULL &&
                kmip_batch_answer(batch, 2) == KMIP_ANSWERED;
    kmip_batch_free(batch);
    explicit_bzero(digits, 2 * SIGNED);
    free(digits);
    return done;
}

static bool reads_lists(kmip_client *client) {
    size_t count = 0;
    if (kmip_call(client, "locate", "20000", NULL) != KMIP_ANSWERED) return false;
    kmip_list *list = kmip_list_new(client, "unique_identifiers");
    while (kmip_list_next(list))
        count += kmip_list_text(list, NULL, NULL) != NULL;
    kmip_list_free(list);
    return count == 20000 && kmip_call(client, "attributes", "300", NULL) == KMIP_ANSWERED &&
           kmip_text(client, "attributes.299.name", NULL) != NULL;
}

/* An answer of as many levels as one may have, to a payload of half as many. */
static bool goes_deep(kmip_client *client) {
    enum { LEVELS = 30 };
    char *payload = malloc(64 * LEVELS + 200), *at = payload;
    if (!payload) return false;
    at = stpcpy(at, "{\"tag\":\"RequestPayload\",\"value\":[");
    for (int i = 0; i < LEVELS; i++)
        at = stpcpy(at, "{\"tag\":\"TemplateAttribute\",\"value\":[");
    for (int i = 0; i < LEVELS; i++)
        at = stpcpy(at, "]}");
    stpcpy(at, "]}");
    bool done = kmip_operation(client, "Archive", "1.2", payload) == KMIP_ANSWERED &&
                kmip_count(client, "Attribute") == 1 &&
                !kmip_text(client, "Attribute.0.Attribute.0.State", NULL) && !kmip_pem(client);
    free(payload);
    return done;
}

static bool registers(kmip_client *client, const kmip_settings *settings) {
    size_t length = 0;
    uint8_t *der = der_of_certificate(settings->certificate, &length);
    char *pem = pem_of(der, length);
    bool done = kmip_register_certificate(client, der, length, "a", "Verify") == KMIP_ANSWERED &&
                kmip_register_certificate(client, pem, strlen(pem), NULL, NULL) == KMIP_ANSWERED &&
                kmip_register_secret(client, "secret", 6, "Password", NULL, NULL) == KMIP_ANSWERED;
    OPENSSL_free(der);
    free(pem);
    return done;
}

static void *run(void *given) {
    task *it = given;
    kmip_client *client = it->client = kmip_open(&it->settings, NULL, 0);
    if (!client) return NULL;
    if (strcmp(it->mode, "signs") == 0) it->done = signs(client);
    if (strcmp(it->mode, "batch") == 0) it->done = makes_a_batch(client);
    if (strcmp(it->mode, "lists") == 0) it->done = reads_lists(client);
    if (strcmp(it->mode, "deep") == 0) it->done = goes_deep(client);
    if (strcmp(it->mode, "registers") == 0) it->done = registers(client, &it->settings);
    return NULL;
}

/* Whether 12 digits of what was signed stand here, or 12 of its bytes. */
static bool has_signed(const uint8_t *at) {
    enum { PART = 12 };
    char digits[2 * SIGNED + 1];
    bool found = false;
    for (size_t from = 0; from + PART <= SIGNED && !found; from++) {
        size_t same = 0;
        while (same < PART && (at[same] ^ turned[from + same]) == 0xFF)
            same++;
        found = same == PART;
    }
    write_digits(digits);
    for (size_t from = 0; from + PART <= 2 * SIGNED && !found; from++)
        found = memcmp(at, digits + from, PART) == 0;
    return found;
}

static void leaves_nothing(const uint8_t *stack) {
    size_t places = 0;
    for (size_t i = 0; i + 12 <= STACK; i++)
        places += has_signed(stack + i);
    check(places == 0, "and nothing of what was signed stays on it");
    if (places > 0) printf("        it stands in %zu places\n", places);
}

int main(int argc, char **argv) {
    if (argc < 7) return 2;
    task it = {.mode = argv[1], .settings = settings_of(argv + 1)};
    long page = sysconf(_SC_PAGESIZE);
    size_t guard = (size_t)page, used = STACK;
    uint8_t *room =
        mmap(NULL, guard + STACK, PROT_READ | PROT_WRITE, MAP_PRIVATE | MAP_ANONYMOUS, -1, 0);
    pthread_attr_t attributes;
    pthread_t thread;
    if (room == MAP_FAILED || mprotect(room, guard, PROT_NONE) != 0) return 2;
    if (getentropy(turned, sizeof turned) != 0) return 2;
    memset(room + guard, UNTOUCHED, STACK);
    if (pthread_attr_init(&attributes) != 0 ||
        pthread_attr_setstack(&attributes, room + guard, STACK) != 0 ||
        pthread_create(&thread, &attributes, run, &it) != 0 || pthread_join(thread, NULL) != 0)
        return 2;
    check(it.done, "a thread with a stack of 96 KiB makes these calls");
    leaves_nothing(room + guard);
    while (used > 0 && room[guard + STACK - used] == UNTOUCHED)
        used--;
    printf("        of %d bytes %zu were taken\n", STACK, used);
    check(used + 4096 <= STACK, "and 4 KiB of it are left");
    kmip_close(it.client);
    return outcome();
}
