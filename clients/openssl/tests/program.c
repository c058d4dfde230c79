/* What a program does with a key of a URI, by OpenSSL's calls alone:

       program uses URI            signs in parts, copies contexts, asks for what cannot be
       program threads URI COUNT   eight threads sign, and a child after a fork beside them
       program lost URI PROCESS    signs; has relay.py end the connections, and signs again; has it
                                   cut within a request, and signs once more
       program gone URI PROCESS    signs; has that process end, and does not sign again
       program moves URI PROCESS   signs; has that process end, and signs again in eight threads
       program crowd URI           signs in 200 threads, in rounds: after each it writes `round N`, and
                                   begins the next one by a line of standard input
       program rests URI           signs, and does so again half a second later
       program refused URI         twice has no key: the server refuses the certificate, and then it
                                   is left out
       program bundle FILE..       reads a private key from each of these PEM files
       program wrong FILE TEXT     does not, and an error with this text says why

   One line for each check, as the live test counts them. */
#define _POSIX_C_SOURCE 200809L
#include <openssl/core_names.h>
#include <openssl/decoder.h>
#include <openssl/err.h>
#include <openssl/evp.h>
#include <openssl/pem.h>
#include <openssl/rsa.h>
#include <openssl/store.h>
#include <openssl/x509.h>
#include <pthread.h>
#include <signal.h>
#include <stdatomic.h>
#include <stdbool.h>
#include <stdio.h>
#include <stdlib.h>
#include <string.h>
#include <sys/wait.h>
#include <time.h>
#include <unistd.h>

#define THREADS 8
#define ROOM 1024

static bool failed;
static EVP_PKEY *key, *public_key;
static long count;
static atomic_long bad;

static void check(const char *what, bool good) {
    printf("%s  openssl: %s\n", good ? "ok    " : "FAILED", what);
    if (!good) {
        failed = true;
        ERR_print_errors_fp(stdout);
    }
    ERR_clear_error();
    fflush(stdout);
}

/* Whether an error of the queue has this text; the queue is empty then. */
static bool says(const char *text) {
    bool found = false;
    const char *data;
    int flags;
    while (ERR_get_error_all(NULL, NULL, NULL, &data, &flags))
        if (strstr(data, text)) found = true;
    return found;
}

static EVP_PKEY *load(const char *uri) {
    OSSL_STORE_CTX *store = OSSL_STORE_open(uri, NULL, NULL, NULL, NULL);
    EVP_PKEY *found = NULL;
    while (store && !found && !OSSL_STORE_eof(store)) {
        OSSL_STORE_INFO *info = OSSL_STORE_load(store);
        if (info) found = OSSL_STORE_INFO_get1_PKEY(info);
        OSSL_STORE_INFO_free(info);
    }
    OSSL_STORE_close(store);
    return found;
}

static bool sign_by(EVP_PKEY *by, const char *text, uint8_t *made, size_t *length) {
    EVP_MD_CTX *context = EVP_MD_CTX_new();
    bool done = context &&
                EVP_DigestSignInit_ex(context, NULL, "SHA256", NULL, NULL, by, NULL) > 0 &&
                EVP_DigestSign(context, made, length, (const uint8_t *)text, strlen(text)) > 0;
    EVP_MD_CTX_free(context);
    return done;
}

/* By the default provider. */
static bool verifies(const char *hash, const char *text, const uint8_t *made, size_t length) {
    EVP_MD_CTX *context = EVP_MD_CTX_new();
    bool good = context &&
                EVP_DigestVerifyInit_ex(context, NULL, hash, NULL, NULL, public_key, NULL) > 0 &&
                EVP_DigestVerify(context, made, length, (const uint8_t *)text, strlen(text)) == 1;
    EVP_MD_CTX_free(context);
    return good;
}

static bool signs(const char *text) {
    uint8_t made[ROOM];
    size_t length = sizeof made;
    return sign_by(key, text, made, &length) && verifies("SHA256", text, made, length);
}

static bool prepare(const char *uri) {
    unsigned char *der = NULL;
    key = load(uri);
    int length = key ? i2d_PUBKEY(key, &der) : -1;
    const unsigned char *at = der;
    public_key = length > 0 ? d2i_PUBKEY(NULL, &at, length) : NULL;
    OPENSSL_free(der);
    check("the key is there, and its public key is one of the default provider",
          public_key != NULL);
    return public_key != NULL;
}

/* uses */

static void parts(void) {
    uint8_t made[ROOM], again[ROOM];
    size_t length = sizeof made, other = sizeof again;
    EVP_MD_CTX *one = EVP_MD_CTX_new(), *two = EVP_MD_CTX_new();
    bool good = EVP_DigestSignInit_ex(one, NULL, "SHA2-512", NULL, NULL, key, NULL) > 0 &&
                EVP_DigestSignUpdate(one, "abc", 3) > 0 && EVP_MD_CTX_copy(two, one) > 0 &&
                EVP_DigestSignUpdate(one, "def", 3) > 0 &&
                EVP_DigestSignFinal(one, made, &length) > 0;
    check("data in parts", good && verifies("SHA512", "abcdef", made, length));
    good = EVP_DigestSignUpdate(two, "xyz", 3) > 0 && EVP_DigestSignFinal(two, again, &other) > 0;
    check("a context that was copied goes its own way",
          good && verifies("SHA512", "abcxyz", again, other));
    other = sizeof again;
    good = EVP_DigestSignUpdate(one, "ghi", 3) > 0 && EVP_DigestSignFinal(one, again, &other) > 0;
    check("more data after a signature", good && verifies("SHA512", "abcdefghi", again, other));
    EVP_MD_CTX_free(one);
    EVP_MD_CTX_free(two);
    check("no data at all", signs(""));
}

/* Data of all bytes, also 0, and many. */
static void octets(void) {
    static uint8_t data[100000];
    uint8_t made[ROOM];
    size_t length = sizeof made;
    for (size_t i = 0; i < sizeof data; i++)
        data[i] = (uint8_t)i;
    EVP_MD_CTX *one = EVP_MD_CTX_new(), *two = EVP_MD_CTX_new();
    bool good = one && EVP_DigestSignInit_ex(one, NULL, "SHA256", NULL, NULL, key, NULL) > 0 &&
                EVP_DigestSign(one, made, &length, data, sizeof data) > 0;
    good = good && two &&
           EVP_DigestVerifyInit_ex(two, NULL, "SHA256", NULL, NULL, public_key, NULL) > 0 &&
           EVP_DigestVerify(two, made, length, data, sizeof data) == 1;
    check("data of all bytes", good);
    EVP_MD_CTX_free(one);
    EVP_MD_CTX_free(two);
}

static void hashes(void) {
    static const char *const names[] = {"SHA224", "SHA256", "SHA384", "SHA512"};
    for (size_t i = 0; i < sizeof names / sizeof *names; i++) {
        uint8_t made[ROOM];
        size_t length = sizeof made;
        char what[40];
        EVP_MD_CTX *context = EVP_MD_CTX_new();
        bool good = EVP_DigestSignInit_ex(context, NULL, names[i], NULL, NULL, key, NULL) > 0 &&
                    EVP_DigestSign(context, made, &length, (const uint8_t *)"q", 1) > 0;
        EVP_MD_CTX_free(context);
        snprintf(what, sizeof what, "a signature with %s", names[i]);
        check(what, good && verifies(names[i], "q", made, length));
    }
}

static void refusals(void) {
    EVP_PKEY_CTX *context = EVP_PKEY_CTX_new_from_pkey(NULL, key, NULL);
    check("a digest alone is refused, and why",
          EVP_PKEY_sign_init(context) <= 0 && says("takes the data itself"));
    check("decrypting is refused", EVP_PKEY_decrypt_init(context) <= 0);
    EVP_PKEY_CTX_free(context);
    unsigned char *der = NULL;
    check("the private key is not given out", i2d_PrivateKey(key, &der) <= 0 && !der);
    uint8_t made[ROOM];
    size_t length = 50;
    check("too little room is refused, and why",
          !sign_by(key, "q", made, &length) && says("room is for 50"));
    EVP_MD_CTX *digest = EVP_MD_CTX_new();
    check("SHA-1 is refused, and why",
          EVP_DigestSignInit_ex(digest, NULL, "SHA1", NULL, NULL, key, NULL) <= 0 &&
              says("SHA224, SHA256, SHA384 and SHA512 can be"));
    char pss[] = OSSL_PKEY_RSA_PAD_MODE_PSS;
    OSSL_PARAM padding[] = {OSSL_PARAM_construct_utf8_string(OSSL_SIGNATURE_PARAM_PAD_MODE, pss, 0),
                            OSSL_PARAM_construct_end()};
    if (EVP_PKEY_is_a(key, "EC"))
        check("a padding of ECDSA is refused, and why",
              EVP_DigestSignInit_ex(digest, NULL, "SHA256", NULL, NULL, key, padding) <= 0 &&
                  says("ECDSA has no padding"));
    EVP_MD_CTX_free(digest);
    context = EVP_PKEY_CTX_new_from_name(NULL, EVP_PKEY_get0_type_name(key), "provider=metsuwan");
    check("no key is made by this provider, and why",
          EVP_PKEY_keygen_init(context) <= 0 && says("make a key on the server"));
    EVP_PKEY_CTX_free(context);
}

static void beside(void) {
    bool is_rsa = EVP_PKEY_is_a(public_key, "RSA");
    EVP_PKEY *made = is_rsa ? EVP_RSA_gen(2048) : EVP_EC_gen("P-256"), *twin = EVP_PKEY_dup(key);
    uint8_t of_it[ROOM];
    size_t length = sizeof of_it;
    check("other keys of its kind are made and sign as ever",
          made && sign_by(made, "q", of_it, &length));
    check("which are not equal to it", EVP_PKEY_eq(made, key) == 0);
    check("but its public key and its duplicate are",
          EVP_PKEY_eq(public_key, key) == 1 && EVP_PKEY_eq(twin, key) == 1);
    check("it is a key of its kind and size",
          EVP_PKEY_is_a(key, EVP_PKEY_get0_type_name(public_key)) &&
              EVP_PKEY_get_base_id(key) == EVP_PKEY_get_base_id(public_key) &&
              EVP_PKEY_get_bits(key) == EVP_PKEY_get_bits(public_key) &&
              EVP_PKEY_get_size(key) == EVP_PKEY_get_size(public_key));
    ERR_raise(ERR_LIB_USER, 1);
    check("the program's own errors are kept, and none is added",
          signs("q") && ERR_GET_LIB(ERR_peek_last_error()) == ERR_LIB_USER &&
              ERR_GET_LIB(ERR_get_error()) == ERR_LIB_USER && !ERR_get_error());
    EVP_PKEY_free(made);
    EVP_PKEY_free(twin);
}

/* threads */

static void *run(void *given) {
    for (long i = 0; i < count; i++) {
        char text[80];
        snprintf(text, sizeof text, "process %ld thread %p text %ld", (long)getpid(), given, i);
        if (!signs(text)) {
            bad++;
            ERR_print_errors_fp(stdout);
        }
    }
    return NULL;
}

static void run_all(void) {
    pthread_t threads[THREADS];
    bool begun[THREADS];
    for (size_t i = 0; i < THREADS; i++)
        begun[i] = !pthread_create(&threads[i], NULL, run, &begun[i]);
    for (size_t i = 0; i < THREADS; i++)
        if (!begun[i] || pthread_join(threads[i], NULL)) bad++;
}

static void threads(void) {
    check("a signature before the fork", signs("before"));
    fflush(stdout);
    pid_t child = fork();
    run_all();
    if (child == 0) exit(bad != 0);
    int status = 1;
    check("eight threads sign", bad == 0);
    check("so does a child with eight of its own",
          child > 0 && waitpid(child, &status, 0) == child && status == 0);
    check("and then the parent again", signs("after"));
}

/* lost and gone */

static void rest(void) {
    struct timespec time = {0, 500000000};
    nanosleep(&time, NULL);
}

static void lost(pid_t relay) {
    check("a signature", signs("one"));
    bool sent = kill(relay, SIGUSR1) == 0;
    rest();
    check("a connection that ended meanwhile is opened again", sent && signs("two"));
    sent = kill(relay, SIGUSR2) == 0;
    rest();
    check("so is one that ends after the request was sent", sent && signs("three"));
    check("and the next signature is by that", signs("four"));
}

static void gone(pid_t server) {
    check("a signature", signs("one"));
    bool ended = kill(server, SIGTERM) == 0;
    rest();
    uint8_t made[ROOM];
    size_t length = sizeof made;
    check("with no server there is none, and why",
          ended && !sign_by(key, "two", made, &length) && says("ConnectError"));
}

static void moves(pid_t server) {
    check("a signature", signs("one"));
    bool ended = kill(server, SIGKILL) == 0;
    rest();
    count = 2;
    run_all();
    check("with the next server eight threads sign", ended && bad == 0);
}

/* crowd */

enum { CROWD = 200, ROUNDS = 4 };
static pthread_barrier_t ended, begins;

/* On a busy machine a server that is just back may have no connection within its 5 seconds. */
static void *one_of_crowd(void *given) {
    for (int round = 0; round < ROUNDS; round++) {
        for (int i = 0; i < 3; i++)
            if (!signs("by a crowd") && !says("within 5 seconds")) bad++;
        pthread_barrier_wait(&ended);
        pthread_barrier_wait(&begins);
    }
    return given;
}

static void crowd(void) {
    static pthread_t threads[CROWD];
    bool begun = pthread_barrier_init(&ended, NULL, CROWD + 1) == 0 &&
                 pthread_barrier_init(&begins, NULL, CROWD + 1) == 0;
    for (size_t i = 0; i < CROWD; i++)
        if (!begun || pthread_create(&threads[i], NULL, one_of_crowd, NULL)) exit(1);
    for (int round = 0; round < ROUNDS; round++) {
        pthread_barrier_wait(&ended);
        printf("round %d\n", round);
        fflush(stdout);
        if (getchar() == EOF) exit(1);
        pthread_barrier_wait(&begins);
    }
    for (size_t i = 0; i < CROWD; i++)
        if (pthread_join(threads[i], NULL)) bad++;
    check("200 threads sign while the servers die by turns", bad == 0);
}

static void rests(void) {
    check("a signature", signs("one"));
    rest();
    check("and another one", signs("two"));
}

static void refused(const char *uri) {
    check("the server refuses the certificate, which is told",
          !load(uri) && says("the server refused the certificate"));
    check("and is left out", !load(uri) && says("left out for"));
}

static EVP_PKEY *read_key_file(const char *path) {
    BIO *file = BIO_new_file(path, "r");
    EVP_PKEY *found = file ? PEM_read_bio_PrivateKey(file, NULL, NULL, NULL) : NULL;
    BIO_free(file);
    return found;
}

static void bundle(char **files) {
    for (; *files; files++) {
        EVP_PKEY *found = read_key_file(*files);
        uint8_t made[ROOM];
        size_t length = sizeof made;
        char what[200];
        snprintf(what, sizeof what, "the key of %s signs", *files);
        check(what, found && sign_by(found, "q", made, &length));
        EVP_PKEY_free(found);
    }
}

static void wrong(const char *path, const char *text) {
    EVP_PKEY *found = read_key_file(path);
    char what[200];
    snprintf(what, sizeof what, "%s has no key, and why", path);
    check(what, !found && says(text));
    EVP_PKEY_free(found);
}

int main(int argc, char **argv) {
    const char *what = argc > 2 ? argv[1] : "";
    if (strcmp(what, "bundle") == 0) {
        bundle(argv + 2);
        return failed;
    }
    if (strcmp(what, "wrong") == 0 && argc > 3) {
        wrong(argv[2], argv[3]);
        return failed;
    }
    if (strcmp(what, "refused") == 0) {
        refused(argv[2]);
        return failed;
    }
    if (argc < 3 || !prepare(argv[2])) return 1;
    long number = argc > 3 ? atol(argv[3]) : 0;
    count = number;
    if (strcmp(what, "uses") == 0) {
        parts();
        octets();
        hashes();
        refusals();
        beside();
    } else if (strcmp(what, "threads") == 0) {
        threads();
    } else if (strcmp(what, "lost") == 0) {
        lost((pid_t)number);
    } else if (strcmp(what, "moves") == 0) {
        moves((pid_t)number);
    } else if (strcmp(what, "crowd") == 0) {
        crowd();
    } else if (strcmp(what, "rests") == 0) {
        rests();
    } else {
        gone((pid_t)number);
    }
    EVP_PKEY_free(key);
    EVP_PKEY_free(public_key);
    return failed;
}
