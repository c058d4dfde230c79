/* What OpenSSL calls first, and errors. */
#include "provider.h"
#include "metsuwan_internal.h"

#include <openssl/core_names.h>
#include <openssl/crypto.h>
#include <openssl/params.h>
#include <openssl/provider.h>
#include <stdarg.h>
#include <stdio.h>
#include <string.h>

/* Writes a text as errors have it: what a terminal would take for more than a character is escaped,
   and what has no room is two dots. */
static void show(const char *text, char into[MOST_ERROR]) {
    size_t done = 0;
    while (*text) {
        char shown[8] = {*text, 0};
        size_t step = *text >= ' ' && *text <= '~' ? 1 : kmip_write_character(text, shown);
        size_t width = strlen(shown);
        bool fits = done + width + sizeof ".." <= MOST_ERROR;
        memcpy(into + done, fits ? shown : "..", fits ? width : 2);
        done += fits ? width : 2;
        if (!fits) break;
        text += step;
    }
    into[done] = 0;
}

/* (what is past twice the room of an error is not shown in any case) */
__attribute__((format(printf, 1, 0))) static void show_given(const char *format, va_list given,
                                                             char into[MOST_ERROR]) {
    char text[2 * MOST_ERROR] = "";
    (void)vsnprintf(text, sizeof text, format, given);
    show(text, into);
}

/* OpenSSL takes the arguments of a format as a list alone. */
__attribute__((format(printf, 3, 4))) static void set_error(const provider *prov, int reason,
                                                            const char *format, ...) {
    va_list given;
    va_start(given, format);
    prov->vset_error(prov->core, (uint32_t)reason, format, given);
    va_end(given);
}

bool provider_raise(const provider *prov, int reason, const char *file, int line,
                    const char *format, ...) {
    char text[MOST_ERROR];
    va_list given;
    va_start(given, format);
    show_given(format, given, text);
    va_end(given);
    prov->new_error(prov->core);
    prov->set_error_debug(prov->core, file, line, "");
    set_error(prov, reason, "%s", text);
    return false;
}

/* Whether OpenSSL loads it for openssl.cnf, whose section then has this line. */
static bool is_loaded_by_file(const provider *prov) {
    char *value = NULL, name[] = "activate";
    OSSL_PARAM ask[] = {OSSL_PARAM_construct_utf8_ptr(name, &value, 0), OSSL_PARAM_construct_end()};
    return prov->get_params(prov->core, ask) && value;
}

bool provider_refuse(provider *prov, int reason, const char *format, ...) {
    va_list given;
    va_start(given, format);
    show_given(format, given, prov->unable);
    va_end(given);
    prov->is_unable = is_loaded_by_file(prov);
    prov->unable_reason = reason;
    return prov->is_unable ? false : RAISE(prov, reason, "%s", prov->unable);
}

bool provider_is_able(const provider *prov) {
    return !prov->is_unable || RAISE(prov, prov->unable_reason, "%s", prov->unable);
}

static const OSSL_ITEM reasons[] = {
    {REASON_SETTINGS, "the provider's settings are wrong"},
    {REASON_ORDER, "metsuwan stands before the provider that makes RSA keys"},
    {REASON_CONNECTION, "no answer of the KMIP server"},
    {REASON_REFUSED, "the KMIP server refused"},
    {REASON_URI, "not a URI of an object"},
    {REASON_NOT_FOUND, "no such object"},
    {REASON_KEY, "not an object that can be used so"},
    {REASON_DIGEST_ALONE, "a KMIP server signs data, and no digest"},
    {REASON_PARAMETERS, "the KMIP server cannot be asked for this"},
    {REASON_SIGNATURE, "the KMIP server's signature does not verify"},
    {REASON_NO_KEYS_MADE, "metsuwan makes no keys"},
    {REASON_MEMORY, "out of memory"},
    {REASON_SECOND, "OpenSSL asks one provider of this module alone"},
    {0, NULL}};

static const OSSL_ITEM *get_reasons(void *given) {
    (void)given;
    return reasons;
}

static void teardown(void *given) {
    provider *prov = given;
    connections_end(prov);
    OSSL_LIB_CTX_free(prov->own);
    settings_free(prov);
    OPENSSL_free(prov);
}

static const OSSL_PARAM *gettable(void *given) {
    static const OSSL_PARAM known[] = {OSSL_PARAM_utf8_ptr(OSSL_PROV_PARAM_NAME, NULL, 0),
                                       OSSL_PARAM_utf8_ptr(OSSL_PROV_PARAM_VERSION, NULL, 0),
                                       OSSL_PARAM_utf8_ptr(OSSL_PROV_PARAM_BUILDINFO, NULL, 0),
                                       OSSL_PARAM_int(OSSL_PROV_PARAM_STATUS, NULL),
                                       OSSL_PARAM_END};
    (void)given;
    return known;
}

static int set_text(OSSL_PARAM params[], const char *name, const char *text) {
    OSSL_PARAM *at = OSSL_PARAM_locate(params, name);
    return !at || OSSL_PARAM_set_utf8_ptr(at, text);
}

static int get(void *given, OSSL_PARAM params[]) {
    const provider *prov = given;
    OSSL_PARAM *status = OSSL_PARAM_locate(params, OSSL_PROV_PARAM_STATUS);
    const char *name = prov->is_unable ? prov->unable : "keys of a KMIP server (metsuwan)";
    return set_text(params, OSSL_PROV_PARAM_NAME, name) &&
           set_text(params, OSSL_PROV_PARAM_VERSION, METSUWAN_VERSION) &&
           set_text(params, OSSL_PROV_PARAM_BUILDINFO, kmip_version()) &&
           (!status || OSSL_PARAM_set_int(status, !prov->is_unable));
}

/* One that cannot be used has what is asked for keys of the server, so that it says why, and no keys
   that it would be asked for in place of another provider's. */
static const OSSL_ALGORITHM *query(void *given, int operation, int *no_cache) {
    const provider *prov = given;
    *no_cache = 0;
    switch (operation) {
    case OSSL_OP_STORE: return provider_stores;
    case OSSL_OP_KEYMGMT: return prov->is_unable ? NULL : provider_keymgmts;
    case OSSL_OP_SIGNATURE: return prov->is_unable ? NULL : provider_signatures;
    case OSSL_OP_DECODER: return prov->gets ? provider_decoders : NULL;
    default: return NULL;
    }
}

static const OSSL_DISPATCH functions[] = {
    FUNCTION(OSSL_FUNC_PROVIDER_TEARDOWN, teardown),
    FUNCTION(OSSL_FUNC_PROVIDER_GETTABLE_PARAMS, gettable),
    FUNCTION(OSSL_FUNC_PROVIDER_GET_PARAMS, get),
    FUNCTION(OSSL_FUNC_PROVIDER_QUERY_OPERATION, query),
    FUNCTION(OSSL_FUNC_PROVIDER_GET_REASON_STRINGS, get_reasons),
    END_OF_FUNCTIONS};

static void take_functions(provider *prov, const OSSL_DISPATCH *in) {
    for (; in->function_id; in++) {
        switch (in->function_id) {
        case OSSL_FUNC_CORE_GET_PARAMS: prov->get_params = OSSL_FUNC_core_get_params(in); break;
        case OSSL_FUNC_CORE_GET_LIBCTX: prov->get_libctx = OSSL_FUNC_core_get_libctx(in); break;
        case OSSL_FUNC_CORE_NEW_ERROR: prov->new_error = OSSL_FUNC_core_new_error(in); break;
        case OSSL_FUNC_CORE_SET_ERROR_DEBUG:
            prov->set_error_debug = OSSL_FUNC_core_set_error_debug(in);
            break;
        case OSSL_FUNC_CORE_VSET_ERROR: prov->vset_error = OSSL_FUNC_core_vset_error(in); break;
        case OSSL_FUNC_BIO_GETS: prov->gets = OSSL_FUNC_BIO_gets(in); break;
        default: break;
        }
    }
}

/* OpenSSL asks the first provider for an RSA key that is to be made or read. Were that this one,
   which has none but those of the server, programs could make no more keys. The providers that stand
   before this one are those of a child of the library context; one that is loaded there, the null
   provider, keeps OpenSSL from adding the default one by itself. */
static bool stands_after_rsa(provider *prov, const OSSL_DISPATCH *in) {
    OSSL_LIB_CTX *around = OSSL_LIB_CTX_new_child(prov->core, in);
    OSSL_PROVIDER *null = around ? OSSL_PROVIDER_load(around, "null") : NULL;
    bool good = null && (OSSL_PROVIDER_available(around, "default") == 1 ||
                         OSSL_PROVIDER_available(around, "fips") == 1);
    if (null && OSSL_PROVIDER_unload(null) != 1) good = false;
    OSSL_LIB_CTX_free(around);
    return good ||
           provider_refuse(prov, REASON_ORDER,
                           "activate default (or fips) first, and %s after it: in openssl.cnf, "
                           "by the order of the lines of [providers]; in a program, by that of the "
                           "calls of OSSL_PROVIDER_load",
                           prov->name);
}

/* Its name; that of the module where OpenSSL tells none. */
static const char *name_of(const provider *prov) {
    char *name = NULL, asked[] = OSSL_PROV_PARAM_CORE_PROV_NAME;
    OSSL_PARAM ask[] = {OSSL_PARAM_construct_utf8_ptr(asked, &name, 0), OSSL_PARAM_construct_end()};
    return prov->get_params(prov->core, ask) && name ? name : "metsuwan";
}

__attribute__((visibility("default"))) OSSL_provider_init_fn OSSL_provider_init;

int OSSL_provider_init(const OSSL_CORE_HANDLE *core, const OSSL_DISPATCH *in,
                       const OSSL_DISPATCH **out, void **context) {
    provider *prov = OPENSSL_zalloc(sizeof *prov);
    if (!prov) return 0;
    prov->core = core;
    take_functions(prov, in);
    bool complete = prov->get_params && prov->get_libctx && prov->new_error &&
                    prov->set_error_debug && prov->vset_error;
    prov->own = complete ? OSSL_LIB_CTX_new() : NULL;
    if (complete) prov->name = name_of(prov);
    bool able =
        prov->own && stands_after_rsa(prov, in) && connections_first(prov) && settings_read(prov);
    if (!(able || prov->is_unable) || !connections_start(prov)) {
        teardown(prov);
        return 0;
    }
    *out = functions;
    *context = prov;
    return 1;
}
