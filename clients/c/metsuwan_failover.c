/* An exchange with a server: over a connection that is opened again where it was lost, and with the
   next server where one has failed. What makes or changes is sent to one server at most. */
#define _POSIX_C_SOURCE 200809L
#include "metsuwan_internal.h"

#include <stdio.h>
#include <string.h>

#define PIECE 65536

/* The most seconds of connecting and TLS with a server after which there is another. */
#define CONNECT_SECONDS 5.0

static kmip_time whole_time(const kmip_client *client) {
    return (kmip_time){client->end, client->seconds};
}

/* Keeps that the connection failed, and how. Of a server that refused the certificate it is known
   that it has read nothing: under TLS 1.3 the refusal comes after the client's handshake, and before
   anything else is read. */
static int wire_fails(kmip_client *client, const char *kind, const char *after) {
    client->refused = kmip_wire_is_refused(client->wire);
    client->late = kmip_wire_is_late(client->wire);
    client->torn = true;
    if (client->refused) {
        client->sent = client->sent_before;
        kind = "ConnectError";
        after = "";
    }
    snprintf(client->reason, sizeof client->reason, "%s%s", kmip_wire_reason(client->wire), after);
    return kmip_fails_as(client, KMIP_LOST, kind, client->reason);
}

/* Reads what follows the head of a response of this length. What is announced may never come, so
   there is room for twice what did. */
static int read_rest(kmip_client *client, size_t length) {
    kmip_wire *wire = client->wire;
    for (size_t done = KMIP_HEAD, next; done < length;) {
        next = done < PIECE ? PIECE : done > SIZE_MAX / 2 ? length : 2 * done;
        if (next > length) next = length;
        if (!kmip_room_has(&client->response, next)) return kmip_out_of_memory(client);
        if (!kmip_wire_read(wire, client->response.bytes, next, &done))
            return wire_fails(client, "ResponseReadError", "");
    }
    return KMIP_ANSWERED;
}

/* Reads the head of a response. A server that has its share of the time alone, and does not answer
   within it, is left for another; but not where it has begun to answer, or has answered another
   call meanwhile: then it is slow, and no other would be faster. */
static bool read_head(kmip_client *client, const kmip_time *share) {
    kmip_wire *wire = client->wire;
    const kmip_time whole = whole_time(client);
    double sent_at = kmip_now();
    size_t done = 0;
    kmip_wire_until(wire, share);
    bool is_read = kmip_wire_read(wire, client->response.bytes, KMIP_HEAD, &done);
    bool is_slow = done > 0 || kmip_servers_answered_since(client->servers, client->at, sent_at);
    bool has_more = share->end < whole.end;
    kmip_wire_until(wire, &whole);
    if (is_read || !kmip_wire_is_late(wire) || !is_slow || !has_more) return is_read;
    kmip_wire_goes_on(wire);
    return kmip_wire_read(wire, client->response.bytes, KMIP_HEAD, &done);
}

/* Reads a response, whose head comes within this share of the time. */
static int read_response(kmip_client *client, const kmip_time *share) {
    if (!read_head(client, share)) return wire_fails(client, "ResponseReadError", "");
    int64_t more = kmip_contents_len(client->response.bytes, KMIP_HEAD, client->limit);
    if (more == KMIP_LENGTH_LIMIT) {
        char text[80];
        snprintf(text, sizeof text, "the response is longer than the limit of %u bytes",
                 client->limit);
        return kmip_fails_as(client, KMIP_LOST, "DeserializeError", text);
    }
    if (more < 0) return kmip_fails_as(client, KMIP_LOST, "DeserializeError", "not a structure");
    size_t length;
    if (!kmip_response_len((uint64_t)more, &length)) return kmip_out_of_memory(client);
    int status = read_rest(client, length);
    if (status != KMIP_ANSWERED) return status;
    client->response_len = length;
    return KMIP_ANSWERED;
}

/* The servers that this call may still try, the one at hand counted. */
static size_t untried(const kmip_client *client) {
    size_t left = 0;
    for (size_t i = 0; i < client->servers->count; i++)
        left += !(client->tried >> i & 1);
    return left;
}

/* The share of the time of the server at hand; the last one has all that is left. */
static kmip_time share_of(const kmip_client *client, double most) {
    const kmip_time whole = whole_time(client);
    size_t left = untried(client);
    return left < 2 ? whole : kmip_time_share(&whole, (double)left, most);
}

/* Whether a connection that is lost is opened again: not in the child of a fork. */
bool kmip_reconnects(const kmip_client *client) {
    return client->reconnects && kmip_process_is(&client->owner);
}

/* The three steps that nothing checks: these bytes are sent, 8 are read, and then so many. */
static int exchange(kmip_client *client, size_t request_len, bool is_changeless) {
    kmip_wire *wire = client->wire;
    kmip_time share = whole_time(client);
    client->torn = client->late = client->refused = false;
    client->sent_before = client->sent;
    kmip_wire_begin(wire, &share);
    if (!kmip_wire_is_idle(wire))
        return wire_fails(client, "RequestWriteError", "; nothing was sent");
    bool written = kmip_wire_write(wire, client->request.bytes, request_len);
    client->sent = client->sent || kmip_wire_was_sent(wire);
    if (!written) return wire_fails(client, "RequestWriteError", "");
    if (is_changeless && client->reconnects) share = share_of(client, 0);
    return read_response(client, &share);
}

/* Adds what failed to what is told of the call; of several servers with which of them it was. */
static void add_reason(kmip_client *client, int which, const char *front, const char *why) {
    size_t length = strlen(client->reasons), room = sizeof client->reasons - length;
    bool several = client->servers->count > 1;
    snprintf(client->reasons + length, room, "%s%.310s%s%s%.256s", length > 0 ? "; " : "",
             several ? client->servers->at[which].text : "", several ? ": " : "", front, why);
}

/* The server at hand has failed: it is not tried again in this call, and left out for a while. */
static void server_fails(kmip_client *client, const char *why) {
    client->tried |= UINT32_C(1) << client->at;
    double pause =
        kmip_servers_failed(client->servers, client->at, client->opened_at, client->refused, why);
    add_reason(client, client->at, "", why);
    if (client->servers->count > 1)
        kmip_log_event(client, KMIP_EVENT_SERVER_OUT, KMIP_LOST, "%s: it is left out for %.1f s",
                       why, pause);
}

/* Adds those that were not tried, and why. */
static void add_untried(kmip_client *client) {
    for (int i = 0; i < (int)client->servers->count; i++) {
        char front[80];
        kmip_reason why = {""};
        bool refused = false;
        if (client->tried >> i & 1) continue;
        double out = kmip_servers_out(client->servers, i, &refused, &why);
        snprintf(front, sizeof front, "not tried within the time%s", out > 0 ? ", after: " : "");
        if (refused) snprintf(front, sizeof front, "left out for %.0f s more: ", out);
        add_reason(client, i, front, out > 0 ? why.text : "");
    }
}

int kmip_open_any(kmip_client *client) {
    const kmip_time whole = whole_time(client);
    for (int which; (which = kmip_servers_next(client->servers, client->tried)) >= 0;) {
        const kmip_server *server = &client->servers->at[which];
        kmip_reason why;
        int status = KMIP_LOST;
        client->at = which;
        kmip_way way = {.context = client->context,
                        .library = client->library,
                        .host = server->host,
                        .port = server->port,
                        .name = client->server_name,
                        .time = share_of(client, CONNECT_SECONDS)};
        client->opened_at = kmip_now();
        client->wire = kmip_wire_open(&way, &status, &client->refused, &why);
        if (client->wire) client->opened_at = kmip_now();
        if (client->wire) return KMIP_ANSWERED;
        if (status == KMIP_NO_MEMORY) {
            snprintf(client->reasons, sizeof client->reasons, "%s", why.text);
            return status;
        }
        server_fails(client, why.text);
        if (kmip_time_is_over(&whole)) break;
    }
    add_untried(client);
    return KMIP_LOST;
}

/* The connection, which is opened again where it was lost, or as old as may be. */
static int ready(kmip_client *client, bool is_old) {
    if (client->wire) return KMIP_ANSWERED;
    int status = kmip_open_any(client);
    if (status == KMIP_NO_MEMORY) return kmip_out_of_memory(client);
    if (status != KMIP_ANSWERED)
        return kmip_fails_as(client, KMIP_LOST, "ConnectError", client->reasons);
    kmip_log_event(client, KMIP_EVENT_REOPENED, KMIP_LOST,
                   is_old ? "the connection was old, and another one is opened"
                          : "the connection was lost, and is opened again");
    return KMIP_ANSWERED;
}

/* What came of the call where it goes to no other server: with all that failed before, where there
   are several. */
static int ends_here(kmip_client *client, bool is_changeless) {
    const char *kind = kmip_member(kmip_line(client), "error");
    char name[40], text[sizeof client->reasons];
    if (client->servers->count == 1 || !kind) return client->status;
    bool may_be_done = client->sent && !is_changeless;
    snprintf(name, sizeof name, "%.*s", (int)strcspn(kind + 1, "\""), kind + 1);
    snprintf(text, sizeof text, "%.1900s%s", client->reasons,
             may_be_done ? "; it may have been done there, and was sent to no other server" : "");
    return kmip_says(client, KMIP_LOST, name, text);
}

/* Whether a response says of a call that it is pending: by its Result Status (KMIP 1.0, 6.9), an item
   of 16 bytes that begins at a multiple of 8. */
static bool is_pending(const uint8_t *response, size_t length) {
    static const uint8_t item[] = {0x42, 0, 0x7F, 5, 0, 0, 0, 4, 0, 0, 0, 2, 0, 0, 0, 0};
    for (size_t at = 0; at + sizeof item <= length; at += 8)
        if (memcmp(response + at, item, sizeof item) == 0) return true;
    return false;
}

/* Whether a call is about one that is pending, of which one server alone knows. */
static bool is_about_pending(const char *operation) {
    static const char *const names[] = {"poll", "cancel", "Poll", "Cancel"};
    for (size_t i = 0; i < sizeof names / sizeof *names; i++)
        if (strcmp(operation, names[i]) == 0) return true;
    return false;
}

/* Tells the list of an answer. */
static void answered(kmip_client *client) {
    bool is_back = kmip_servers_answered(client->servers, client->at);
    if (is_back && client->servers->count > 1)
        kmip_log_event(client, KMIP_EVENT_SERVER_BACK, KMIP_LOST, "it answers again");
    if (is_pending(client->response.bytes, client->response_len)) client->pending_at = client->at;
}

/* Leaves a connection that is older than it may be, which is said; what polls or cancels goes where
   that came from which it is about, and to no other server. */
static bool prepare(kmip_client *client) {
    bool is_old = client->max_age > 0 && kmip_now() - client->opened_at > client->max_age;
    bool is_bound = is_about_pending(client->operation) && client->pending_at >= 0;
    if (!kmip_reconnects(client)) return false;
    if (is_bound) client->tried = ~(UINT32_C(1) << client->pending_at);
    bool leaves = client->wire && (is_bound ? client->at != client->pending_at : is_old);
    if (leaves) kmip_wire_close(client->wire);
    if (leaves) client->wire = NULL;
    return leaves;
}

/* Makes the exchange with the server at hand, and where that fails with each other, once: as long as
   nothing of a request was sent, and where it changes nothing also after that. */
static int exchange_over(kmip_client *client, size_t request_len, bool is_changeless) {
    bool is_old = prepare(client), was_open = client->wire != NULL;
    for (;;) {
        int status = ready(client, is_old);
        if (status != KMIP_ANSWERED) return status;
        status = exchange(client, request_len, is_changeless);
        if (status == KMIP_ANSWERED) answered(client);
        if (status != KMIP_LOST || !client->torn || !kmip_process_is(&client->owner)) return status;
        /* That a connection ended while it lay idle says nothing of its server. */
        bool was_sent = client->sent && !client->sent_before;
        bool ended_idle = was_open && !client->late && !client->refused &&
                          (!was_sent || client->servers->count == 1);
        was_open = false;
        if (!ended_idle) server_fails(client, client->reason);
        bool harmless = is_changeless || !client->sent;
        if (!harmless || !kmip_reconnects(client) || untried(client) == 0)
            return ended_idle ? status : ends_here(client, is_changeless);
        kmip_log_event(client, KMIP_EVENT_REPEATED, KMIP_LOST, "%s: the call is made again",
                       client->reason);
    }
}

int kmip_exchange(kmip_client *client, size_t request_len, bool is_changeless) {
    client->request_len = request_len;
    client->torn = false;
    int status = exchange_over(client, request_len, is_changeless);
    if (status == KMIP_ANSWERED && !kmip_tell_record(client)) return kmip_out_of_memory(client);
    return status;
}
