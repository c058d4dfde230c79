/* A KMIP 1.0 to 1.2 client without input or output: it makes the bytes of requests and checks those
   of responses, and the caller moves them.

   A whole call, over any connection:

       kmip_word words[] = {kmip_text_word("sign"), kmip_text_word("k1"),
                            kmip_data_word(digest, 32)};
       length = kmip_request(words, 3, none, 0, false, none, 0, none, 0, request, sizeof request);
                                                                    write all of the request
                                                                    read 8 bytes of the response
       more = kmip_contents_len(response, 8, limit);
                                                                    read so many after them
       status = kmip_answer(words, 3, none, 0, response, 8 + more, line, sizeof line, &length);

   These three steps, that exactly these bytes are sent, that 8 are read, and then so many, are the
   caller's, and nothing checks them. metsuwan_tls.h does them over OpenSSL.

   A call is its name, its words and its options, each a kmip_word: a text in UTF-8 as it is, with
   no quotes or escapes, whatever stands in it; or data. docs/PROGRAM.md and docs/CALL.md have all
   calls and their options, and what is answered. The typed calls are

       query                             what can the server do?
       discover                          which versions of KMIP does the server speak?
       create-rsa BITS NAME NAME         make an RSA pair under these names of the private and the
                                         public key
       create-aes BITS NAME              make an AES key under this name
       create ALGORITHM BITS NAME        make another symmetric key
       register KIND DATA                register a key of these bytes
       locate NAME                       which objects have this name?
       locate where ATTRIBUTE..          which have these attributes, as state=Active?
       attributes ID [NAME..]            the attributes of an object
       attribute-add ID ATTRIBUTE        and attribute-modify; attribute-delete ID NAME
       activate ID, revoke ID, destroy ID
       sign ID DATA                      sign these bytes with this key
       rename ID NAME
       get ID                            the object itself
       rng NUMBER                        so many random bytes
       raw DATA                          the request of these bytes, of any of the seventeen
                                         operations

   and beside them stand the calls of a table, for further operations of KMIP 1.2 and for keys of
   any algorithm, as

       encrypt ID DATA [mode=CBC] [iv=HEX] ..
       decrypt ID DATA, mac ID DATA, verify ID DATA SIGNATURE, hash DATA hash=SHA_256
       derive-key ID METHOD hash=SHA_256 length=256, rekey ID, certify ID, archive ID, ..

   An option is one text, its name and its value with = between: "name=50% of a=b" gives the value
   "50% of a=b". Options stand behind a call's words. An attribute is written so too, and so is each
   word of `locate` where there are two or more: a single one is a name, also "a=b". Data is a word
   of its own, never an option; the value of an option that takes bytes, as iv=, is hex digits, and
   in place of a word of data a text of hex digits may stand, "" for no bytes.

   Every call returns, whatever it is given: nothing ends the process. Nothing is kept between
   calls, so any thread may make any call at any time. Memory comes from malloc, and is overwritten
   and freed before a call returns. No pointer may be null, not even with a length of 0. What is
   read and what is written may not overlap.

   Lengths are told as snprintf tells them: the whole length is returned, and the bytes are written
   only where all of them fit; otherwise nothing is written.

   The library is libmetsuwan, and its header metsuwan.h, since libkmip and kmip.h are those of
   another project, OpenKMIP. Its calls are named kmip_.. after the protocol, as they are in the
   crate that they are compiled from and in what is proved of it. */
#ifndef METSUWAN_H
#define METSUWAN_H
#include <stdbool.h>
#include <stddef.h>
#include <stdint.h>
#include <string.h>
#ifdef __cplusplus
extern "C" {
#endif

/* Of what returns a status, a length or memory: compilers warn where it is not looked at. */
#ifdef __GNUC__
#define KMIP_LOOKED_AT __attribute__((warn_unused_result))
#else
#define KMIP_LOOKED_AT
#endif

/* The version of this header. (That of KMIP is another matter.) */
#define METSUWAN_VERSION "2.0"
#define METSUWAN_VERSION_MAJOR 2
#define METSUWAN_VERSION_MINOR 0

/* The version of the library that the program runs with, and whether what it was compiled from was
   proved: "2.0, proved"; "2.0, not proved", as by `clients/build.sh --unproved`, to try things out;
   or "2.0, proof unknown". */
const char *kmip_version(void);

/* A word of a call: a text in UTF-8 as it is, or data. */
typedef struct {
    const uint8_t *bytes; /* never null, not even with a length of 0 */
    size_t length;        /* in bytes; that of a text counts no zero at its end */
    bool is_data;
} kmip_word;

/* The words of a text that a zero ends, and of data. They keep the pointer, and copy nothing. That of
   a null text is null, too, and so no word. */
static inline kmip_word kmip_text_word(const char *text) {
    kmip_word word = {(const uint8_t *)text, text ? strlen(text) : 0, false};
    return word;
}

static inline kmip_word kmip_data_word(const void *bytes, size_t length) {
    kmip_word word = {(const uint8_t *)bytes, length, true};
    return word;
}

/* What is returned in place of a length. The statuses of calls, below, are other numbers. */
enum {
    KMIP_LENGTH_GRAMMAR = -2, /* the words are no call, for which kmip_refusal says why; or the
                                 name, the version or the payload of an operation is wrong; or a
                                 text is not UTF-8; or there are not 8 bytes of head */
    KMIP_LENGTH_ABSENT = -3,  /* the head is none of a structure; or the answer has no such value;
                                 or there is nothing to refuse */
    KMIP_LENGTH_LIMIT = -4,   /* the response is longer than the limit */
    KMIP_LENGTH_MEMORY = -5,  /* out of memory */
    KMIP_LENGTH_NO_FORM = -6  /* the request has no wire form */
};

/* What came of a call: the statuses of the program kmip_call. */
enum {
    KMIP_ANSWERED = 0,     /* a valid response of success: {"answer":..} */
    KMIP_REFUSED = 1,      /* an error of the server, or no answer to this request:
                              {"error":..,"text":..}; exactly one message was taken, and the
                              connection is good for the next call */
    KMIP_CALL_GRAMMAR = 2, /* the words are no call; no line */
    KMIP_LOST = 3,         /* the bytes end early, are no well-formed message, or are none to this
                              call: of another operation, about another object than it named, with
                              another Unique Batch Item ID, without one batch item, or without what
                              was asked for: {"error":..,"text":..}; close the connection */
    KMIP_NO_MEMORY = 5     /* out of memory; no line */
};

/* Writes the request of a call to `into`: its one canonical message. Returns its length in bytes.

   words, count             the call, as above
   id, id_len               the Unique Batch Item ID of the request of a call of the table, which
                            its response has too (KMIP 1.0, 6.4): bytes that no other request on
                            the connection has, as eight random ones; an id_len of 0: none is sent.
                            The request of a typed call has none, so that its bytes follow from the
                            call
   has_credential           whether the request carries the user name and password that follow, both
                            UTF-8; where it is false the two are not looked at
   into, room               where it is written, if it fits
   KMIP_LENGTH_GRAMMAR      the words are no call, as kmip_refusal says; or a text of the credential
                            is not UTF-8
   KMIP_LENGTH_NO_FORM      the request has no wire form, since a text is too long for it
   KMIP_LENGTH_MEMORY       out of memory

   Room for 4096 bytes and twice the lengths of the words and of the credential is mostly enough;
   where it is not, call again with as much as was returned.

       kmip_word words[] = {kmip_text_word("encrypt"), kmip_text_word("5"),
                            kmip_data_word("hello", 5), kmip_text_word("mode=ECB")};
       int64_t length = kmip_request(words, 4, id, 8, false, id, 0, id, 0, request, 4096);
*/
KMIP_LOOKED_AT int64_t kmip_request(const kmip_word *words, size_t count, const uint8_t *id,
                                    size_t id_len, bool has_credential, const uint8_t *user,
                                    size_t user_len, const uint8_t *password, size_t password_len,
                                    uint8_t *into, size_t room);

/* Why words are no call, as a text: which word is wrong, and what may stand there, as
   "sign: hash= is none of MD2, MD4, MD5, SHA1, ..". Returns its length in bytes.

   words, count             the words
   into, room               where it is written, if it fits
   KMIP_LENGTH_ABSENT       the words are a call
   KMIP_LENGTH_MEMORY       out of memory

   It shows the call's name, and a word that is to be one of several names; no word else, since one
   may be a secret. It is not ended by a zero. */
KMIP_LOOKED_AT int64_t kmip_refusal(const kmip_word *words, size_t count, uint8_t *into,
                                    size_t room);

/* How many bytes follow the first 8 of a response: 0 to 4294967295.

   head, eight              the 8 bytes
   limit                    the most bytes that the response may have, these 8 counted; 0: no limit
   KMIP_LENGTH_GRAMMAR      there are not 8 bytes
   KMIP_LENGTH_ABSENT       they are not the head of a structure
   KMIP_LENGTH_LIMIT        the response is longer than the limit

   After a negative number close the connection: what follows on it is no message. */
KMIP_LOOKED_AT int64_t kmip_contents_len(const uint8_t *head, size_t eight, uint32_t limit);

/* Says what a response answers to a call, and writes that as one line of JSON, with its line feed,
   to `into`. Returns KMIP_ANSWERED, KMIP_REFUSED, KMIP_CALL_GRAMMAR, KMIP_LOST or KMIP_NO_MEMORY.

   words, count, id, id_len the call whose request was sent, with the ID of that request
   response, response_len   the response; what stands after its first message is not looked at
   into, room               where the line is written, if it fits
   length                   how many bytes the line has; 0 where there is none

   Room for 4096 bytes and 8 for each byte of the response is mostly enough; where it is not, call
   again with as much as `length` tells.

   The line is {"answer":{..}} with the payload as an object of its members. For a call of the table
   these are named after the tags of its items, in small letters with _ between two words, and where
   several items have one tag, the member is their list:
   {"answer":{"unique_identifier":"5","data":"6868"}}.

   What the tables of `get`, where no wrapping is asked for, and of `attributes` have no words for, as
   a key of EC or HMAC, is the payload as a tree, as of kmip_operation_answer: {"answer":{"tag":..}}.
   About another object, or about none, it is KMIP_LOST.

   A typed response belongs to a call by its one batch item, by its operation, and where both name
   an object, by the object's identifier: so one typed call at a time on a connection. That of a
   call of the table belongs to it by its operation and, where the request had an ID, by that: a
   response with another one or none is KMIP_LOST, but for a failure that names no operation and has
   no ID, since a server that cannot read a request knows neither of the two. */
KMIP_LOOKED_AT int32_t kmip_answer(const kmip_word *words, size_t count, const uint8_t *id,
                                   size_t id_len, const uint8_t *response, size_t response_len,
                                   uint8_t *into, size_t room, int64_t *length);

/* Writes a single value of an answer to `into`, and returns its length in bytes.

   line, line_len           the line that kmip_answer or kmip_operation_answer wrote
   path, path_len           where the value stands below {"answer":, by the names of the JSON with a
                            dot between two; an item of a list is named by its index in decimal
                            digits, counted from 0:
                                signature_data
                                attributes.0.name
                                cryptographic_object.PublicKey.key_block.key_format_type
                            In an answer that is a tree, by the tags of its items; behind a tag the
                            index among the items of the same structure with this tag, 0 where there
                            is none:
                                Data
                                Attribute.1.AttributeName
   hex                      false: a text is written as its bytes, without quotes and escapes, a
                            number as its decimal digits, and the rest as "true" or "false"
                            true: a string of hex digits is written as the bytes that it stands for;
                            KMIP's Byte Strings and Big Integers are such strings
   into, room               where the value is written, if it fits
   KMIP_LENGTH_GRAMMAR      the line or the path is not UTF-8
   KMIP_LENGTH_ABSENT       there is no such value: the line is an error, or no line; or it has
                            nothing at this path, or an object, a list or a structure; or `hex` is
                            true, and there is no string of hex digits, or in a tree no Byte String
                            or Big Integer
   KMIP_LENGTH_MEMORY       out of memory

   No value is longer than its line. Each call reads the whole line once more.

       length = kmip_value(line, line_len, path, strlen("data"), true, data, sizeof data);
*/
KMIP_LOOKED_AT int64_t kmip_value(const uint8_t *line, size_t line_len, const uint8_t *path,
                                  size_t path_len, bool hex, uint8_t *into, size_t room);

/* Any operation, by its name and its payload in JSON or XML: its request, as kmip_request writes
   one. Returns its length in bytes.

   name, name_len           the operation's name, as Encrypt, MACVerify or Rekey
   version, version_len     the version that the request names: 1.0, 1.1 or 1.2
   id, id_len               the Unique Batch Item ID of the request, which its response has too (KMIP
                            1.0, 6.4): bytes that no other request on the connection has, as eight
                            random ones; an id_len of 0: none is sent
   payload, payload_len     the request's payload, in the JSON of KMIP's Additional Message
                            Encodings: {"tag":"RequestPayload","value":[{"tag":"Data",
                            "type":"ByteString","value":"00FF"}]}; or in their XML, where it
                            begins with <
   has_credential .. room   as for kmip_request
   KMIP_LENGTH_GRAMMAR      the name or the version is none of these, the payload is no JSON or
                            XML of a structure with the tag RequestPayload or has an empty Unique
                            Identifier, or a text is not UTF-8
   KMIP_LENGTH_NO_FORM      the request has no wire form: a text is too long for it, or the bytes
                            of a Big Integer are no multiple of eight
   KMIP_LENGTH_MEMORY       out of memory */
KMIP_LOOKED_AT int64_t kmip_operation_request(const uint8_t *name, size_t name_len,
                                              const uint8_t *version, size_t version_len,
                                              const uint8_t *id, size_t id_len,
                                              const uint8_t *payload, size_t payload_len,
                                              bool has_credential, const uint8_t *user,
                                              size_t user_len, const uint8_t *password,
                                              size_t password_len, uint8_t *into, size_t room);

/* Says what a response answers to such a call, as kmip_answer does. The line is {"answer":TREE}
   with the response's payload in the same JSON, or with `plain` {"answer":{..}} with the payload as
   kmip_answer writes it; or {"error":..,"text":..,"reason":..,"message":..} with the server's reason
   and message. No unknown item or number makes a response unreadable. Whether the answer is about
   the object that the payload names is not looked at.

   Where the request had an ID, a response whose batch item has another one, or none, is KMIP_LOST:
   it is not the response to this request. A failure that names no operation and has no ID is told
   as the failure that it is, since a server that cannot read a request knows neither of the two.
   With an id_len of 0 the ID of a response is not looked at.

   name .. payload_len      the call whose request was sent, as above
   plain                    whether the payload is written as an object of its members; what is of
                            which type is then not written
   response .. length       as for kmip_answer */
KMIP_LOOKED_AT int32_t kmip_operation_answer(const uint8_t *name, size_t name_len,
                                             const uint8_t *version, size_t version_len,
                                             const uint8_t *id, size_t id_len,
                                             const uint8_t *payload, size_t payload_len,
                                             const uint8_t *response, size_t response_len,
                                             bool plain, uint8_t *into, size_t room,
                                             int64_t *length);

/* Says why a name, a version and a payload make no such call, as a text in UTF-8 that is not ended
   by a zero. Of a payload it says the line and the column, the way to the place, as
   value[1].value[0].type, what was expected, and what stands there; of a string of bytes or text and
   of a Big Integer, which may be secret, only the length. Returns its length in bytes.

   name .. payload_len      the call, as above, without its ID
   into, room               where the text goes; nothing is written where it does not fit
   KMIP_LENGTH_ABSENT       they make a call
   KMIP_LENGTH_MEMORY       out of memory */
KMIP_LOOKED_AT int64_t kmip_operation_refusal(const uint8_t *name, size_t name_len,
                                              const uint8_t *version, size_t version_len,
                                              const uint8_t *payload, size_t payload_len,
                                              uint8_t *into, size_t room);

#ifdef __cplusplus
}
#endif
#endif
