/*
 * Norrabist: a proved reader and writer of TLS records, handshake messages, hellos and extensions,
 * for C and C++. A port of parts of tls-parser 0.12.2. RULES is docs/RULES.md of its tree.
 *
 * Link libnorrabist_c.a, which `rust/archive` makes, or which a release has for x86-64 and for Arm
 * (aarch64). The example records.c is built so, in the tree and in a release:
 *
 *     cc -I rust rust/examples/records.c target/native/libnorrabist_c.a -o records
 *     cc -I include examples/records.c lib/$(uname -m)/libnorrabist_c.a -o records
 *
 * Every pointer goes with the length behind it, in bytes; it may not be null, even where that is 0.
 * What is lent to be written may overlap nothing else that is lent. No function keeps a pointer,
 * allocates, or reads or writes anything but what is lent to it. Every input has an answer.
 *
 * An answer is a struct, by value, or its number alone. `number` is of enum norrabist_reason: where
 * it is ACCEPTED the other fields tell the value, else they are all 0, unless a comment says what
 * they tell. Each function's comment lists what it refuses. Comments leave out the NORRABIST_ of a
 * name.
 *
 * A struct tells versions, ciphers and the like as they stand, and of each part its length. Where a
 * part begins is a constant or a sum of those before it: the constants are the names that end in
 * _AT, the sums are the inline functions below each struct, the sums that RULES 1.7 states. Places
 * count from 0 in the bytes that were read. A sum means nothing of a struct that tells a refusal. A
 * `tail` is where what follows the last field begins: in a hello with absent extensions, it may be
 * a block that was cut off.
 */
#ifndef NORRABIST_H
#define NORRABIST_H

#ifndef __cplusplus
#include <stdbool.h>
#endif
#include <stddef.h>
#include <stdint.h>

/* The version, as the Rust crate has it. */
#define NORRABIST_VERSION_MAJOR 0
#define NORRABIST_VERSION_MINOR 1
#define NORRABIST_VERSION_PATCH 0

/* NORRABIST_HAS_SIZE(T, n): that a T has n bytes, held where this is compiled. */
#if defined(__cplusplus)
#define NORRABIST_HAS_SIZE(of, size) static_assert(sizeof(of) == (size), #of)
#elif defined(__STDC_VERSION__) && __STDC_VERSION__ >= 201112L
#define NORRABIST_HAS_SIZE(of, size) _Static_assert(sizeof(of) == (size), #of)
#else
#define NORRABIST_HAS_SIZE(of, size) typedef char norrabist_has_##of[sizeof(of) == (size) ? 1 : -1]
#endif

#ifdef __cplusplus
extern "C" {
#endif

/* The table of refusals (RULES 1). It may grow: a number that is not here is one of a later
   version, and no other one's. There is no number 10. */
enum norrabist_reason {
    NORRABIST_ACCEPTED = 0,
    /* a part runs past the bytes, but for LENGTH_VALUE's, extensions, list items */
    NORRABIST_INCOMPLETE = 1,
    /* INCOMPLETE in the first message of a record, but for a heartbeat, or in the first of joined
       records; both CertificateRequest forms run out */
    NORRABIST_COMPLETE = 2,
    /* session id length over MAX_ID_LEN; ticket body under LIFETIME_LEN bytes */
    NORRABIST_VERIFY = 3,
    /* cipher length odd or past the end; method length past the end; ChangeCipherSpec not 1; alert
       level or heartbeat type not 1 or 2; payload that leaves under MIN_PADDING_LEN bytes; ticket
       length missing or unlike the bytes after it; a hello read strictly with no ciphers, no
       methods or a tail; an extension that does not fit, with an inner length missing or wrong, a
       fragment length not of one byte or an odd group list */
    NORRABIST_LENGTH_VALUE = 4,
    /* ServerHello version not listed */
    NORRABIST_TAG = 5,
    /* handshake or record type not listed */
    NORRABIST_SWITCH = 6,
    /* record length over MAX_RECORD_LEN, read or to be written */
    NORRABIST_TOO_LARGE = 7,
    /* a part or number to be written breaks a rule */
    NORRABIST_BAD_LENGTH = 8,
    /* the output is too short */
    NORRABIST_NO_ROOM = 9,
    /* a walk past its last message, a list past its last item, a block past its last extension */
    NORRABIST_NO_SUCH = 11,
    /* a message or an extension that is not written */
    NORRABIST_NOT_YET_IMPLEMENTED = 12
};

/* The name of a number of that table, as RULES 1.1 has it; "unknown" for any other. */
static inline const char *norrabist_reason_name(uint8_t number) {
    switch (number) {
    case NORRABIST_ACCEPTED: return "accepted";
    case NORRABIST_INCOMPLETE: return "Incomplete";
    case NORRABIST_COMPLETE: return "Complete";
    case NORRABIST_VERIFY: return "Verify";
    case NORRABIST_LENGTH_VALUE: return "LengthValue";
    case NORRABIST_TAG: return "Tag";
    case NORRABIST_SWITCH: return "Switch";
    case NORRABIST_TOO_LARGE: return "TooLarge";
    case NORRABIST_BAD_LENGTH: return "BadLength";
    case NORRABIST_NO_ROOM: return "NoRoom";
    case NORRABIST_NO_SUCH: return "NoSuch";
    case NORRABIST_NOT_YET_IMPLEMENTED: return "NotYetImplemented";
    default: return "unknown";
    }
}

/* The types of records (RULES 6). */
enum norrabist_record_type {
    NORRABIST_CHANGE_CIPHER_SPEC = 0x14,
    NORRABIST_ALERT = 0x15,
    NORRABIST_HANDSHAKE = 0x16,
    NORRABIST_APPLICATION_DATA = 0x17,
    NORRABIST_HEARTBEAT = 0x18
};

/* The levels of an alert (RULES 6). */
enum norrabist_severity {
    NORRABIST_WARNING = 0x01,
    NORRABIST_FATAL = 0x02
};

/* The types of a heartbeat (RULES 6). */
enum norrabist_heartbeat_type {
    NORRABIST_HEART_BEAT_REQUEST = 0x01,
    NORRABIST_HEART_BEAT_RESPONSE = 0x02
};

/* The versions of which a ServerHello is read (RULES 3). */
enum norrabist_version {
    NORRABIST_SSL30 = 0x0300,
    NORRABIST_TLS10 = 0x0301,
    NORRABIST_TLS11 = 0x0302,
    NORRABIST_TLS12 = 0x0303,
    NORRABIST_TLS13_DRAFT18 = 0x7f12
};

/* The kinds of handshake messages (RULES 5), by their types on the wire; the ServerHello of draft
   18, which has the type SERVER_HELLO, by its version. The comment of a kind is the function that
   reads its body, without norrabist_; a body that none reads is opened whatever it has. */
enum norrabist_kind {
    /* none */
    NORRABIST_HELLO_REQUEST = 0x00,
    /* parse_tls_handshake_client_hello */
    NORRABIST_CLIENT_HELLO = 0x01,
    /* parse_tls_handshake_msg_server_hello */
    NORRABIST_SERVER_HELLO = 0x02,
    /* parse_tls_handshake_msg_newsessionticket */
    NORRABIST_NEW_SESSION_TICKET = 0x04,
    /* none */
    NORRABIST_END_OF_EARLY_DATA = 0x05,
    /* parse_tls_handshake_msg_hello_retry_request */
    NORRABIST_HELLO_RETRY_REQUEST = 0x06,
    /* parse_tls_handshake_msg_certificate */
    NORRABIST_CERTIFICATE = 0x0b,
    /* take_body */
    NORRABIST_SERVER_KEY_EXCHANGE = 0x0c,
    /* parse_tls_handshake_certificaterequest */
    NORRABIST_CERTIFICATE_REQUEST = 0x0d,
    /* take_body */
    NORRABIST_SERVER_DONE = 0x0e,
    /* take_body */
    NORRABIST_CERTIFICATE_VERIFY = 0x0f,
    /* take_body */
    NORRABIST_CLIENT_KEY_EXCHANGE = 0x10,
    /* take_body */
    NORRABIST_FINISHED = 0x14,
    /* parse_tls_handshake_certificatestatus */
    NORRABIST_CERTIFICATE_STATUS = 0x16,
    /* parse_tls_handshake_msg_key_update */
    NORRABIST_KEY_UPDATE = 0x18,
    /* parse_tls_handshake_next_protocol */
    NORRABIST_NEXT_PROTOCOL = 0x43,
    /* parse_tls_handshake_msg_server_hello */
    NORRABIST_SERVER_HELLO_V13_DRAFT18 = NORRABIST_TLS13_DRAFT18
};

/* The types of the extensions that are opened and written (RULES 11); any other is told as it
   stands. */
enum norrabist_extension_type {
    /* a list of server names */
    NORRABIST_EXT_SERVER_NAME = 0x0000,
    /* one byte: 1 to 4 for 512 to 4,096 bytes, but any value is taken */
    NORRABIST_EXT_MAX_FRAGMENT_LENGTH = 0x0001,
    /* a list of groups, each a number */
    NORRABIST_EXT_SUPPORTED_GROUPS = 0x000a
};

/* The type of a server name (RULES 11). Any other is taken too. */
enum norrabist_name_type {
    NORRABIST_HOST_NAME = 0x00
};

/* The readers that norrabist_refusal asks besides those of bodies, which have their types (enum
   norrabist_kind) for numbers. */
enum norrabist_reader {
    /* norrabist_parse_tls_record_header */
    NORRABIST_READER_RECORD_HEADER = 0x0100,
    /* norrabist_parse_tls_raw_record */
    NORRABIST_READER_RAW_RECORD = 0x0101,
    /* a record with its first message, body included */
    NORRABIST_READER_PLAINTEXT = 0x0102,
    /* the message at a byte, body included */
    NORRABIST_READER_MESSAGE = 0x0103,
    /* the walk over the content of a record of type HANDSHAKE, at a byte */
    NORRABIST_READER_WALK = 0x0104,
    /* norrabist_parse_tls_handshake_server_hello */
    NORRABIST_READER_SERVER_HELLO = 0x0105,
    /* norrabist_tls_parser_many */
    NORRABIST_READER_MANY = 0x0106,
    /* norrabist_parse_tls_message_changecipherspec */
    NORRABIST_READER_CHANGE_CIPHER_SPEC = 0x0107,
    /* norrabist_parse_tls_message_alert */
    NORRABIST_READER_ALERT = 0x0108,
    /* norrabist_parse_tls_message_heartbeat */
    NORRABIST_READER_HEARTBEAT = 0x0109,
    /* norrabist_parse_tls_handshake_client_hello_strict */
    NORRABIST_READER_CLIENT_HELLO_STRICT = 0x010a,
    /* plus the type of a record: its content with the first message, body included */
    NORRABIST_READER_CONTENT = 0x0200
};

/* The forms of a ClientKeyExchange. One that was read is FORM_UNKNOWN. */
enum norrabist_form {
    /* the whole body, as it is */
    NORRABIST_FORM_UNKNOWN = 0,
    /* Diffie-Hellman: written behind a length of 2 bytes */
    NORRABIST_FORM_DH = 1,
    /* elliptic curve: written behind a length of 1 byte */
    NORRABIST_FORM_ECDH = 2
};

/* Lengths: those that are set, limits, and how many bytes stand before a part that always begins at
   the same place. */
enum norrabist_length {
    /* a record's type, version and length; its content begins there */
    NORRABIST_RECORD_HEADER_LEN = 5,
    /* a message's type and length; its body begins there */
    NORRABIST_MESSAGE_HEAD_LEN = 4,
    /* the random of a hello */
    NORRABIST_RANDOM_LEN = 32,
    /* a cipher, a signature pair, a group */
    NORRABIST_NUMBER_LEN = 2,
    /* an alert: level and description */
    NORRABIST_ALERT_LEN = 2,
    /* the padding of a heartbeat, at least */
    NORRABIST_MIN_PADDING_LEN = 16,
    /* the content of a record, at most */
    NORRABIST_MAX_RECORD_LEN = 0x4100,
    /* a session id */
    NORRABIST_MAX_ID_LEN = 32,
    /* the lifetime hint of a NewSessionTicket */
    NORRABIST_LIFETIME_LEN = 4,
    /* the ciphers of a hello, an even number of bytes */
    NORRABIST_MAX_CIPHERS_LEN = 0xfffe,
    /* the methods of a hello */
    NORRABIST_MAX_METHODS_LEN = 0xff,
    /* the extensions of a hello */
    NORRABIST_MAX_EXT_LEN = 0xffff,
    /* the server names or groups of an extension: two bytes of it are their length */
    NORRABIST_MAX_EXT_LIST_LEN = 0xfffd,
    /* a server name */
    NORRABIST_MAX_NAME_LEN = 0xffff,
    /* a row that norrabist_gen_tls_extensions is lent */
    NORRABIST_ROW_LEN = 10,
    /* a key exchange of FORM_DH */
    NORRABIST_MAX_DH_LEN = 0xffff,
    /* a key exchange of FORM_ECDH */
    NORRABIST_MAX_ECDH_LEN = 0xff,
    /* a key exchange of FORM_UNKNOWN, a Finished, any body */
    NORRABIST_MAX_BODY_LEN = 0xffffff,
    /* the body of a ClientHello up to its tail (RULES 7.9) */
    NORRABIST_MAX_CLIENT_HELLO_LEN = 131396,
    /* in a record of type HANDSHAKE: the body of its first message */
    NORRABIST_FIRST_BODY_AT = 9,
    /* in a heartbeat: the payload */
    NORRABIST_PAYLOAD_AT = 3,
    /* in a body: the random of a hello */
    NORRABIST_RANDOM_AT = 2,
    /* the session id of a ClientHello or ServerHello */
    NORRABIST_ID_AT = 35,
    /* the extensions of a ServerHello of draft 18 */
    NORRABIST_DRAFT18_EXT_AT = 38,
    /* the extensions of a HelloRetryRequest */
    NORRABIST_RETRY_EXT_AT = 6,
    /* the ticket of a NewSessionTicket, behind its length */
    NORRABIST_TICKET_AT = 6,
    /* the list of a Certificate */
    NORRABIST_CHAIN_AT = 3,
    /* the types of a CertificateRequest */
    NORRABIST_TYPES_AT = 1,
    /* the response of a CertificateStatus */
    NORRABIST_BLOB_AT = 4,
    /* the protocol of a NextProtocol */
    NORRABIST_PROTOCOL_AT = 1,
    /* in what norrabist_gen_tls_extensions writes: the block, behind its length */
    NORRABIST_BLOCK_AT = 2
};

NORRABIST_HAS_SIZE(size_t, 8);

/* ---- Records ---- */

/* A record's header: version, length of the content and type. The content begins at byte
   RECORD_HEADER_LEN. */
typedef struct norrabist_record_head_told {
    uint16_t version;
    uint16_t len;
    uint8_t record_type;
    uint8_t number;
} norrabist_record_head_told;
NORRABIST_HAS_SIZE(norrabist_record_head_told, 6);

/* Where the next record begins, of a record that is all there. */
static inline size_t norrabist_record_head_next(norrabist_record_head_told told) {
    return (size_t)NORRABIST_RECORD_HEADER_LEN + told.len;
}

/* The header at the front. The length is told as it stands, over MAX_RECORD_LEN too, and no content
   is looked for.
   Refuses: INCOMPLETE. */
norrabist_record_head_told norrabist_parse_tls_record_header(const uint8_t *i, size_t i_len);

/* The record at the front, of any type, encrypted or not.
   Refuses: INCOMPLETE, TOO_LARGE. */
norrabist_record_head_told norrabist_parse_tls_raw_record(const uint8_t *i, size_t i_len);

/* A record that can be opened: version, length of the content, which begins at byte
   RECORD_HEADER_LEN, and type. Of the type HANDSHAKE also the first message's length of the body,
   which begins at byte FIRST_BODY_AT, and its type; of the others both are 0, which HELLO_REQUEST
   is too. */
typedef struct norrabist_plaintext_head_told {
    uint16_t version;
    uint16_t len;
    uint16_t body;
    uint8_t record_type;
    uint8_t msg_type;
    uint8_t number;
} norrabist_plaintext_head_told;
NORRABIST_HAS_SIZE(norrabist_plaintext_head_told, 10);

/* Where the next record begins. */
static inline size_t norrabist_plaintext_head_next(norrabist_plaintext_head_told told) {
    return (size_t)NORRABIST_RECORD_HEADER_LEN + told.len;
}

/* The record at the front. One of the types CHANGE_CIPHER_SPEC, ALERT, APPLICATION_DATA and
   HEARTBEAT is accepted, with its first message. One of the type HANDSHAKE is read up to its first
   message's body; the type of that is a listed one. It is accepted where the reader of the body
   accepts too, which is also where norrabist_count_messages counts a message in its content. Where
   the reader of the body refuses, norrabist_refusal with READER_PLAINTEXT tells the record's
   refusal, COMPLETE for INCOMPLETE.

   Behind a ChangeCipherSpec the records of its direction are encrypted as a rule, which no single
   record shows: norrabist_parse_tls_raw_record takes them.
   Refuses: INCOMPLETE, TOO_LARGE; SWITCH, of the record's type; COMPLETE, where the first message
   is not all there, but INCOMPLETE of a heartbeat, LENGTH_VALUE, of its bytes, SWITCH, of its
   type. */
norrabist_plaintext_head_told norrabist_parse_tls_plaintext(const uint8_t *i, size_t i_len);

/* A record's content that can be opened: of the type HANDSHAKE the first message's length of the
   body, which begins at byte MESSAGE_HEAD_LEN, and its type; of the others both are 0. */
typedef struct norrabist_content_head_told {
    uint32_t body;
    uint8_t msg_type;
    uint8_t number;
} norrabist_content_head_told;
NORRABIST_HAS_SIZE(norrabist_content_head_told, 8);

/* All of `content` as the content of a record of that type, read as norrabist_parse_tls_plaintext
   reads it behind the header. Where the reader of the first message's body refuses,
   norrabist_refusal tells the refusal, with READER_CONTENT plus the type.
   Refuses: SWITCH, of the record's type; COMPLETE, where the first message is not all there, but
   INCOMPLETE of a heartbeat, LENGTH_VALUE, of its bytes, SWITCH, of its type. */
norrabist_content_head_told norrabist_parse_tls_record_with_header(
    uint8_t record_type, const uint8_t *content, size_t content_len);

/* Joined records: how many there are, and where reading stopped. */
typedef struct norrabist_records_told {
    size_t count;
    size_t end;
} norrabist_records_told;
NORRABIST_HAS_SIZE(norrabist_records_told, 16);

/* Joined records that can be opened, up to the first that is refused. Each begins where the one
   before it ends; one with bytes in no message is opened, and reading goes on behind it. Where the
   first is refused, both are 0, and norrabist_refusal with READER_MANY tells the refusal, COMPLETE
   for INCOMPLETE; why a later one is, which begins at `end`, READER_PLAINTEXT tells of the bytes
   from there on.
   Refuses nothing. */
norrabist_records_told norrabist_tls_parser_many(const uint8_t *i, size_t i_len);

/* ---- Messages ---- */

/* A handshake message's head: where the next message begins, the length of the body, which ends
   there, and the type, a listed one. */
typedef struct norrabist_message_head_told {
    size_t next;
    uint32_t body;
    uint8_t msg_type;
    uint8_t number;
} norrabist_message_head_told;
NORRABIST_HAS_SIZE(norrabist_message_head_told, 16);

/* Where the body begins: MESSAGE_HEAD_LEN bytes behind the place where the message does. */
static inline size_t norrabist_message_head_body(norrabist_message_head_told told) {
    return told.next - told.body;
}

/* The head of the message that begins at byte `at` of `s`. What the body's reader refuses is not
   looked for: a walk over a record's content ends where this or the body's reader refuses, which
   norrabist_count_messages tells, and of one message norrabist_refusal with READER_WALK.
   Refuses: INCOMPLETE, where the message is not all there, then SWITCH. */
norrabist_message_head_told norrabist_parse_tls_message_head(
    const uint8_t *s, size_t s_len, size_t at);

/* The messages of a content: how many there are, and where the last one ends. */
typedef struct norrabist_tally_told {
    size_t count;
    size_t end;
} norrabist_tally_told;
NORRABIST_HAS_SIZE(norrabist_tally_told, 16);

/* Counts the handshake messages of a record's content from byte `from` on, up to the first that is
   refused, by its head or by its body. Each begins where the one before it ends, and `end` is
   `from` where there is none: the bytes from `end` on are dropped.
   Refuses nothing. */
norrabist_tally_told norrabist_count_messages(const uint8_t *s, size_t s_len, size_t from);

/* Counts the messages of the content of a record of that type, up to the first that is refused.
   Each begins where the one before it ends, and `end` is 0 where there is none: the bytes from
   `end` on are dropped. One of APPLICATION_DATA or HEARTBEAT is all of the content. A type that is
   none of enum norrabist_record_type has no messages.
   Refuses nothing. */
norrabist_tally_told norrabist_count_contents(uint8_t record_type, const uint8_t *s, size_t s_len);

/* Where the alert at a place of a content begins, counted from 0, for places under the count: its
   level stands there, its description behind that. */
static inline size_t norrabist_alert_start(size_t place) {
    return place * NORRABIST_ALERT_LEN;
}

/* ---- Messages that are not handshake messages (RULES 6) ----
   Application data has no function: it is all of its record's content, also where that is empty. */

/* The ChangeCipherSpec at the front, one byte. Answers the number.
   Refuses: INCOMPLETE, then LENGTH_VALUE, where it is not 1. */
uint8_t norrabist_parse_tls_message_changecipherspec(const uint8_t *i, size_t i_len);

/* An alert: its level, of enum norrabist_severity, and its description, any byte. */
typedef struct norrabist_alert_told {
    uint8_t severity;
    uint8_t code;
    uint8_t number;
} norrabist_alert_told;
NORRABIST_HAS_SIZE(norrabist_alert_told, 3);

/* The alert at the front, ALERT_LEN bytes.
   Refuses: INCOMPLETE, for the level, LENGTH_VALUE, where that is not 1 or 2, INCOMPLETE, for the
   description. */
norrabist_alert_told norrabist_parse_tls_message_alert(const uint8_t *i, size_t i_len);

/* A heartbeat: the length of the payload, which begins at byte PAYLOAD_AT, and the type, of enum
   norrabist_heartbeat_type. */
typedef struct norrabist_heartbeat_told {
    uint16_t payload;
    uint8_t heartbeat_type;
    uint8_t number;
} norrabist_heartbeat_told;
NORRABIST_HAS_SIZE(norrabist_heartbeat_told, 4);

/* Where the padding begins, which goes to the heartbeat's end. */
static inline size_t norrabist_heartbeat_padding(norrabist_heartbeat_told told) {
    return (size_t)NORRABIST_PAYLOAD_AT + told.payload;
}

/* The heartbeat that the first `len` bytes of `i` are; of a record, `len` is that of its content.
   Refuses: INCOMPLETE, where there are fewer than `len` bytes, or `len` is under PAYLOAD_AT; then
   LENGTH_VALUE, where the type is not 1 or 2, or the payload leaves under MIN_PADDING_LEN bytes. */
norrabist_heartbeat_told norrabist_parse_tls_message_heartbeat(
    const uint8_t *i, size_t i_len, uint16_t len);

/* ---- Bodies of hellos ---- */

/* A ClientHello's body: version, and the lengths of the ciphers, extensions, methods and session
   id. The random begins at byte RANDOM_AT, the id at ID_AT; an id of length 0 is absent. Extensions
   that are absent have `has_ext` false and the length 0. */
typedef struct norrabist_client_hello_told {
    uint16_t version;
    uint16_t ciphers;
    uint16_t ext;
    uint8_t comp;
    uint8_t session_id;
    bool has_ext;
    uint8_t number;
} norrabist_client_hello_told;
NORRABIST_HAS_SIZE(norrabist_client_hello_told, 10);

/* Where the ciphers begin: behind the id and their length. */
static inline size_t norrabist_client_hello_ciphers(norrabist_client_hello_told told) {
    return (size_t)NORRABIST_ID_AT + told.session_id + 2;
}

/* Where the methods begin: behind the ciphers and their length. */
static inline size_t norrabist_client_hello_comp(norrabist_client_hello_told told) {
    return norrabist_client_hello_ciphers(told) + told.ciphers + 1;
}

/* Where the methods end, and with them what every ClientHello has. */
static inline size_t norrabist_client_hello_end(norrabist_client_hello_told told) {
    return norrabist_client_hello_comp(told) + told.comp;
}

/* Where the extensions begin, if there are any. */
static inline size_t norrabist_client_hello_ext(norrabist_client_hello_told told) {
    return norrabist_client_hello_end(told) + 2;
}

/* Where the tail begins. */
static inline size_t norrabist_client_hello_tail(norrabist_client_hello_told told) {
    return norrabist_client_hello_end(told) + (told.has_ext ? (size_t)2 + told.ext : 0);
}

/* The body of a ClientHello.
   Refuses: INCOMPLETE, VERIFY, LENGTH_VALUE. */
norrabist_client_hello_told norrabist_parse_tls_handshake_client_hello(
    const uint8_t *i, size_t i_len);

/* The body of a ClientHello that matches RFC 5246 7.4.1.2 exactly: it has ciphers and methods, and
   nothing follows it. What it takes, the plain reader above takes too, and tells the same of it.
   Refuses: INCOMPLETE, VERIFY, LENGTH_VALUE, as that one does; then LENGTH_VALUE of a body that
   that one takes, where it has no ciphers, no methods or a byte behind it, in this order. Which of
   the three it is the plain reader tells: `ciphers` is 0, `comp` is 0, or
   norrabist_client_hello_tail is under `i_len`. */
norrabist_client_hello_told norrabist_parse_tls_handshake_client_hello_strict(
    const uint8_t *i, size_t i_len);

/* A ServerHello's body: version, cipher, the length of the extensions, compression, and the length
   of the session id. The random begins at byte RANDOM_AT, the id at ID_AT; an id of length 0 is
   absent. Extensions that are absent have `has_ext` false and the length 0. At the version
   TLS13_DRAFT18 there is neither id nor compression: both are 0 and mean nothing. */
typedef struct norrabist_server_hello_told {
    uint16_t version;
    uint16_t cipher;
    uint16_t ext;
    uint8_t compression;
    uint8_t session_id;
    bool has_ext;
    uint8_t number;
} norrabist_server_hello_told;
NORRABIST_HAS_SIZE(norrabist_server_hello_told, 10);

/* Where the compression ends, or in draft 18 the cipher, and with it what every ServerHello has. */
static inline size_t norrabist_server_hello_end(norrabist_server_hello_told told) {
    return told.version == NORRABIST_TLS13_DRAFT18 ? (size_t)NORRABIST_DRAFT18_EXT_AT - 2
                                                   : (size_t)NORRABIST_ID_AT + told.session_id + 3;
}

/* Where the extensions begin, if there are any. */
static inline size_t norrabist_server_hello_ext(norrabist_server_hello_told told) {
    return norrabist_server_hello_end(told) + 2;
}

/* Where the tail begins. */
static inline size_t norrabist_server_hello_tail(norrabist_server_hello_told told) {
    return norrabist_server_hello_end(told) + (told.has_ext ? (size_t)2 + told.ext : 0);
}

/* The body of a ServerHello of SSL30 to TLS12; that of draft 18 is TAG here.
   Refuses: INCOMPLETE, TAG, VERIFY. */
norrabist_server_hello_told norrabist_parse_tls_handshake_server_hello(
    const uint8_t *i, size_t i_len);

/* The body of a message of type SERVER_HELLO: the same, or at TLS13_DRAFT18 that of draft 18.
   Refuses: INCOMPLETE, TAG, VERIFY. */
norrabist_server_hello_told norrabist_parse_tls_handshake_msg_server_hello(
    const uint8_t *i, size_t i_len);

/* A HelloRetryRequest's body: version, cipher, and the length of the extensions, which begin at
   byte RETRY_EXT_AT. Extensions that are absent have `has_ext` false and the length 0. */
typedef struct norrabist_hello_retry_request_told {
    uint16_t version;
    uint16_t cipher;
    uint16_t ext;
    bool has_ext;
    uint8_t number;
} norrabist_hello_retry_request_told;
NORRABIST_HAS_SIZE(norrabist_hello_retry_request_told, 8);

/* Where the tail begins. */
static inline size_t norrabist_hello_retry_request_tail(norrabist_hello_retry_request_told told) {
    return (size_t)NORRABIST_RETRY_EXT_AT - 2 + (told.has_ext ? (size_t)2 + told.ext : 0);
}

/* The body of a HelloRetryRequest.
   Refuses: INCOMPLETE. */
norrabist_hello_retry_request_told norrabist_parse_tls_handshake_msg_hello_retry_request(
    const uint8_t *i, size_t i_len);

/* ---- Other bodies ---- */

/* A NewSessionTicket's body: the length of the ticket, which begins at byte TICKET_AT, and the
   lifetime hint. */
typedef struct norrabist_new_session_ticket_told {
    size_t ticket;
    uint32_t hint;
    uint8_t number;
} norrabist_new_session_ticket_told;
NORRABIST_HAS_SIZE(norrabist_new_session_ticket_told, 16);

/* Where the tail begins. */
static inline size_t norrabist_new_session_ticket_tail(norrabist_new_session_ticket_told told) {
    return (size_t)NORRABIST_TICKET_AT + told.ticket;
}

/* The body of a NewSessionTicket, the first `len` bytes of `i`.
   Refuses: VERIFY, where `len` is under LIFETIME_LEN, then INCOMPLETE, then LENGTH_VALUE, where the
   ticket's length is missing from these bytes or unlike the bytes after it. What stands behind them
   is not looked at. */
norrabist_new_session_ticket_told norrabist_parse_tls_handshake_msg_newsessionticket(
    const uint8_t *i, size_t i_len, size_t len);

/* A Certificate's body: the length of the list of certificates, which begins at byte CHAIN_AT. */
typedef struct norrabist_certificate_told {
    uint32_t chain;
    uint8_t number;
} norrabist_certificate_told;
NORRABIST_HAS_SIZE(norrabist_certificate_told, 8);

/* Where the tail begins. */
static inline size_t norrabist_certificate_tail(norrabist_certificate_told told) {
    return (size_t)NORRABIST_CHAIN_AT + told.chain;
}

/* The body of a Certificate; norrabist_certificate_at reads the list.
   Refuses: INCOMPLETE. */
norrabist_certificate_told norrabist_parse_tls_handshake_msg_certificate(
    const uint8_t *i, size_t i_len);

/* A CertificateRequest's body: the lengths of the signature pairs, of the list of names and of the
   types, which begin at byte TYPES_AT and have one byte each. The short form has no pairs:
   `has_pairs` is false and their length 0. */
typedef struct norrabist_certificate_request_told {
    uint16_t pairs;
    uint16_t names;
    uint8_t types;
    bool has_pairs;
    uint8_t number;
} norrabist_certificate_request_told;
NORRABIST_HAS_SIZE(norrabist_certificate_request_told, 8);

/* Where the signature pairs begin, if there are any. */
static inline size_t norrabist_certificate_request_pairs(norrabist_certificate_request_told told) {
    return (size_t)NORRABIST_TYPES_AT + told.types + 2;
}

/* Where the list of names begins. */
static inline size_t norrabist_certificate_request_names(norrabist_certificate_request_told told) {
    return norrabist_certificate_request_pairs(told) +
           (told.has_pairs ? (size_t)told.pairs + 2 : 0);
}

/* Where the tail begins. */
static inline size_t norrabist_certificate_request_tail(norrabist_certificate_request_told told) {
    return norrabist_certificate_request_names(told) + told.names;
}

/* The body of a CertificateRequest, in the long form or else in the short one; norrabist_number_at
   reads the pairs and norrabist_name_at the names.
   Refuses: COMPLETE. */
norrabist_certificate_request_told norrabist_parse_tls_handshake_certificaterequest(
    const uint8_t *i, size_t i_len);

/* A CertificateStatus's body: the length of the response, which begins at byte BLOB_AT, and its
   type. */
typedef struct norrabist_certificate_status_told {
    uint32_t blob;
    uint8_t status_type;
    uint8_t number;
} norrabist_certificate_status_told;
NORRABIST_HAS_SIZE(norrabist_certificate_status_told, 8);

/* Where the tail begins. */
static inline size_t norrabist_certificate_status_tail(norrabist_certificate_status_told told) {
    return (size_t)NORRABIST_BLOB_AT + told.blob;
}

/* The body of a CertificateStatus.
   Refuses: INCOMPLETE. */
norrabist_certificate_status_told norrabist_parse_tls_handshake_certificatestatus(
    const uint8_t *i, size_t i_len);

/* A NextProtocol's body: the lengths of the protocol, which begins at byte PROTOCOL_AT, and of the
   padding. */
typedef struct norrabist_next_protocol_told {
    uint8_t protocol;
    uint8_t padding;
    uint8_t number;
} norrabist_next_protocol_told;
NORRABIST_HAS_SIZE(norrabist_next_protocol_told, 3);

/* Where the padding begins: behind the protocol and its length. */
static inline size_t norrabist_next_protocol_padding(norrabist_next_protocol_told told) {
    return (size_t)NORRABIST_PROTOCOL_AT + told.protocol + 1;
}

/* Where the tail begins. */
static inline size_t norrabist_next_protocol_tail(norrabist_next_protocol_told told) {
    return norrabist_next_protocol_padding(told) + told.padding;
}

/* The body of a NextProtocol.
   Refuses: INCOMPLETE. */
norrabist_next_protocol_told norrabist_parse_tls_handshake_next_protocol(
    const uint8_t *i, size_t i_len);

/* A KeyUpdate's body: its one byte. */
typedef struct norrabist_key_update_told {
    uint8_t request;
    uint8_t number;
} norrabist_key_update_told;
NORRABIST_HAS_SIZE(norrabist_key_update_told, 2);

/* The body of a KeyUpdate; the tail begins at byte 1.
   Refuses: INCOMPLETE. */
norrabist_key_update_told norrabist_parse_tls_handshake_msg_key_update(
    const uint8_t *i, size_t i_len);

/* A body that is handed out whole, the first `len` bytes of `i`: SERVER_KEY_EXCHANGE, SERVER_DONE,
   CERTIFICATE_VERIFY, CLIENT_KEY_EXCHANGE, FINISHED. A body as norrabist_parse_tls_message_head
   tells of it is there; this is for a length from elsewhere. Answers the number.
   Refuses: INCOMPLETE. */
uint8_t norrabist_take_body(const uint8_t *i, size_t i_len, size_t len);

/* ---- Lists ---- */

/* An item behind its length: where it begins in the list, and its length. */
typedef struct norrabist_item_told {
    size_t start;
    uint32_t len;
    uint8_t number;
} norrabist_item_told;
NORRABIST_HAS_SIZE(norrabist_item_told, 16);

/* Where the next item's length stands. */
static inline size_t norrabist_item_next(norrabist_item_told told) {
    return told.start + told.len;
}

/* The certificate whose length stands at byte `at` of a Certificate's list: that of the first at 0,
   of each other where the one before it ends. What holds no item at the list's end is no refusal of
   the body.
   Refuses: NO_SUCH, where none fits. */
norrabist_item_told norrabist_certificate_at(const uint8_t *list, size_t list_len, size_t at);

/* The name whose length stands at byte `at` of a CertificateRequest's names, the same way.
   Refuses: NO_SUCH, where none fits. */
norrabist_item_told norrabist_name_at(const uint8_t *list, size_t list_len, size_t at);

/* An item that is a number of two bytes. */
typedef struct norrabist_number_told {
    uint16_t value;
    uint8_t number;
} norrabist_number_told;
NORRABIST_HAS_SIZE(norrabist_number_told, 4);

/* How many numbers a list of so many bytes has; an odd byte at the end is none. */
static inline size_t norrabist_number_count(size_t list_len) {
    return list_len / NORRABIST_NUMBER_LEN;
}

/* The cipher, the signature pair or the group at a place of its list, counted from 0.
   Refuses: NO_SUCH, past the last. */
norrabist_number_told norrabist_number_at(const uint8_t *list, size_t list_len, size_t place);

/* ---- Extensions (RULES 11) ----
   A block is the extensions of a hello, without their length: `ext` bytes of its body, where
   norrabist_client_hello_ext or its like says, if `has_ext`. It is taken whole or not at all: of a
   damaged one nothing is told but which extension is the first bad one. */

/* The extensions of a block: how many there are. Where the number is LENGTH_VALUE, `items` is the
   index of the first bad one, counted from 0, which is how many good ones stand before it. */
typedef struct norrabist_extensions_told {
    size_t items;
    uint8_t number;
} norrabist_extensions_told;
NORRABIST_HAS_SIZE(norrabist_extensions_told, 16);

/* All of a block. A server that took the name says so by a SERVER_NAME without data (RFC 6066 3),
   the bytes 00 00 00 00, which is refused with its index: who wants the others of such a block
   reads what stands before and behind these bytes as blocks of their own.
   Refuses: LENGTH_VALUE, for type, length or data cut off; for names or groups whose length is
   missing or unlike what follows it, names that do not fill their list, an odd number of group
   bytes; for a fragment length that is not of one byte. */
norrabist_extensions_told norrabist_parse_tls_extensions(const uint8_t *block, size_t block_len);

/* An extension: where its content begins in the block, its type, and how long the content is. The
   content of EXT_SERVER_NAME and EXT_SUPPORTED_GROUPS is the list without its length, which
   norrabist_server_name_from and norrabist_number_at read; of EXT_MAX_FRAGMENT_LENGTH it is the
   byte, of any other type the data. */
typedef struct norrabist_extension_told {
    size_t start;
    uint16_t ext_type;
    uint16_t len;
    uint8_t number;
} norrabist_extension_told;
NORRABIST_HAS_SIZE(norrabist_extension_told, 16);

/* Where the next extension begins: where the content ends. */
static inline size_t norrabist_extension_next(norrabist_extension_told told) {
    return told.start + told.len;
}

/* The extension that begins at byte `at` of a block: the first at 0, each other where the one
   before it ends. At 0 the whole block is looked at, so a walk from there hands out nothing of a
   damaged one; at any other byte only what begins there is.
   Refuses: LENGTH_VALUE, at 0, where the block is damaged; NO_SUCH, where none begins there. */
norrabist_extension_told norrabist_extension_from(
    const uint8_t *block, size_t block_len, size_t at);

/* The extension at a place of a block, counted from 0. The whole block is looked at, and walked
   again up to the place: norrabist_extension_from is the shorter way through all of them.
   Refuses: LENGTH_VALUE, where the block is damaged; then NO_SUCH, past the last. */
norrabist_extension_told norrabist_extension_at(
    const uint8_t *block, size_t block_len, size_t place);

/* A server name: where it begins in its list, how long it is, and its type, any byte. */
typedef struct norrabist_server_name_told {
    size_t start;
    uint16_t len;
    uint8_t name_type;
    uint8_t number;
} norrabist_server_name_told;
NORRABIST_HAS_SIZE(norrabist_server_name_told, 16);

/* Where the next server name's type stands: where the name ends. */
static inline size_t norrabist_server_name_next(norrabist_server_name_told told) {
    return told.start + told.len;
}

/* The server name whose type stands at byte `at` of a list of them: that of the first at 0, of each
   other where the one before it ends. In the content of an extension that was told, they fill it.
   Refuses: NO_SUCH, where none fits. */
norrabist_server_name_told norrabist_server_name_from(
    const uint8_t *list, size_t list_len, size_t at);

/* ---- Refusals ---- */

/* All that a refusal carries. It may grow at its end, with the version: no other struct does. */
typedef struct norrabist_refusal_told {
    uint8_t number;
} norrabist_refusal_told;
NORRABIST_HAS_SIZE(norrabist_refusal_told, 1);

/* What the refusal of a reader carries, of the same bytes; ACCEPTED where it does not refuse. Not
   for the way that is taken often: it reads again. `reader` is a type of enum norrabist_kind, for
   the reader of such a body, where `n` is the body's length (looked at for NEW_SESSION_TICKET and
   the kinds of norrabist_take_body; give `i_len`), or one of enum norrabist_reader, where `n` is
   the byte at which the message of READER_MESSAGE or READER_WALK begins, the length that
   READER_HEARTBEAT is handed, modulo 2^16, and 0 else.
   Refuses: what that reader does; NO_SUCH of READER_WALK for whatever refusal; SWITCH, for a type
   that is not listed and any other number. */
norrabist_refusal_told norrabist_refusal(
    uint16_t reader, const uint8_t *i, size_t i_len, size_t n);

/* ---- Writers (RULES 7) ----
   Where the number is ACCEPTED, `count` bytes at the front of `out` are the text; else `out` is as
   it was. Bytes of `out` behind the text are left alone. `count` is the text's length where it is
   NO_ROOM too: an `out_len` of 0 asks for it. It is 0 at any other refusal. Every length is checked
   before a byte is written. A hello's part of length 0 is one that is absent: an id is written as
   00 then, extensions as 00 00. The writers of extensions (RULES 11) are the last three. */

/* What was written. */
typedef struct norrabist_wrote {
    size_t count;
    uint8_t number;
} norrabist_wrote;
NORRABIST_HAS_SIZE(norrabist_wrote, 16);

/* A message ClientHello.
   Refuses: BAD_LENGTH, for a random that is not RANDOM_LEN bytes, an odd number of cipher bytes and
   a part over its limit; then NO_ROOM. */
norrabist_wrote norrabist_gen_tls_clienthello(
    uint16_t version, const uint8_t *random, size_t random_len, const uint8_t *session_id,
    size_t session_id_len, const uint8_t *ciphers, size_t ciphers_len, const uint8_t *comp,
    size_t comp_len, const uint8_t *ext, size_t ext_len, uint8_t *out, size_t out_len);

/* A message ServerHello, of any version.
   Refuses: BAD_LENGTH, for a random that is not RANDOM_LEN bytes and a part over its limit; then
   NO_ROOM. */
norrabist_wrote norrabist_gen_tls_serverhello(
    uint16_t version, const uint8_t *random, size_t random_len, const uint8_t *session_id,
    size_t session_id_len, uint16_t cipher, uint8_t compression, const uint8_t *ext, size_t ext_len,
    uint8_t *out, size_t out_len);

/* A message ServerHello in the form of draft 18, of any version.
   Refuses: BAD_LENGTH, for a random that is not RANDOM_LEN bytes and extensions over their limit;
   then NO_ROOM. */
norrabist_wrote norrabist_gen_tls_serverhellodraft18(
    uint16_t version, const uint8_t *random, size_t random_len, uint16_t cipher, const uint8_t *ext,
    size_t ext_len, uint8_t *out, size_t out_len);

/* A message ClientKeyExchange; `form` is of enum norrabist_form.
   Refuses: BAD_LENGTH, for any other form and a part over its limit; then NO_ROOM. */
norrabist_wrote norrabist_gen_tls_clientkeyexchange(
    uint8_t form, const uint8_t *part, size_t part_len, uint8_t *out, size_t out_len);

/* A message HelloRequest.
   Refuses: NO_ROOM. */
norrabist_wrote norrabist_gen_tls_hellorequest(uint8_t *out, size_t out_len);

/* A message Finished.
   Refuses: BAD_LENGTH, over MAX_BODY_LEN; then NO_ROOM. */
norrabist_wrote norrabist_gen_tls_finished(
    const uint8_t *part, size_t part_len, uint8_t *out, size_t out_len);

/* A ChangeCipherSpec: the byte 01.
   Refuses: NO_ROOM. */
norrabist_wrote norrabist_gen_tls_changecipherspec(uint8_t *out, size_t out_len);

/* An alert: its level, of enum norrabist_severity, and its description.
   Refuses: BAD_LENGTH, for any other level; then NO_ROOM. */
norrabist_wrote norrabist_gen_tls_alert(
    uint8_t severity, uint8_t code, uint8_t *out, size_t out_len);

/* A record of that type and version round `msg`, which is not opened.
   Refuses: TOO_LARGE, over MAX_RECORD_LEN; then NO_ROOM. */
norrabist_wrote norrabist_gen_tls_plaintext(
    uint8_t record_type, uint16_t version, const uint8_t *msg, size_t msg_len, uint8_t *out,
    size_t out_len);

/* Whether handshake messages of a kind (enum norrabist_kind) are written. Answers the number.
   Refuses: NOT_YET_IMPLEMENTED. */
uint8_t norrabist_kind_written(uint16_t kind);

/* An extension: its type, of enum norrabist_extension_type, and its content behind its length. The
   content is lent as norrabist_extension_told tells it, names and groups without their length,
   which is written.
   Refuses: NOT_YET_IMPLEMENTED, for any other type; then BAD_LENGTH, for names that do not fill the
   list, an odd number of group bytes, a list over MAX_EXT_LIST_LEN, a fragment length that is not
   of one byte; then NO_ROOM. */
norrabist_wrote norrabist_gen_tls_extension(
    uint16_t ext_type, const uint8_t *content, size_t content_len, uint8_t *out, size_t out_len);

/* Sets the ROW_LEN bytes of a row: an extension's type, and where its content begins in the bytes
   that are lent with the rows and how long it is. */
static inline void norrabist_put_row(
    uint8_t *row, uint16_t ext_type, uint32_t start, uint32_t len) {
    int k;

    row[0] = (uint8_t)(ext_type >> 8);
    row[1] = (uint8_t)ext_type;
    for (k = 0; k < 4; k++) {
        row[2 + k] = (uint8_t)(start >> (24 - 8 * k));
        row[6 + k] = (uint8_t)(len >> (24 - 8 * k));
    }
}

/* Extensions behind the length of all of them, as a hello has them; norrabist_gen_tls_clienthello
   and its like write that length too, and are lent the text from byte BLOCK_AT on. `values` is a
   row for each (norrabist_put_row), and `bytes` holds the contents that they name, wherever these
   lie.
   Refuses: NOT_YET_IMPLEMENTED, where any row has another type than norrabist_gen_tls_extension
   writes; then BAD_LENGTH, for bytes behind the last row, a content that lies outside `bytes`, what
   is BAD_LENGTH there, and extensions over MAX_EXT_LEN together; then NO_ROOM. */
norrabist_wrote norrabist_gen_tls_extensions(
    const uint8_t *values, size_t values_len, const uint8_t *bytes, size_t bytes_len, uint8_t *out,
    size_t out_len);

/* An entry of a list of server names: its type, and the name behind its length. Entries one behind
   the other are the content of an EXT_SERVER_NAME.
   Refuses: BAD_LENGTH, over MAX_NAME_LEN; then NO_ROOM. */
norrabist_wrote norrabist_gen_server_name(
    uint8_t name_type, const uint8_t *name, size_t name_len, uint8_t *out, size_t out_len);

#ifdef __cplusplus
}
#endif

#endif
