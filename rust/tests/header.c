/* Calls every function of norrabist.h, in C and in C++, and holds each number and each sum to the
   bytes. Prints what does not hold, then how many facts do. */
#include "norrabist.h"
#include <stdio.h>
#include <string.h>

static unsigned held, failed;

#define HOLDS(fact) holds(fact, __LINE__, #fact)

static void holds(int is, int line, const char *fact) {
    if (is) {
        held++;
    } else {
        failed++;
        printf("line %d: %s\n", line, fact);
    }
}

/* What a hello begins with. */
#define RANDOM                                                                                     \
    0, 1, 2, 3, 4, 5, 6, 7, 8, 9, 10, 11, 12, 13, 14, 15, 16, 17, 18, 19, 20, 21, 22, 23, 24, 25,  \
        26, 27, 28, 29, 30, 31

/* A handshake record of two messages, ClientHello and HelloRequest, with 3 bytes behind them; the
   hello has an extension block that is cut off. */
static const uint8_t FLIGHT[] = {
    0x16, 3, 1, 0, 59, 0x01, 0, 0, 48, 3, 3, RANDOM, 2, 0xaa, 0xbb, 0, 4, 0xc0, 0x2c, 0,
    0x9c, 2, 0, 1, 0, 9, 0x00, 0, 0, 0, 0x01, 0, 0};

static void numbers(void) {
    static const char *const names[] = {
        "accepted", "Incomplete", "Complete", "Verify", "LengthValue", "Tag", "Switch", "TooLarge",
        "BadLength", "NoRoom", "unknown", "NoSuch", "NotYetImplemented", "unknown"};
    uint8_t number;

    for (number = 0; number <= NORRABIST_NOT_YET_IMPLEMENTED + 1; number++)
        HOLDS(strcmp(norrabist_reason_name(number), names[number]) == 0);
    HOLDS(strcmp(norrabist_reason_name(0xff), "unknown") == 0);
    HOLDS(NORRABIST_MAX_CLIENT_HELLO_LEN ==
          NORRABIST_ID_AT + NORRABIST_MAX_ID_LEN + 2 + NORRABIST_MAX_CIPHERS_LEN + 1 +
              NORRABIST_MAX_METHODS_LEN + 2 + NORRABIST_MAX_EXT_LEN);
    HOLDS(NORRABIST_MAX_EXT_LIST_LEN == NORRABIST_MAX_EXT_LEN - 2);
}

static void records(void) {
    static const uint8_t large[] = {0x16, 3, 1, 0x41, 0x01}, unlisted[] = {0x19, 3, 3, 0, 0};
    static const uint8_t cut[] = {0x16, 3, 3, 0, 5, 0x01, 0, 0, 1, 3};
    norrabist_record_head_told header = norrabist_parse_tls_record_header(large, sizeof large);
    norrabist_record_head_told raw = norrabist_parse_tls_raw_record(FLIGHT, sizeof FLIGHT);
    norrabist_plaintext_head_told opened = norrabist_parse_tls_plaintext(FLIGHT, sizeof FLIGHT);

    HOLDS(header.number == NORRABIST_ACCEPTED && header.record_type == NORRABIST_HANDSHAKE);
    HOLDS(header.version == NORRABIST_TLS10 && header.len == NORRABIST_MAX_RECORD_LEN + 1);
    HOLDS(norrabist_parse_tls_record_header(large, 4).number == NORRABIST_INCOMPLETE);
    HOLDS(norrabist_parse_tls_record_header(large, 4).version == 0);
    HOLDS(norrabist_parse_tls_raw_record(large, sizeof large).number == NORRABIST_TOO_LARGE);
    HOLDS(raw.number == NORRABIST_ACCEPTED && raw.record_type == NORRABIST_HANDSHAKE);
    HOLDS(norrabist_record_head_next(raw) == sizeof FLIGHT);
    HOLDS(opened.number == NORRABIST_ACCEPTED && opened.version == NORRABIST_TLS10);
    HOLDS(norrabist_plaintext_head_next(opened) == sizeof FLIGHT);
    HOLDS(opened.record_type == NORRABIST_HANDSHAKE);
    HOLDS(opened.msg_type == NORRABIST_CLIENT_HELLO && opened.body == 48);
    HOLDS(norrabist_parse_tls_plaintext(unlisted, sizeof unlisted).number == NORRABIST_SWITCH);
    /* the first message's body is refused: the record is, with COMPLETE */
    HOLDS(norrabist_parse_tls_plaintext(cut, sizeof cut).number == NORRABIST_ACCEPTED);
    HOLDS(norrabist_refusal(NORRABIST_READER_PLAINTEXT, cut, sizeof cut, 0).number ==
          NORRABIST_COMPLETE);
}

/* Records of the other types, joined: a ChangeCipherSpec; two alerts with a level that is none
   behind them; application data that is empty; a heartbeat with a payload of two bytes. */
static const uint8_t OTHERS[] = {
    0x14, 3, 3, 0, 1, 1, 0x15, 3, 3, 0, 5, 1, 90, 2, 40, 3, 0x17, 3, 3, 0, 0, 0x18, 3, 3,
    0, 21, 1, 0, 2, 0xaa, 0xbb, 0xcc, 0, 0, 0, 0, 0, 0, 0, 0, 0, 0, 0, 0, 0, 0, 0xdd};

/* The record at the front is accepted, of that type and so long; it has no first handshake
   message. Where the next one begins. */
static const uint8_t *other(const uint8_t *left, uint8_t record_type, uint16_t len) {
    const size_t left_len = sizeof OTHERS - (size_t)(left - OTHERS);
    const uint8_t *content = left + NORRABIST_RECORD_HEADER_LEN;
    norrabist_plaintext_head_told record = norrabist_parse_tls_plaintext(left, left_len);
    norrabist_content_head_told behind =
        norrabist_parse_tls_record_with_header(record_type, content, len);

    HOLDS(record.number == NORRABIST_ACCEPTED && record.record_type == record_type);
    HOLDS(record.version == NORRABIST_TLS12 && record.len == len);
    HOLDS(record.body == 0 && record.msg_type == 0);
    HOLDS(behind.number == NORRABIST_ACCEPTED && behind.body == 0 && behind.msg_type == 0);
    return left + norrabist_plaintext_head_next(record);
}

static void other_records(void) {
    static const uint8_t empty[] = {0x14, 3, 3, 0, 0}, level[] = {0x15, 3, 3, 0, 1, 0};
    static const uint8_t two[] = {0x18, 3, 3, 0, 2, 1, 0};
    const uint8_t *alerts = other(OTHERS, NORRABIST_CHANGE_CIPHER_SPEC, 1);
    const uint8_t *data = other(alerts, NORRABIST_ALERT, 5);
    const uint8_t *heartbeat = other(data, NORRABIST_APPLICATION_DATA, 0);
    norrabist_records_told joined = norrabist_tls_parser_many(OTHERS, sizeof OTHERS);
    norrabist_content_head_told behind = norrabist_parse_tls_record_with_header(
        NORRABIST_HANDSHAKE, FLIGHT + NORRABIST_RECORD_HEADER_LEN, 59);

    HOLDS(other(heartbeat, NORRABIST_HEARTBEAT, 21) == OTHERS + sizeof OTHERS);
    HOLDS(joined.count == 4 && joined.end == sizeof OTHERS);
    joined = norrabist_tls_parser_many(OTHERS, sizeof OTHERS - 1);
    HOLDS(joined.count == 3 && joined.end == (size_t)(heartbeat - OTHERS));
    joined = norrabist_tls_parser_many(OTHERS, 5);
    HOLDS(joined.count == 0 && joined.end == 0);
    HOLDS(norrabist_refusal(NORRABIST_READER_MANY, OTHERS, 5, 0).number == NORRABIST_COMPLETE);
    HOLDS(norrabist_refusal(NORRABIST_READER_PLAINTEXT, OTHERS, 5, 0).number ==
          NORRABIST_INCOMPLETE);
    HOLDS(behind.number == NORRABIST_ACCEPTED && behind.body == 48);
    HOLDS(behind.msg_type == NORRABIST_CLIENT_HELLO);
    HOLDS(norrabist_parse_tls_record_with_header(0x19, OTHERS, 1).number == NORRABIST_SWITCH);
    HOLDS(norrabist_parse_tls_plaintext(empty, sizeof empty).number == NORRABIST_COMPLETE);
    HOLDS(norrabist_parse_tls_plaintext(level, sizeof level).number == NORRABIST_LENGTH_VALUE);
    HOLDS(norrabist_parse_tls_plaintext(two, sizeof two).number == NORRABIST_INCOMPLETE);
}

static void other_messages(void) {
    const uint8_t *alerts = OTHERS + 11, *heartbeat = OTHERS + 26;
    norrabist_tally_told tally = norrabist_count_contents(NORRABIST_ALERT, alerts, 5);
    norrabist_alert_told alert =
        norrabist_parse_tls_message_alert(alerts + norrabist_alert_start(1), 2);
    norrabist_heartbeat_told beat = norrabist_parse_tls_message_heartbeat(heartbeat, 21, 21);

    HOLDS(norrabist_parse_tls_message_changecipherspec(OTHERS + 5, 1) == NORRABIST_ACCEPTED);
    HOLDS(norrabist_parse_tls_message_changecipherspec(OTHERS, 1) == NORRABIST_LENGTH_VALUE);
    HOLDS(norrabist_parse_tls_message_changecipherspec(OTHERS, 0) == NORRABIST_INCOMPLETE);
    HOLDS(tally.count == 2 && tally.end == norrabist_alert_start(2) && tally.end == 4);
    HOLDS(alerts[0] == NORRABIST_WARNING && NORRABIST_ALERT_LEN == 2);
    HOLDS(alert.number == NORRABIST_ACCEPTED && alert.severity == NORRABIST_FATAL);
    HOLDS(alert.code == 40 && alerts[norrabist_alert_start(1) + 1] == alert.code);
    HOLDS(norrabist_parse_tls_message_alert(alerts, 1).number == NORRABIST_INCOMPLETE);
    HOLDS(norrabist_parse_tls_message_alert(alerts + 4, 1).number == NORRABIST_LENGTH_VALUE);
    HOLDS(beat.number == NORRABIST_ACCEPTED && beat.payload == 2);
    HOLDS(beat.heartbeat_type == NORRABIST_HEART_BEAT_REQUEST);
    HOLDS(heartbeat[NORRABIST_PAYLOAD_AT] == 0xaa);
    HOLDS(heartbeat[norrabist_heartbeat_padding(beat)] == 0xcc);
    HOLDS(21 - norrabist_heartbeat_padding(beat) == NORRABIST_MIN_PADDING_LEN);
    HOLDS(norrabist_parse_tls_message_heartbeat(heartbeat, 21, 20).number ==
          NORRABIST_LENGTH_VALUE);
    HOLDS(norrabist_parse_tls_message_heartbeat(heartbeat, 21, 2).number == NORRABIST_INCOMPLETE);
    HOLDS(norrabist_parse_tls_message_heartbeat(heartbeat, 20, 21).number ==
          NORRABIST_INCOMPLETE);
    tally = norrabist_count_contents(NORRABIST_CHANGE_CIPHER_SPEC, OTHERS + 5, 2);
    HOLDS(tally.count == 1 && tally.end == 1);
    tally = norrabist_count_contents(NORRABIST_APPLICATION_DATA, OTHERS, 0);
    HOLDS(tally.count == 1 && tally.end == 0);
    tally = norrabist_count_contents(NORRABIST_HEARTBEAT, heartbeat, 21);
    HOLDS(tally.count == 1 && tally.end == 21);
    tally = norrabist_count_contents(NORRABIST_HANDSHAKE, FLIGHT + 5, sizeof FLIGHT - 5);
    HOLDS(tally.count == 2 && tally.end == 56);
    tally = norrabist_count_contents(0x19, OTHERS, 1);
    HOLDS(tally.count == 0 && tally.end == 0);
}

static void messages(void) {
    const uint8_t *content = FLIGHT + NORRABIST_RECORD_HEADER_LEN;
    const size_t len = sizeof FLIGHT - NORRABIST_RECORD_HEADER_LEN;
    norrabist_message_head_told first = norrabist_parse_tls_message_head(content, len, 0);
    norrabist_message_head_told second =
        norrabist_parse_tls_message_head(content, len, first.next);
    norrabist_tally_told tally = norrabist_count_messages(content, len, 0);
    static const uint8_t unlisted[] = {0x03, 0, 0, 0};

    HOLDS(first.number == NORRABIST_ACCEPTED && first.msg_type == NORRABIST_CLIENT_HELLO);
    HOLDS(norrabist_message_head_body(first) == NORRABIST_MESSAGE_HEAD_LEN && first.body == 48);
    HOLDS(NORRABIST_RECORD_HEADER_LEN + NORRABIST_MESSAGE_HEAD_LEN == NORRABIST_FIRST_BODY_AT);
    HOLDS(second.number == NORRABIST_ACCEPTED && second.msg_type == NORRABIST_HELLO_REQUEST);
    HOLDS(norrabist_message_head_body(second) == second.next);
    HOLDS(norrabist_parse_tls_message_head(content, len, second.next).number ==
          NORRABIST_INCOMPLETE);
    HOLDS(norrabist_parse_tls_message_head(unlisted, 4, 0).number == NORRABIST_SWITCH);
    HOLDS(tally.count == 2 && tally.end == second.next && len - tally.end == 3);
    HOLDS(norrabist_count_messages(content, len, first.next).count == 1);
    HOLDS(norrabist_count_messages(content, len, len + 9).end == len + 9);
}

static void client_hello(void) {
    const uint8_t *body = FLIGHT + NORRABIST_FIRST_BODY_AT;
    uint8_t whole[52];
    norrabist_client_hello_told cut = norrabist_parse_tls_handshake_client_hello(body, 48), all;

    HOLDS(cut.number == NORRABIST_ACCEPTED && cut.version == NORRABIST_TLS12);
    HOLDS(body[NORRABIST_RANDOM_AT + NORRABIST_RANDOM_LEN] == cut.session_id);
    HOLDS(cut.session_id == 2 && body[NORRABIST_ID_AT] == 0xaa);
    HOLDS(cut.ciphers == 4 && body[norrabist_client_hello_ciphers(cut)] == 0xc0);
    HOLDS(cut.comp == 2 && body[norrabist_client_hello_comp(cut)] == 0);
    HOLDS(!cut.has_ext && cut.ext == 0);
    HOLDS(norrabist_client_hello_end(cut) == 46 && norrabist_client_hello_tail(cut) == 46);
    memcpy(whole, body, 46);
    memcpy(whole + 46, "\0\2\5\6\7\10", 6);
    all = norrabist_parse_tls_handshake_client_hello(whole, sizeof whole);
    HOLDS(all.has_ext && all.ext == 2 && whole[norrabist_client_hello_ext(all)] == 5);
    HOLDS(norrabist_client_hello_tail(all) == 50);
    HOLDS(norrabist_parse_tls_handshake_client_hello(body, 1).number == NORRABIST_INCOMPLETE);
    HOLDS(norrabist_parse_tls_handshake_client_hello(body, 42).number == NORRABIST_LENGTH_VALUE);
}

/* The plain reader takes a body, and the strict one refuses it, with LENGTH_VALUE and nothing else
   told. What the plain one tells. */
static norrabist_client_hello_told inexact(const uint8_t *body, size_t len) {
    norrabist_client_hello_told plain = norrabist_parse_tls_handshake_client_hello(body, len);
    norrabist_client_hello_told strict =
        norrabist_parse_tls_handshake_client_hello_strict(body, len);

    HOLDS(plain.number == NORRABIST_ACCEPTED && strict.number == NORRABIST_LENGTH_VALUE);
    HOLDS(strict.version == 0 && strict.ciphers == 0 && strict.comp == 0);
    HOLDS(strict.session_id == 0 && !strict.has_ext && strict.ext == 0);
    HOLDS(norrabist_refusal(NORRABIST_READER_CLIENT_HELLO_STRICT, body, len, 0).number ==
          NORRABIST_LENGTH_VALUE);
    return plain;
}

static void client_hello_strict(void) {
    const uint8_t *body = FLIGHT + NORRABIST_FIRST_BODY_AT;
    uint8_t whole[51], bare[44];
    norrabist_client_hello_told told = norrabist_parse_tls_handshake_client_hello_strict(body, 46);

    HOLDS(told.number == NORRABIST_ACCEPTED && told.version == NORRABIST_TLS12);
    HOLDS(told.session_id == 2 && told.ciphers == 4 && told.comp == 2 && !told.has_ext);
    HOLDS(norrabist_client_hello_tail(told) == 46);
    HOLDS(norrabist_refusal(NORRABIST_READER_CLIENT_HELLO_STRICT, body, 46, 0).number ==
          NORRABIST_ACCEPTED);
    /* a tail: a block that is cut off, then a byte behind a whole one */
    HOLDS(norrabist_client_hello_tail(inexact(body, 48)) == 46);
    memcpy(whole, body, 46);
    memcpy(whole + 46, "\0\2\5\6\7", 5);
    told = norrabist_parse_tls_handshake_client_hello_strict(whole, 50);
    HOLDS(told.number == NORRABIST_ACCEPTED && told.has_ext && told.ext == 2);
    HOLDS(norrabist_client_hello_tail(inexact(whole, 51)) == 50);
    HOLDS(norrabist_client_hello_tail(inexact(whole, 49)) == 46);
    /* no methods; no ciphers */
    memcpy(bare, body, 44);
    bare[43] = 0;
    told = inexact(bare, 44);
    HOLDS(told.ciphers == 4 && told.comp == 0 && norrabist_client_hello_tail(told) == 44);
    memcpy(bare + 37, "\0\0\1\0", 4);
    told = inexact(bare, 41);
    HOLDS(told.ciphers == 0 && told.comp == 1 && norrabist_client_hello_tail(told) == 41);
    /* what the plain reader refuses is refused the same way */
    HOLDS(norrabist_parse_tls_handshake_client_hello_strict(bare, 39).number ==
          NORRABIST_INCOMPLETE);
    HOLDS(norrabist_parse_tls_handshake_client_hello_strict(body, 42).number ==
          NORRABIST_LENGTH_VALUE);
    bare[34] = NORRABIST_MAX_ID_LEN + 1;
    HOLDS(norrabist_parse_tls_handshake_client_hello_strict(bare, 41).number == NORRABIST_VERIFY);
}

static void server_hello(void) {
    static const uint8_t body[] = {3, 3, RANDOM, 1, 0xaa, 0xc0, 0x2c, 7, 0, 1, 0xee, 0xdd};
    static const uint8_t draft18[] = {0x7f, 0x12, RANDOM, 0x13, 0x01, 0, 1, 0xee, 0xdd};
    static const uint8_t retry[] = {3, 4, 0x13, 0x01, 0, 1, 0xee, 0xdd};
    norrabist_server_hello_told told =
        norrabist_parse_tls_handshake_server_hello(body, sizeof body);
    norrabist_server_hello_told drafted =
        norrabist_parse_tls_handshake_msg_server_hello(draft18, sizeof draft18);
    norrabist_hello_retry_request_told asked =
        norrabist_parse_tls_handshake_msg_hello_retry_request(retry, sizeof retry);

    HOLDS(told.number == NORRABIST_ACCEPTED && told.version == NORRABIST_TLS12);
    HOLDS(told.session_id == 1 && body[NORRABIST_ID_AT] == 0xaa);
    HOLDS(told.cipher == 0xc02c && told.compression == 7 && told.has_ext && told.ext == 1);
    HOLDS(norrabist_server_hello_end(told) == 39 && norrabist_server_hello_tail(told) == 42);
    HOLDS(body[norrabist_server_hello_ext(told)] == 0xee);
    told = norrabist_parse_tls_handshake_msg_server_hello(body, 41);
    HOLDS(told.number == NORRABIST_ACCEPTED && !told.has_ext);
    HOLDS(norrabist_server_hello_tail(told) == 39);
    HOLDS(drafted.number == NORRABIST_ACCEPTED && drafted.version == NORRABIST_TLS13_DRAFT18);
    HOLDS(drafted.cipher == 0x1301 && drafted.ext == 1 && drafted.session_id == 0);
    HOLDS(norrabist_server_hello_ext(drafted) == NORRABIST_DRAFT18_EXT_AT);
    HOLDS(draft18[NORRABIST_DRAFT18_EXT_AT] == 0xee && norrabist_server_hello_tail(drafted) == 39);
    HOLDS(norrabist_parse_tls_handshake_server_hello(draft18, sizeof draft18).number ==
          NORRABIST_TAG);
    HOLDS(asked.number == NORRABIST_ACCEPTED && asked.version == 0x0304 && asked.cipher == 0x1301);
    HOLDS(asked.has_ext && asked.ext == 1 && retry[NORRABIST_RETRY_EXT_AT] == 0xee);
    HOLDS(norrabist_hello_retry_request_tail(asked) == 7);
    HOLDS(norrabist_hello_retry_request_tail(
              norrabist_parse_tls_handshake_msg_hello_retry_request(retry, 6)) == 4);
}

static void certificates(void) {
    static const uint8_t body[] = {0, 0, 10, 0, 0, 1, 0xaa, 0, 0, 2, 0xbb, 0xbc, 0, 0xff};
    static const uint8_t request[] = {1, 0x40, 0, 2, 4, 3, 0, 4, 0, 1, 0xcc, 0, 0xff};
    static const uint8_t status[] = {1, 0, 0, 1, 0xdd, 0xff};
    norrabist_certificate_told told =
        norrabist_parse_tls_handshake_msg_certificate(body, sizeof body);
    norrabist_certificate_request_told asked =
        norrabist_parse_tls_handshake_certificaterequest(request, sizeof request);
    norrabist_certificate_status_told stated =
        norrabist_parse_tls_handshake_certificatestatus(status, sizeof status);
    const uint8_t *chain = body + NORRABIST_CHAIN_AT;
    norrabist_item_told item = norrabist_certificate_at(chain, told.chain, 0);

    HOLDS(told.number == NORRABIST_ACCEPTED && told.chain == 10);
    HOLDS(norrabist_certificate_tail(told) == 13);
    HOLDS(item.number == NORRABIST_ACCEPTED && item.len == 1 && chain[item.start] == 0xaa);
    item = norrabist_certificate_at(chain, told.chain, norrabist_item_next(item));
    HOLDS(item.number == NORRABIST_ACCEPTED && item.len == 2 && chain[item.start] == 0xbb);
    item = norrabist_certificate_at(chain, told.chain, norrabist_item_next(item));
    HOLDS(item.number == NORRABIST_NO_SUCH && item.start == 0 && item.len == 0);
    HOLDS(asked.number == NORRABIST_ACCEPTED && asked.has_pairs && asked.pairs == 2);
    HOLDS(asked.types == 1 && request[NORRABIST_TYPES_AT] == 0x40);
    HOLDS(norrabist_number_at(request + norrabist_certificate_request_pairs(asked), asked.pairs, 0)
              .value == 0x0403);
    item = norrabist_name_at(request + norrabist_certificate_request_names(asked), asked.names, 0);
    HOLDS(item.number == NORRABIST_ACCEPTED && item.start == 2 && item.len == 1);
    HOLDS(norrabist_certificate_request_tail(asked) == 12);
    /* its first 4 bytes are the short form: no names */
    HOLDS(norrabist_parse_tls_handshake_certificaterequest(request, 3).number ==
          NORRABIST_COMPLETE);
    asked = norrabist_parse_tls_handshake_certificaterequest((const uint8_t *)"\1\100\0\0", 4);
    HOLDS(asked.number == NORRABIST_ACCEPTED && !asked.has_pairs && asked.names == 0);
    HOLDS(norrabist_certificate_request_names(asked) == 4);
    HOLDS(stated.number == NORRABIST_ACCEPTED && stated.status_type == 1 && stated.blob == 1);
    HOLDS(status[NORRABIST_BLOB_AT] == 0xdd && norrabist_certificate_status_tail(stated) == 5);
}

static void others(void) {
    static const uint8_t ticket[] = {0, 1, 0, 2, 0, 1, 0xaa, 0xbb}, next[] = {1, 0x68, 2, 0, 0, 0xff};
    norrabist_new_session_ticket_told told =
        norrabist_parse_tls_handshake_msg_newsessionticket(ticket, sizeof ticket, 7);
    norrabist_next_protocol_told named =
        norrabist_parse_tls_handshake_next_protocol(next, sizeof next);

    HOLDS(told.number == NORRABIST_ACCEPTED && told.hint == 0x10002 && told.ticket == 1);
    HOLDS(ticket[NORRABIST_TICKET_AT] == 0xaa && norrabist_new_session_ticket_tail(told) == 7);
    HOLDS(norrabist_parse_tls_handshake_msg_newsessionticket(ticket, sizeof ticket,
                                                             NORRABIST_LIFETIME_LEN - 1)
              .number == NORRABIST_VERIFY);
    HOLDS(norrabist_parse_tls_handshake_msg_newsessionticket(ticket, sizeof ticket, 9).number ==
          NORRABIST_INCOMPLETE);
    for (size_t len = NORRABIST_LIFETIME_LEN; len <= sizeof ticket; len++)
        if (len != 7)
            HOLDS(norrabist_parse_tls_handshake_msg_newsessionticket(ticket, sizeof ticket, len)
                      .number == NORRABIST_LENGTH_VALUE);
    HOLDS(named.number == NORRABIST_ACCEPTED && named.protocol == 1 && named.padding == 2);
    HOLDS(next[NORRABIST_PROTOCOL_AT] == 0x68 && norrabist_next_protocol_padding(named) == 3);
    HOLDS(norrabist_next_protocol_tail(named) == 5);
    HOLDS(norrabist_parse_tls_handshake_msg_key_update(next, 1).request == 1);
    HOLDS(norrabist_parse_tls_handshake_msg_key_update(next, 0).number == NORRABIST_INCOMPLETE);
    HOLDS(norrabist_take_body(next, sizeof next, sizeof next) == NORRABIST_ACCEPTED);
    HOLDS(norrabist_take_body(next, sizeof next, sizeof next + 1) == NORRABIST_INCOMPLETE);
}

static void numbers_of_lists(void) {
    static const uint8_t list[] = {0xc0, 0x2c, 0, 0x9c, 0xff};

    HOLDS(norrabist_number_count(sizeof list) == 2);
    HOLDS(norrabist_number_at(list, sizeof list, 0).value == 0xc02c);
    HOLDS(norrabist_number_at(list, sizeof list, 1).value == 0x009c);
    HOLDS(norrabist_number_at(list, sizeof list, 2).number == NORRABIST_NO_SUCH);
}

/* A block: the host name "ab" and a name of another type that is empty, a fragment length, two
   groups, and an extension that is told as it stands. */
static const uint8_t BLOCK[] = {
    0, 0, 0, 10, 0, 8, 0, 0, 2, 'a', 'b', 9, 0, 0, 0, 1, 0, 1, 4,
    0, 10, 0, 6, 0, 4, 0, 29, 0, 23, 0, 21, 0, 3, 7, 8, 9};

/* A block is refused, with that index and nothing else told, by every function that takes one. */
static void damaged(const uint8_t *block, size_t len, size_t index) {
    norrabist_extensions_told all = norrabist_parse_tls_extensions(block, len);
    norrabist_extension_told first = norrabist_extension_from(block, len, 0);
    size_t place;

    HOLDS(all.number == NORRABIST_LENGTH_VALUE && all.items == index);
    HOLDS(first.number == NORRABIST_LENGTH_VALUE && first.start == 0 && first.len == 0);
    for (place = 0; place < 6; place++) {
        norrabist_extension_told told = norrabist_extension_at(block, len, place);
        HOLDS(told.number == NORRABIST_LENGTH_VALUE && told.ext_type == 0 && told.start == 0);
    }
}

static void extensions(void) {
    static const uint16_t types[] = {NORRABIST_EXT_SERVER_NAME, NORRABIST_EXT_MAX_FRAGMENT_LENGTH,
                                     NORRABIST_EXT_SUPPORTED_GROUPS, 21};
    static const size_t starts[] = {6, 18, 25, 33}, lens[] = {8, 1, 4, 3};
    norrabist_extensions_told all = norrabist_parse_tls_extensions(BLOCK, sizeof BLOCK);
    norrabist_extension_told told, walked;
    norrabist_server_name_told name = norrabist_server_name_from(BLOCK + 6, 8, 0);
    size_t place, at = 0;

    HOLDS(all.number == NORRABIST_ACCEPTED && all.items == 4);
    for (place = 0; place < 4; place++) {
        told = norrabist_extension_at(BLOCK, sizeof BLOCK, place);
        walked = norrabist_extension_from(BLOCK, sizeof BLOCK, at);
        HOLDS(told.number == NORRABIST_ACCEPTED && told.ext_type == types[place]);
        HOLDS(told.start == starts[place] && told.len == lens[place]);
        HOLDS(walked.number == NORRABIST_ACCEPTED && walked.ext_type == told.ext_type);
        HOLDS(walked.start == told.start && walked.len == told.len);
        at = norrabist_extension_next(walked);
    }
    HOLDS(at == sizeof BLOCK);
    HOLDS(norrabist_extension_at(BLOCK, sizeof BLOCK, 4).number == NORRABIST_NO_SUCH);
    HOLDS(norrabist_extension_from(BLOCK, sizeof BLOCK, at).number == NORRABIST_NO_SUCH);
    HOLDS(norrabist_parse_tls_extensions(BLOCK, 0).number == NORRABIST_ACCEPTED);
    HOLDS(norrabist_extension_from(BLOCK, 0, 0).number == NORRABIST_NO_SUCH);
    HOLDS(name.number == NORRABIST_ACCEPTED && name.name_type == NORRABIST_HOST_NAME);
    HOLDS(name.start == 3 && name.len == 2 && BLOCK[6 + name.start] == 'a');
    name = norrabist_server_name_from(BLOCK + 6, 8, norrabist_server_name_next(name));
    HOLDS(name.number == NORRABIST_ACCEPTED && name.name_type == 9 && name.len == 0);
    HOLDS(norrabist_server_name_next(name) == 8);
    name = norrabist_server_name_from(BLOCK + 6, 8, 8);
    HOLDS(name.number == NORRABIST_NO_SUCH && name.start == 0 && name.name_type == 0);
    HOLDS(norrabist_number_count(lens[2]) == 2);
    HOLDS(norrabist_number_at(BLOCK + starts[2], lens[2], 1).value == 23);
    /* cut off in each of its extensions; the answer of a server that took the name */
    damaged(BLOCK, 1, 0);
    damaged(BLOCK, 18, 1);
    damaged(BLOCK, 28, 2);
    damaged(BLOCK, sizeof BLOCK - 1, 3);
    damaged((const uint8_t *)"\0\27\0\0\0\0\0\0", 8, 1);
}

static void refusals(void) {
    const uint8_t *content = FLIGHT + NORRABIST_RECORD_HEADER_LEN;
    const size_t len = sizeof FLIGHT - NORRABIST_RECORD_HEADER_LEN;
    static const uint8_t tag[] = {3, 4};
    uint16_t reader;

    HOLDS(norrabist_refusal(NORRABIST_CLIENT_HELLO, tag, 2, 2).number == NORRABIST_INCOMPLETE);
    HOLDS(norrabist_refusal(NORRABIST_NEW_SESSION_TICKET, tag, 2, 2).number == NORRABIST_VERIFY);
    HOLDS(norrabist_refusal(NORRABIST_SERVER_HELLO, tag, 2, 2).number == NORRABIST_TAG);
    HOLDS(norrabist_refusal(NORRABIST_READER_SERVER_HELLO, tag, 2, 0).number == NORRABIST_TAG);
    HOLDS(norrabist_refusal(0x03, tag, 2, 2).number == NORRABIST_SWITCH);
    HOLDS(norrabist_refusal(NORRABIST_HELLO_REQUEST, tag, 2, 2).number == NORRABIST_ACCEPTED);
    HOLDS(norrabist_refusal(NORRABIST_READER_RECORD_HEADER, tag, 2, 0).number ==
          NORRABIST_INCOMPLETE);
    HOLDS(norrabist_refusal(NORRABIST_READER_RAW_RECORD, FLIGHT, sizeof FLIGHT, 0).number ==
          NORRABIST_ACCEPTED);
    HOLDS(norrabist_refusal(NORRABIST_READER_PLAINTEXT, FLIGHT, sizeof FLIGHT, 0).number ==
          NORRABIST_ACCEPTED);
    HOLDS(norrabist_refusal(NORRABIST_READER_MESSAGE, content, len, 56).number ==
          NORRABIST_INCOMPLETE);
    HOLDS(norrabist_refusal(NORRABIST_READER_WALK, content, len, 52).number == NORRABIST_ACCEPTED);
    HOLDS(norrabist_refusal(NORRABIST_READER_WALK, content, len, 56).number == NORRABIST_NO_SUCH);
    HOLDS(norrabist_refusal(NORRABIST_READER_MANY, OTHERS, sizeof OTHERS, 0).number ==
          NORRABIST_ACCEPTED);
    HOLDS(norrabist_refusal(NORRABIST_READER_CHANGE_CIPHER_SPEC, tag, 2, 0).number ==
          NORRABIST_LENGTH_VALUE);
    HOLDS(norrabist_refusal(NORRABIST_READER_ALERT, tag + 1, 0, 0).number == NORRABIST_INCOMPLETE);
    HOLDS(norrabist_refusal(NORRABIST_READER_HEARTBEAT, OTHERS + 26, 21, 20).number ==
          NORRABIST_LENGTH_VALUE);
    HOLDS(norrabist_refusal(NORRABIST_READER_HEARTBEAT, OTHERS + 26, 21, 0x10015).number ==
          NORRABIST_ACCEPTED);
    HOLDS(norrabist_refusal(NORRABIST_READER_CONTENT + NORRABIST_ALERT, OTHERS + 11, 1, 0).number ==
          NORRABIST_COMPLETE);
    HOLDS(norrabist_refusal(NORRABIST_READER_CONTENT + NORRABIST_HANDSHAKE, content, len, 0)
              .number == NORRABIST_ACCEPTED);
    HOLDS(norrabist_refusal(NORRABIST_READER_CONTENT, tag, 2, 0).number == NORRABIST_SWITCH);
    HOLDS(norrabist_refusal(NORRABIST_READER_CLIENT_HELLO_STRICT, tag, 2, 0).number ==
          NORRABIST_INCOMPLETE);
    /* no bytes are SWITCH for a number that is no reader's, and for no other */
    for (reader = NORRABIST_READER_RECORD_HEADER; reader < NORRABIST_READER_CONTENT; reader++)
        HOLDS((norrabist_refusal(reader, tag, 0, 0).number == NORRABIST_SWITCH) ==
              (reader > NORRABIST_READER_CLIENT_HELLO_STRICT));
}

/* More than a record may hold. */
static const uint8_t LARGE[NORRABIST_MAX_RECORD_LEN + 1] = {0};

/* The hello of FLIGHT with another id, and extensions of two bytes. */
static norrabist_wrote write_client(size_t id_len, uint8_t *out, size_t out_len) {
    const uint8_t *body = FLIGHT + NORRABIST_FIRST_BODY_AT;

    return norrabist_gen_tls_clienthello(
        NORRABIST_TLS12, body + NORRABIST_RANDOM_AT, NORRABIST_RANDOM_LEN, LARGE, id_len, body + 39,
        4, body + 44, 2, body, 2, out, out_len);
}

static void writers(void) {
    uint8_t text[64], record[80];
    norrabist_wrote wrote = write_client(2, text, 0);
    norrabist_client_hello_told back;

    HOLDS(wrote.number == NORRABIST_NO_ROOM && wrote.count == 54);
    wrote = write_client(NORRABIST_MAX_ID_LEN + 1, text, sizeof text);
    HOLDS(wrote.number == NORRABIST_BAD_LENGTH && wrote.count == 0);
    wrote = write_client(2, text, sizeof text);
    HOLDS(wrote.number == NORRABIST_ACCEPTED && wrote.count == 54);
    HOLDS(memcmp(text + 4, FLIGHT + NORRABIST_FIRST_BODY_AT, NORRABIST_ID_AT) == 0);
    HOLDS(memcmp(text + 41, FLIGHT + NORRABIST_FIRST_BODY_AT + 37, 9) == 0);
    back = norrabist_parse_tls_handshake_client_hello(text + 4, wrote.count - 4);
    HOLDS(back.number == NORRABIST_ACCEPTED && back.has_ext && back.ext == 2);
    wrote = norrabist_gen_tls_plaintext(NORRABIST_HANDSHAKE, NORRABIST_TLS10, text, wrote.count,
                                        record, sizeof record);
    HOLDS(wrote.number == NORRABIST_ACCEPTED && wrote.count == 59);
    HOLDS(norrabist_parse_tls_plaintext(record, wrote.count).msg_type == NORRABIST_CLIENT_HELLO);
    wrote = norrabist_gen_tls_plaintext(NORRABIST_HANDSHAKE, NORRABIST_TLS10, LARGE, sizeof LARGE,
                                        record, sizeof record);
    HOLDS(wrote.number == NORRABIST_TOO_LARGE && wrote.count == 0);
    wrote = norrabist_gen_tls_serverhello(NORRABIST_TLS12, FLIGHT, NORRABIST_RANDOM_LEN, FLIGHT, 1,
                                          0xc02c, 7, FLIGHT, 0, text, sizeof text);
    HOLDS(wrote.number == NORRABIST_ACCEPTED && wrote.count == 45);
    HOLDS(norrabist_parse_tls_handshake_server_hello(text + 4, 41).compression == 7);
    wrote = norrabist_gen_tls_serverhellodraft18(NORRABIST_TLS13_DRAFT18, FLIGHT,
                                                 NORRABIST_RANDOM_LEN, 0x1301, FLIGHT, 0, text,
                                                 sizeof text);
    HOLDS(wrote.number == NORRABIST_ACCEPTED && wrote.count == 42);
    HOLDS(norrabist_parse_tls_handshake_msg_server_hello(text + 4, 38).cipher == 0x1301);
    wrote = norrabist_gen_tls_clientkeyexchange(NORRABIST_FORM_UNKNOWN, FLIGHT, 3, text,
                                                sizeof text);
    HOLDS(wrote.number == NORRABIST_ACCEPTED && wrote.count == 7);
    wrote = norrabist_gen_tls_clientkeyexchange(NORRABIST_FORM_DH, FLIGHT, 3, text, sizeof text);
    HOLDS(wrote.count == 9 && text[0] == NORRABIST_CLIENT_KEY_EXCHANGE && text[5] == 3);
    wrote = norrabist_gen_tls_clientkeyexchange(NORRABIST_FORM_ECDH, FLIGHT, 3, text, sizeof text);
    HOLDS(wrote.count == 8 && text[4] == 3);
    wrote = norrabist_gen_tls_clientkeyexchange(NORRABIST_FORM_ECDH + 1, FLIGHT, 3, text, 64);
    HOLDS(wrote.number == NORRABIST_BAD_LENGTH);
    wrote = norrabist_gen_tls_hellorequest(text, sizeof text);
    HOLDS(wrote.count == 4 && text[0] == NORRABIST_HELLO_REQUEST);
    wrote = norrabist_gen_tls_finished(FLIGHT, 12, text, 15);
    HOLDS(wrote.number == NORRABIST_NO_ROOM && wrote.count == 16);
    wrote = norrabist_gen_tls_finished(FLIGHT, 12, text, sizeof text);
    HOLDS(wrote.count == 16 && text[0] == NORRABIST_FINISHED && text[3] == 12);
    wrote = norrabist_gen_tls_changecipherspec(text, 0);
    HOLDS(wrote.number == NORRABIST_NO_ROOM && wrote.count == 1);
    wrote = norrabist_gen_tls_changecipherspec(text, sizeof text);
    HOLDS(wrote.number == NORRABIST_ACCEPTED && wrote.count == 1 && text[0] == 1);
    wrote = norrabist_gen_tls_alert(NORRABIST_FATAL, 40, text, 1);
    HOLDS(wrote.number == NORRABIST_NO_ROOM && wrote.count == NORRABIST_ALERT_LEN);
    wrote = norrabist_gen_tls_alert(NORRABIST_FATAL + 1, 40, text, 1);
    HOLDS(wrote.number == NORRABIST_BAD_LENGTH && wrote.count == 0);
    wrote = norrabist_gen_tls_alert(NORRABIST_FATAL, 40, text, sizeof text);
    HOLDS(wrote.number == NORRABIST_ACCEPTED && text[0] == 2 && text[1] == 40);
    wrote = norrabist_gen_tls_plaintext(NORRABIST_ALERT, NORRABIST_TLS12, text, wrote.count, record,
                                        sizeof record);
    HOLDS(wrote.count == 7 && memcmp(record, "\25\3\3\0\2\2\50", 7) == 0);
    HOLDS(norrabist_kind_written(NORRABIST_SERVER_HELLO_V13_DRAFT18) == NORRABIST_ACCEPTED);
    HOLDS(norrabist_kind_written(NORRABIST_FINISHED) == NORRABIST_ACCEPTED);
    HOLDS(norrabist_kind_written(NORRABIST_CERTIFICATE) == NORRABIST_NOT_YET_IMPLEMENTED);
}

/* The three kinds of BLOCK one by one, and a type that is not written. */
static void extension_writers(void) {
    const uint8_t *names = BLOCK + 6, *groups = BLOCK + 25;
    uint8_t text[40];
    norrabist_wrote wrote =
        norrabist_gen_tls_extension(NORRABIST_EXT_SERVER_NAME, names, 8, text, 13);

    HOLDS(wrote.number == NORRABIST_NO_ROOM && wrote.count == 14);
    wrote = norrabist_gen_tls_extension(NORRABIST_EXT_SERVER_NAME, names, 8, text, sizeof text);
    HOLDS(wrote.number == NORRABIST_ACCEPTED && memcmp(text, BLOCK, 14) == 0);
    wrote = norrabist_gen_tls_extension(NORRABIST_EXT_MAX_FRAGMENT_LENGTH, BLOCK + 18, 1, text, 5);
    HOLDS(wrote.number == NORRABIST_ACCEPTED && memcmp(text, BLOCK + 14, 5) == 0);
    wrote = norrabist_gen_tls_extension(NORRABIST_EXT_SUPPORTED_GROUPS, groups, 4, text, 10);
    HOLDS(wrote.number == NORRABIST_ACCEPTED && memcmp(text, BLOCK + 19, 10) == 0);
    HOLDS(norrabist_gen_tls_extension(NORRABIST_EXT_SERVER_NAME, names, 7, text, 0).number ==
          NORRABIST_BAD_LENGTH);
    HOLDS(norrabist_gen_tls_extension(NORRABIST_EXT_MAX_FRAGMENT_LENGTH, names, 2, text, 0)
              .number == NORRABIST_BAD_LENGTH);
    HOLDS(norrabist_gen_tls_extension(NORRABIST_EXT_SUPPORTED_GROUPS, groups, 3, text, 0).number ==
          NORRABIST_BAD_LENGTH);
    HOLDS(norrabist_gen_tls_extension(21, names, 7, text, 0).number ==
          NORRABIST_NOT_YET_IMPLEMENTED);
    wrote = norrabist_gen_server_name(NORRABIST_HOST_NAME, names + 3, 2, text, 4);
    HOLDS(wrote.number == NORRABIST_NO_ROOM && wrote.count == 5);
    wrote = norrabist_gen_server_name(NORRABIST_HOST_NAME, names + 3, 2, text, sizeof text);
    HOLDS(wrote.number == NORRABIST_ACCEPTED && memcmp(text, names, 5) == 0);
    wrote = norrabist_gen_server_name(9, names, 0, text, sizeof text);
    HOLDS(wrote.count == 3 && memcmp(text, names + 5, 3) == 0);
}

/* Rows of BLOCK's three kinds, whose text behind its length is the front of BLOCK. */
static void lists_of_extensions(void) {
    uint8_t rows[4 * NORRABIST_ROW_LEN], text[40];
    norrabist_wrote wrote;

    norrabist_put_row(rows, NORRABIST_EXT_SERVER_NAME, 6, 8);
    norrabist_put_row(rows + 10, NORRABIST_EXT_MAX_FRAGMENT_LENGTH, 18, 1);
    norrabist_put_row(rows + 20, NORRABIST_EXT_SUPPORTED_GROUPS, 25, 4);
    HOLDS(memcmp(rows + 20, "\0\12\0\0\0\31\0\0\0\4", NORRABIST_ROW_LEN) == 0);
    wrote = norrabist_gen_tls_extensions(rows, 30, BLOCK, sizeof BLOCK, text, 30);
    HOLDS(wrote.number == NORRABIST_NO_ROOM && wrote.count == 31);
    wrote = norrabist_gen_tls_extensions(rows, 30, BLOCK, sizeof BLOCK, text, sizeof text);
    HOLDS(wrote.number == NORRABIST_ACCEPTED && wrote.count == 31);
    HOLDS(text[0] == 0 && text[1] == 29);
    HOLDS(memcmp(text + NORRABIST_BLOCK_AT, BLOCK, 29) == 0);
    HOLDS(norrabist_parse_tls_extensions(text + NORRABIST_BLOCK_AT, 29).items == 3);
    wrote = norrabist_gen_tls_extensions(rows, 0, BLOCK, 0, text, sizeof text);
    HOLDS(wrote.number == NORRABIST_ACCEPTED && wrote.count == 2 && text[1] == 0);
    HOLDS(norrabist_gen_tls_extensions(rows, 29, BLOCK, sizeof BLOCK, text, 0).number ==
          NORRABIST_BAD_LENGTH);
    HOLDS(norrabist_gen_tls_extensions(rows, 30, BLOCK, 28, text, 0).number ==
          NORRABIST_BAD_LENGTH);
    norrabist_put_row(rows + 30, 0x0304, 0x05060708, 0x090a0b0c);
    HOLDS(memcmp(rows + 30, "\3\4\5\6\7\10\11\12\13\14", NORRABIST_ROW_LEN) == 0);
    HOLDS(norrabist_gen_tls_extensions(rows, 40, BLOCK, 0, text, 0).number ==
          NORRABIST_NOT_YET_IMPLEMENTED);
}

int main(void) {
    numbers();
    records();
    other_records();
    other_messages();
    messages();
    client_hello();
    client_hello_strict();
    server_hello();
    certificates();
    others();
    numbers_of_lists();
    extensions();
    refusals();
    writers();
    extension_writers();
    lists_of_extensions();
    printf("version %d.%d.%d: %u facts hold\n", NORRABIST_VERSION_MAJOR, NORRABIST_VERSION_MINOR,
           NORRABIST_VERSION_PATCH, held);
    return failed != 0;
}
