/* The tap in C: the same work as in src/tap.rs, by Norrabist through norrabist.h alone. */
#include "norrabist.h"

/* A flow: its records, and how far they are read. */
struct flow {
    const uint8_t *bytes;
    size_t len;
    size_t at;
};

/* The sum of bytes. */
static size_t bytes(const uint8_t *list, size_t len) {
    size_t k, sum = 0;

    for (k = 0; k < len; k++)
        sum += list[k];
    return sum;
}

/* The sum of numbers of two bytes. */
static size_t numbers(const uint8_t *list, size_t len) {
    size_t count = norrabist_number_count(len);
    size_t place, sum = 0;

    for (place = 0; place < count; place++)
        sum += norrabist_number_at(list, len, place).value;
    return sum;
}

typedef norrabist_item_told item_reader(const uint8_t *, size_t, size_t);

/* The lengths of the items of a list, each of which `item_at` reads. */
static size_t items(item_reader *item_at, const uint8_t *list, size_t len) {
    norrabist_item_told item = item_at(list, len, 0);
    size_t sum = 0;

    while (item.number == NORRABIST_ACCEPTED) {
        sum += item.len;
        item = item_at(list, len, norrabist_item_next(item));
    }
    return sum;
}

/* The functions of bodies add what is in one to `seen`, and answer the number of its refusal; of a
   body that is refused all numbers are 0. */

static uint8_t client_hello(const uint8_t *i, size_t len, size_t *seen) {
    norrabist_client_hello_told c = norrabist_parse_tls_handshake_client_hello(i, len);

    if (c.number == NORRABIST_ACCEPTED)
        *seen += c.version + NORRABIST_RANDOM_LEN + c.session_id +
                 numbers(i + norrabist_client_hello_ciphers(c), c.ciphers) +
                 bytes(i + norrabist_client_hello_comp(c), c.comp) + c.ext;
    return c.number;
}

static uint8_t server_hello(const uint8_t *i, size_t len, size_t *seen) {
    norrabist_server_hello_told s = norrabist_parse_tls_handshake_msg_server_hello(i, len);

    if (s.version == NORRABIST_TLS13_DRAFT18)
        *seen += 2;
    else if (s.number == NORRABIST_ACCEPTED)
        *seen += s.version + NORRABIST_RANDOM_LEN + s.session_id + s.cipher + s.compression + s.ext;
    return s.number;
}

static uint8_t hello_retry_request(const uint8_t *i, size_t len, size_t *seen) {
    uint8_t number = norrabist_parse_tls_handshake_msg_hello_retry_request(i, len).number;

    if (number == NORRABIST_ACCEPTED)
        *seen += 2;
    return number;
}

static uint8_t new_session_ticket(const uint8_t *i, size_t len, size_t *seen) {
    norrabist_new_session_ticket_told t =
        norrabist_parse_tls_handshake_msg_newsessionticket(i, len, len);

    *seen += t.hint + t.ticket;
    return t.number;
}

static uint8_t certificate(const uint8_t *i, size_t len, size_t *seen) {
    norrabist_certificate_told c = norrabist_parse_tls_handshake_msg_certificate(i, len);

    if (c.number == NORRABIST_ACCEPTED)
        *seen += items(norrabist_certificate_at, i + NORRABIST_CHAIN_AT, c.chain);
    return c.number;
}

static uint8_t certificate_request(const uint8_t *i, size_t len, size_t *seen) {
    norrabist_certificate_request_told r = norrabist_parse_tls_handshake_certificaterequest(i, len);

    if (r.number != NORRABIST_ACCEPTED)
        return r.number;
    *seen += bytes(i + NORRABIST_TYPES_AT, r.types);
    if (r.has_pairs)
        *seen += numbers(i + norrabist_certificate_request_pairs(r), r.pairs);
    *seen += items(norrabist_name_at, i + norrabist_certificate_request_names(r), r.names);
    return r.number;
}

static uint8_t certificate_status(const uint8_t *i, size_t len, size_t *seen) {
    norrabist_certificate_status_told s = norrabist_parse_tls_handshake_certificatestatus(i, len);

    *seen += s.blob;
    return s.number;
}

static uint8_t key_update(const uint8_t *i, size_t len, size_t *seen) {
    norrabist_key_update_told k = norrabist_parse_tls_handshake_msg_key_update(i, len);

    *seen += k.request;
    return k.number;
}

static uint8_t next_protocol(const uint8_t *i, size_t len, size_t *seen) {
    norrabist_next_protocol_told n = norrabist_parse_tls_handshake_next_protocol(i, len);

    *seen += (size_t)n.protocol + n.padding;
    return n.number;
}

/* The body of a message of a listed type. */
static uint8_t message(uint8_t msg_type, const uint8_t *i, size_t len, size_t *seen) {
    switch (msg_type) {
    case NORRABIST_HELLO_REQUEST: *seen += 1; return NORRABIST_ACCEPTED;
    case NORRABIST_CLIENT_HELLO: return client_hello(i, len, seen);
    case NORRABIST_SERVER_HELLO: return server_hello(i, len, seen);
    case NORRABIST_NEW_SESSION_TICKET: return new_session_ticket(i, len, seen);
    case NORRABIST_END_OF_EARLY_DATA: *seen += 2; return NORRABIST_ACCEPTED;
    case NORRABIST_HELLO_RETRY_REQUEST: return hello_retry_request(i, len, seen);
    case NORRABIST_CERTIFICATE: return certificate(i, len, seen);
    case NORRABIST_CERTIFICATE_REQUEST: return certificate_request(i, len, seen);
    case NORRABIST_CERTIFICATE_STATUS: return certificate_status(i, len, seen);
    case NORRABIST_KEY_UPDATE: return key_update(i, len, seen);
    case NORRABIST_NEXT_PROTOCOL: return next_protocol(i, len, seen);
    /* those that are handed out whole */
    default: *seen += len; return NORRABIST_ACCEPTED;
    }
}

/* The content of an accepted record that is no handshake record: what is in it. */
static size_t other(uint8_t record_type, const uint8_t *i, uint16_t len) {
    size_t k, seen = 0, count = norrabist_count_contents(record_type, i, len).count;

    if (record_type == NORRABIST_APPLICATION_DATA)
        return len;
    if (record_type == NORRABIST_HEARTBEAT) {
        norrabist_heartbeat_told heartbeat = norrabist_parse_tls_message_heartbeat(i, len, len);
        return (size_t)heartbeat.heartbeat_type + heartbeat.payload;
    }
    if (record_type == NORRABIST_CHANGE_CIPHER_SPEC)
        return count;
    for (k = 0; k < count; k++)
        seen += (size_t)i[norrabist_alert_start(k)] + i[norrabist_alert_start(k) + 1];
    return seen;
}

/* The record at the front of `i`: adds what is in it to `sum` and answers where the one behind it
   begins; 0 where it is refused. */
static size_t record(const uint8_t *i, size_t len, size_t *sum) {
    norrabist_plaintext_head_told head = norrabist_parse_tls_plaintext(i, len);
    const uint8_t *content;
    size_t seen = head.len, at = (size_t)NORRABIST_MESSAGE_HEAD_LEN + head.body;

    if (head.number != NORRABIST_ACCEPTED)
        return 0;
    content = i + NORRABIST_RECORD_HEADER_LEN;
    if (head.record_type != NORRABIST_HANDSHAKE) {
        *sum += seen + other(head.record_type, content, head.len);
        return norrabist_plaintext_head_next(head);
    }
    if (message(head.msg_type, i + NORRABIST_FIRST_BODY_AT, head.body, &seen) != NORRABIST_ACCEPTED)
        return 0;
    while (at < head.len) {
        norrabist_message_head_told m = norrabist_parse_tls_message_head(content, head.len, at);
        if (m.number != NORRABIST_ACCEPTED ||
            message(m.msg_type, content + norrabist_message_head_body(m), m.body, &seen) !=
                NORRABIST_ACCEPTED)
            break;
        at = m.next;
    }
    *sum += seen;
    return norrabist_plaintext_head_next(head);
}

/* One record of each flow, then the next of each, until all are read: the sum of what was seen;
   SIZE_MAX where a record is refused. */
size_t tap_pass(struct flow *flows, const uint32_t *order, size_t count, size_t rounds) {
    size_t k, next, sum = 0;

    for (k = 0; k < count; k++)
        flows[k].at = 0;
    for (; rounds > 0; rounds--)
        for (k = 0; k < count; k++) {
            struct flow *flow = &flows[order[k]];
            next = record(flow->bytes + flow->at, flow->len - flow->at, &sum);
            if (next == 0)
                return SIZE_MAX;
            flow->at += next;
        }
    return sum;
}
