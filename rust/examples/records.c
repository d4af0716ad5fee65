/*
 * Prints the records and messages of joined records, as they are on the wire: of each message its
 * type, of a ClientHello its ciphers too; a refusal by its name. `records.rs` prints the same.
 *
 * Each record is read as plaintext, also one that is encrypted, which none of them shows.
 *
 *     cc -I rust rust/examples/records.c target/native/libnorrabist_c.a -o records
 *     ./records crates/look/handshake
 *     ./records < crates/look/handshake
 *     ./records --sample    (a ClientHello whose extension block is cut off)
 */
#define _POSIX_C_SOURCE 200809L
#include "norrabist.h"
#include <ctype.h>
#include <stdio.h>
#include <stdlib.h>
#include <string.h>
#include <unistd.h>

static const uint8_t sample[] = {
    0x16, 0x03, 0x01, 0x00, 0x37, 0x01, 0x00, 0x00, 0x33, 0x03, 0x03,
    0xfd, 0x42, 0x9e, 0x16, 0x30, 0xd2, 0x25, 0x3a, 0x7c, 0x0f, 0x4c, 0x0a, 0xa3, 0x62, 0xaf, 0xc1,
    0xa0, 0x36, 0x91, 0x6b, 0x52, 0x20, 0x14, 0x0e, 0x46, 0x98, 0x5c, 0x6b, 0x73, 0x02, 0xcd, 0xe9,
    0x00, 0x00, 0x06, 0xc0, 0x2c, 0xc0, 0x30, 0x00, 0x9f, 0x01, 0x00, 0x00, 0x6e, 0x00, 0x00, 0x00,
    0x0f};

/* The name of a message's type: one that the heads have told is listed. */
static const char *type_name(uint8_t msg_type) {
    switch (msg_type) {
    case NORRABIST_HELLO_REQUEST: return "HelloRequest";
    case NORRABIST_CLIENT_HELLO: return "ClientHello";
    case NORRABIST_SERVER_HELLO: return "ServerHello";
    case NORRABIST_NEW_SESSION_TICKET: return "NewSessionTicket";
    case NORRABIST_END_OF_EARLY_DATA: return "EndOfEarlyData";
    case NORRABIST_HELLO_RETRY_REQUEST: return "HelloRetryRequest";
    case NORRABIST_CERTIFICATE: return "Certificate";
    case NORRABIST_SERVER_KEY_EXCHANGE: return "ServerKeyExchange";
    case NORRABIST_CERTIFICATE_REQUEST: return "CertificateRequest";
    case NORRABIST_SERVER_DONE: return "ServerDone";
    case NORRABIST_CERTIFICATE_VERIFY: return "CertificateVerify";
    case NORRABIST_CLIENT_KEY_EXCHANGE: return "ClientKeyExchange";
    case NORRABIST_FINISHED: return "Finished";
    case NORRABIST_CERTIFICATE_STATUS: return "CertificateStatus";
    case NORRABIST_KEY_UPDATE: return "KeyUpdate";
    case NORRABIST_NEXT_PROTOCOL: return "NextProtocol";
    default: return "another type";
    }
}

/* The ciphers of a ClientHello, and what its extensions are. */
static void client_hello(const uint8_t *body, size_t body_len) {
    norrabist_client_hello_told hello = norrabist_parse_tls_handshake_client_hello(body, body_len);
    const uint8_t *ciphers = body + norrabist_client_hello_ciphers(hello);
    size_t count = norrabist_number_count(hello.ciphers);
    size_t tail = body_len - norrabist_client_hello_tail(hello);
    size_t place;

    printf("    version %04x, %zu ciphers:", (unsigned)hello.version, count);
    for (place = 0; place < count; place++)
        printf(" %04x", (unsigned)norrabist_number_at(ciphers, hello.ciphers, place).value);
    if (hello.has_ext)
        printf("\n    extensions present, %u bytes, and %zu behind them\n", (unsigned)hello.ext,
               tail);
    else
        printf("\n    extensions absent, and %zu bytes follow\n", tail);
}

/* The handshake messages of a content up to `end`, each of which opens. */
static void handshakes(const uint8_t *content, size_t end) {
    size_t at = 0;

    while (at < end) {
        norrabist_message_head_told head = norrabist_parse_tls_message_head(content, end, at);
        printf("  %s, %u bytes\n", type_name(head.msg_type), (unsigned)head.body);
        if (head.msg_type == NORRABIST_CLIENT_HELLO)
            client_hello(content + norrabist_message_head_body(head), head.body);
        at = head.next;
    }
}

/* The messages of a content by the type of its record, each of which opens. */
static void messages(uint8_t record_type, const uint8_t *content, norrabist_tally_told tally) {
    norrabist_heartbeat_told heartbeat;
    size_t place;

    switch (record_type) {
    case NORRABIST_HANDSHAKE:
        handshakes(content, tally.end);
        break;
    case NORRABIST_CHANGE_CIPHER_SPEC:
        for (place = 0; place < tally.count; place++)
            puts("  ChangeCipherSpec");
        break;
    case NORRABIST_ALERT:
        for (place = 0; place < tally.count; place++) {
            const uint8_t *alert = content + norrabist_alert_start(place);
            printf("  Alert, level %u, description %u\n", (unsigned)alert[0], (unsigned)alert[1]);
        }
        break;
    case NORRABIST_APPLICATION_DATA:
        printf("  ApplicationData, %zu bytes\n", tally.end);
        break;
    case NORRABIST_HEARTBEAT:
        heartbeat = norrabist_parse_tls_message_heartbeat(content, tally.end, (uint16_t)tally.end);
        printf("  Heartbeat, type %u, %u bytes, padding %zu\n",
               (unsigned)heartbeat.heartbeat_type, (unsigned)heartbeat.payload,
               tally.end - norrabist_heartbeat_padding(heartbeat));
        break;
    }
}

/* The record at the front of `left`: what it is as plaintext, or its refusal. */
static void record(const uint8_t *left, size_t left_len) {
    norrabist_plaintext_head_told head = norrabist_parse_tls_plaintext(left, left_len);
    const uint8_t *content = left + NORRABIST_RECORD_HEADER_LEN;
    norrabist_tally_told tally = {0, 0};
    uint8_t number = head.number;

    if (number == NORRABIST_ACCEPTED) {
        tally = norrabist_count_contents(head.record_type, content, head.len);
        /* the body of a first handshake message may be refused yet */
        if (tally.count == 0)
            number = norrabist_refusal(NORRABIST_READER_PLAINTEXT, left, left_len, 0).number;
    }
    if (number != NORRABIST_ACCEPTED) {
        printf("refused, %s (%u)\n", norrabist_reason_name(number), (unsigned)number);
        return;
    }
    printf("version %04x, %u bytes, %zu messages, %zu bytes dropped\n", (unsigned)head.version,
           (unsigned)head.len, tally.count, head.len - tally.end);
    messages(head.record_type, content, tally);
}

/* The records of joined bytes, one behind the other. */
static void records(const uint8_t *bytes, size_t len) {
    size_t at = 0;

    while (at < len) {
        norrabist_record_head_told whole = norrabist_parse_tls_raw_record(bytes + at, len - at);
        printf("record at %zu: ", at);
        record(bytes + at, len - at);
        /* a record that is not opened may still be whole */
        if (whole.number != NORRABIST_ACCEPTED)
            break;
        at += norrabist_record_head_next(whole);
    }
}

/* All of a file, in `*bytes`; how many bytes that is. Ends where it cannot be read, or there is no
   memory. */
static size_t input(FILE *file, uint8_t **bytes) {
    size_t len = 0, room = 1 << 16, got;

    *bytes = file ? (uint8_t *)malloc(room) : NULL;
    while (*bytes && (got = fread(*bytes + len, 1, room - len, file)) > 0) {
        len += got;
        if (len == room)
            *bytes = (uint8_t *)realloc(*bytes, room *= 2);
    }
    if (!*bytes || ferror(file)) {
        perror("records: the input cannot be read");
        exit(1);
    }
    return len;
}

/* What the bytes are, where they are plainly no records; else null. */
static const char *something_else(const uint8_t *bytes, size_t len) {
    static const char pcap[4][5] = {
        "\xa1\xb2\xc3\xd4", "\xd4\xc3\xb2\xa1", "\xa1\xb2\x3c\x4d", "\x4d\x3c\xb2\xa1"};
    size_t k;

    if (len == 0)
        return "the input has no byte";
    for (k = 0; k < 4; k++)
        if (len >= 4 && memcmp(bytes, pcap[k], 4) == 0)
            return "the input is a pcap and not joined records; "
                   "the README has the line that makes them of it";
    if (len >= 4 && memcmp(bytes, "\x0a\x0d\x0d\x0a", 4) == 0)
        return "the input is a pcapng and not joined records; "
               "the README has the line that makes them of it";
    for (k = 0; k < len && k < 16; k++)
        if (!isspace(bytes[k]) && !isxdigit(bytes[k]))
            return NULL;
    return "the input is hex text and not bytes; `xxd -r -p` makes bytes of it";
}

int main(int count, char **words) {
    uint8_t *bytes;
    size_t len;
    const char *other;

    if (count == 2 && strcmp(words[1], "--sample") == 0) {
        records(sample, sizeof sample);
        return 0;
    }
    if (count > 2 || (count == 2 && words[1][0] == '-') || (count < 2 && isatty(STDIN_FILENO))) {
        fputs("usage: records FILE, or records < FILE: joined records, as bytes\n"
              "       records --sample: a ClientHello whose extension block is cut off\n", stderr);
        return 2;
    }
    len = input(count == 2 ? fopen(words[1], "rb") : stdin, &bytes);
    other = something_else(bytes, len);
    if (other)
        fprintf(stderr, "records: %s\n", other);
    else
        records(bytes, len);
    free(bytes);
    return other ? 2 : 0;
}
