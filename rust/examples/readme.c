/* Prints what each ClientHello that begins a record offers; a tail may be a cut-off block. */
#include "norrabist.h"
#include <stdio.h>
static void client_hello(const uint8_t *body, size_t len) {
    norrabist_client_hello_told hello = norrabist_parse_tls_handshake_client_hello(body, len);
    const char *absent = norrabist_client_hello_tail(hello) < len ? "absent with a tail" : "absent";
    if (hello.number != NORRABIST_ACCEPTED)
        printf("refused: %s\n", norrabist_reason_name(hello.number)); /* "LengthValue", .. */
    else
        printf("%04x, %zu ciphers, extensions %s\n", (unsigned)hello.version,
               norrabist_number_count(hello.ciphers), hello.has_ext ? "present" : absent);
}
int main(void) {
    static uint8_t bytes[65536];
    const uint8_t *left = bytes, *end = bytes + fread(bytes, 1, sizeof bytes, stdin);
    while (left < end) {
        norrabist_record_head_told whole = norrabist_parse_tls_raw_record(left, end - left);
        norrabist_plaintext_head_told record = norrabist_parse_tls_plaintext(left, end - left);
        if (record.number != NORRABIST_ACCEPTED)
            printf("refused: %s\n", norrabist_reason_name(record.number)); /* "Complete", .. */
        else if (record.msg_type == NORRABIST_CLIENT_HELLO)
            client_hello(left + NORRABIST_FIRST_BODY_AT, record.body);
        left = whole.number == NORRABIST_ACCEPTED ? left + norrabist_record_head_next(whole) : end;
    }
}
