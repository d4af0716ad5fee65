/*
 * Prints the server names, the fragment length and the groups of each ClientHello that begins a
 * record, or which of its extensions is damaged. `extensions.rs` prints the same.
 *
 *     cc -I rust rust/examples/extensions.c target/native/libnorrabist_c.a -o extensions
 *     ./extensions < crates/look/handshake
 */
#include "norrabist.h"
#include <stdio.h>

/* Each server name of a list with its type; a byte that is no letter, digit, hyphen or stop as two
   digits in hex. */
static void names(const uint8_t *list, size_t len) {
    norrabist_server_name_told name;
    size_t at, k;

    for (at = 0; at < len; at = norrabist_server_name_next(name)) {
        name = norrabist_server_name_from(list, len, at);
        printf("  server name, type %u: ", (unsigned)name.name_type);
        for (k = 0; k < name.len; k++) {
            uint8_t byte = list[name.start + k];
            int letter = (byte >= 'a' && byte <= 'z') || (byte >= 'A' && byte <= 'Z');
            if (letter || (byte >= '0' && byte <= '9') || byte == '-' || byte == '.')
                putchar(byte);
            else
                printf("<%02x>", (unsigned)byte);
        }
        putchar('\n');
    }
}

/* The groups of a list by their numbers. */
static void groups(const uint8_t *list, size_t len) {
    size_t place;

    printf("  groups:");
    for (place = 0; place < norrabist_number_count(len); place++)
        printf(" %04x", (unsigned)norrabist_number_at(list, len, place).value);
    putchar('\n');
}

/* The extensions of a block, which is taken whole or not at all. */
static void extensions(const uint8_t *block, size_t len) {
    norrabist_extensions_told all = norrabist_parse_tls_extensions(block, len);
    norrabist_extension_told told;
    size_t at;

    if (all.number != NORRABIST_ACCEPTED) {
        printf("ClientHello, extension %zu is damaged, %s (%u)\n", all.items,
               norrabist_reason_name(all.number), (unsigned)all.number);
        return;
    }
    printf("ClientHello, %zu extensions\n", all.items);
    for (at = 0; at < len; at = norrabist_extension_next(told)) {
        told = norrabist_extension_from(block, len, at);
        if (told.ext_type == NORRABIST_EXT_SERVER_NAME)
            names(block + told.start, told.len);
        else if (told.ext_type == NORRABIST_EXT_MAX_FRAGMENT_LENGTH)
            printf("  fragment length %u\n", (unsigned)block[told.start]);
        else if (told.ext_type == NORRABIST_EXT_SUPPORTED_GROUPS)
            groups(block + told.start, told.len);
    }
}

static void client_hello(const uint8_t *body, size_t len) {
    norrabist_client_hello_told hello = norrabist_parse_tls_handshake_client_hello(body, len);

    if (hello.number != NORRABIST_ACCEPTED)
        return;
    if (hello.has_ext)
        extensions(body + norrabist_client_hello_ext(hello), hello.ext);
    else
        puts("ClientHello, extensions absent");
}

int main(void) {
    static uint8_t bytes[1 << 20];
    const uint8_t *left = bytes, *end = bytes + fread(bytes, 1, sizeof bytes, stdin);

    while (left < end) {
        norrabist_record_head_told whole =
            norrabist_parse_tls_raw_record(left, (size_t)(end - left));
        norrabist_plaintext_head_told record =
            norrabist_parse_tls_plaintext(left, (size_t)(end - left));
        if (record.number == NORRABIST_ACCEPTED && record.msg_type == NORRABIST_CLIENT_HELLO)
            client_hello(left + NORRABIST_FIRST_BODY_AT, record.body);
        /* a record that is not opened may still be whole */
        left = whole.number == NORRABIST_ACCEPTED ? left + norrabist_record_head_next(whole) : end;
    }
    return 0;
}
