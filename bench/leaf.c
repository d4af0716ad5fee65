/* Calls the reader of a number, or of a ClientHello, again and again: bench/leaf compiles it. With
   CALL it runs one call TIMES times and needs no C library nor its headers, so that it is made for
   either machine; else it times all calls, those of both trees in turn. */
typedef __SIZE_TYPE__ size_t;
typedef __UINT8_TYPE__ uint8_t;
typedef __UINT64_TYPE__ uint64_t;

struct answer {
    uint64_t words[3];
};

struct told {
    uint64_t words[2];
};

/* What bench/leaf gives each tree: the width is the number of a case of `Width`, or is left alone
   by a function that knows it; a slice is passed as a pointer and a length. */
#define TREE(name)                                                                         \
    void name##_any(struct answer *, const uint8_t *, size_t, size_t, uint8_t);            \
    void name##_one(struct answer *, const uint8_t *, size_t, size_t, uint8_t);            \
    void name##_two(struct answer *, const uint8_t *, size_t, size_t, uint8_t);            \
    void name##_three(struct answer *, const uint8_t *, size_t, size_t, uint8_t);          \
    void name##_four(struct answer *, const uint8_t *, size_t, size_t, uint8_t);           \
    void name##_none(struct answer *, const uint8_t *, size_t, size_t, uint8_t);           \
    struct told name##_hello_none(const uint8_t *, size_t);                                \
    struct told name##_norrabist_parse_tls_handshake_client_hello(const uint8_t *, size_t);
TREE(before)
TREE(after)

/* A ClientHello with one cipher, one method and an empty block of extensions; a number stands where
   the ciphers begin. */
static const uint8_t body[64] = {[0] = 3, 3, [36] = 2, 0, 0x2f, 1};
enum { body_len = 43, number_at = 35 };
static struct answer answer;

#define NUMBER(name, width) name(&answer, body, sizeof body, number_at, (width) - 1)
#define HELLO(name) name(body, body_len)

#ifdef CALL
static void end(void) {
#if defined(__x86_64__)
    __asm__ volatile("syscall" : : "a"(60), "D"(0));
#else
    register long status __asm__("x0") = 0, number __asm__("x8") = 93;
    __asm__ volatile("svc 0" : : "r"(status), "r"(number));
#endif
}

__attribute__((noreturn)) void _start(void) {
    int k;

    for (k = 0; k < TIMES; k++)
        CALL;
    for (;;)
        end();
}
#else
#include <stdio.h>
#include <time.h>

enum { rounds = 301, calls = 20000 };

static double now(void) {
    struct timespec t;

    clock_gettime(CLOCK_MONOTONIC, &t);
    return (double)t.tv_sec * 1e9 + (double)t.tv_nsec;
}

/* The best time of a call, in ns, its loop among it. */
#define BEST(best, call)                        \
    do {                                        \
        double began = now(), took;             \
        for (int k = 0; k < calls; k++)         \
            call;                               \
        took = (now() - began) / calls;         \
        if (best == 0 || took < best)           \
            best = took;                        \
    } while (0)

#define TIMED(name, call_before, call_after)                          \
    do {                                                              \
        double before = 0, after = 0;                                 \
        for (int round = 0; round < rounds; round++) {                \
            BEST(before, call_before);                                \
            BEST(after, call_after);                                  \
        }                                                             \
        printf("%s %.2f %.2f\n", name, before, after);                \
    } while (0)

int main(void) {
    TIMED("any-1", NUMBER(before_any, 1), NUMBER(after_any, 1));
    TIMED("any-2", NUMBER(before_any, 2), NUMBER(after_any, 2));
    TIMED("any-3", NUMBER(before_any, 3), NUMBER(after_any, 3));
    TIMED("any-4", NUMBER(before_any, 4), NUMBER(after_any, 4));
    TIMED("known-1", NUMBER(before_one, 1), NUMBER(after_one, 1));
    TIMED("known-2", NUMBER(before_two, 2), NUMBER(after_two, 2));
    TIMED("known-3", NUMBER(before_three, 3), NUMBER(after_three, 3));
    TIMED("known-4", NUMBER(before_four, 4), NUMBER(after_four, 4));
    TIMED("client-hello", HELLO(before_norrabist_parse_tls_handshake_client_hello),
          HELLO(after_norrabist_parse_tls_handshake_client_hello));
    TIMED("nothing", NUMBER(before_none, 1), NUMBER(after_none, 1));
    return 0;
}
#endif
