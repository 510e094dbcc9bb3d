/* The best of 50 decodings of 3 MiB, by this library and, where it is compiled with OPENSSL, by openssl. */
#include "kamzirda.h"

#include <stdio.h>
#include <stdlib.h>
#include <time.h>
#ifdef OPENSSL
#include <openssl/evp.h>
#endif

#define BYTES ((size_t)3 << 20)

static double now(void)
{
    struct timespec at;
    clock_gettime(CLOCK_MONOTONIC, &at);
    return (double)at.tv_sec + (double)at.tv_nsec / 1e9;
}

static int ours(const uint8_t *text, size_t len, uint8_t *bytes)
{
    size_t told = 0;
    return kamzirda_base64_decode(KAMZIRDA_STANDARD, text, len, bytes, BYTES, &told) == KAMZIRDA_DONE && told == BYTES;
}

#ifdef OPENSSL
static int openssl(const uint8_t *text, size_t len, uint8_t *bytes)
{
    return EVP_DecodeBlock(bytes, text, (int)len) == (int)BYTES;
}
#endif

static void tell(const char *name, int (*decode)(const uint8_t *, size_t, uint8_t *), const uint8_t *text, size_t len, uint8_t *bytes)
{
    double best = 1e9;
    for (int i = 0; i < 50; i++) {
        double began = now();
        if (!decode(text, len, bytes)) {
            printf("%s: another answer\n", name);
            exit(1);
        }
        double took = now() - began;
        best = took < best ? took : best;
    }
    printf("%-28s %8.2f ms %8.0f MB/s\n", name, best * 1e3, (double)BYTES / best / 1e6);
}

int main(void)
{
    uint8_t *plain = calloc(BYTES, 1), *bytes = calloc(BYTES, 1), *text = calloc(KAMZIRDA_ENCODED_ROOM(BYTES), 1);
    size_t len = 0;
    if (plain == NULL || bytes == NULL || text == NULL) {
        return KAMZIRDA_NO_MEMORY;
    }
    for (size_t i = 0; i < BYTES; i++) {
        plain[i] = (uint8_t)(i * 31 % 251);
    }
    if (kamzirda_base64_encode(KAMZIRDA_STANDARD, plain, BYTES, text, KAMZIRDA_ENCODED_ROOM(BYTES), &len) != KAMZIRDA_DONE) {
        return 1;
    }
    tell("this library from C", ours, text, len, bytes);
#ifdef OPENSSL
    tell("openssl EVP_DecodeBlock", openssl, text, len, bytes);
#endif
    free(plain);
    free(bytes);
    free(text);
    return 0;
}
