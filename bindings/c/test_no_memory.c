/* Each allocation of a check and of a listing fails once, and each failure is PICKY_DER_NO_MEMORY.
 *
 *     test_no_memory CASES
 *
 * It is linked with --wrap=malloc and --wrap=realloc. */
#include "picky_der.h"

#include <stdio.h>
#include <stdlib.h>
#include <string.h>

void *__real_malloc(size_t size);
void *__real_realloc(void *block, size_t size);
void *__wrap_malloc(size_t size);
void *__wrap_realloc(void *block, size_t size);

/* How many allocations succeed before one fails; none fails if it is negative. A compiler takes malloc for a function that reads no variable. */
static volatile long left = -1;

static int fails(void) {
    return left >= 0 && left-- == 0;
}

void *__wrap_malloc(size_t size) {
    return fails() ? NULL : __real_malloc(size);
}

void *__wrap_realloc(void *block, size_t size) {
    return fails() ? NULL : __real_realloc(block, size);
}

static void need(int holds, const char *what) {
    if (!holds) {
        fprintf(stderr, "test_no_memory: %s\n", what);
        exit(1);
    }
}

static size_t number_in(FILE *file) {
    uint8_t four[4];
    need(fread(four, 1, 4, file) == 4, "a number of the cases");
    return (size_t)four[0] << 24 | (size_t)four[1] << 16 | (size_t)four[2] << 8 | four[3];
}

int main(int argc, char **argv) {
    FILE *file = argc > 1 ? fopen(argv[1], "rb") : NULL;
    need(file != NULL && number_in(file) > 0 && number_in(file) == 0, "the cases begin with a certificate");
    number_in(file);
    size_t len = number_in(file), position, count;
    uint8_t *bytes = malloc(len);
    need(fread(bytes, 1, len, file) == len, "its bytes");
    fclose(file);

    picky_der_element element;
    memset(&element, 0xA5, sizeof element);
    picky_der_element before = element;
    long failures = 0;
    picky_der_code code;
    do {
        left = failures++;
        position = 99;
        code = picky_der_check_certificate(bytes, len, &position);
        need(code == PICKY_DER_OK || (code == PICKY_DER_NO_MEMORY && position == 0), "a check without memory");
    } while (code != PICKY_DER_OK);
    need(failures > 10, "a check takes memory");
    failures = 0;
    do {
        left = failures++;
        code = picky_der_elements(bytes, len, &element, 1, &count, &position);
        need(code == PICKY_DER_OK || (code == PICKY_DER_NO_MEMORY && position == 0 && count == 0), "a listing without memory");
        need(code == PICKY_DER_OK || memcmp(&element, &before, sizeof element) == 0, "nothing is written then");
    } while (code != PICKY_DER_OK);
    need(failures > 1, "a listing takes memory");
    failures = 0;
    bytes[0] = 0x31;
    do {
        left = failures++;
        size_t written = 0;
        uint8_t path[64];
        code = picky_der_path(PICKY_DER_TYPE_CERTIFICATE, bytes, len, path, sizeof path, &written);
        need(code == PICKY_DER_OK || (code == PICKY_DER_NO_MEMORY && written == 0), "a path without memory");
    } while (code != PICKY_DER_OK);
    need(failures > 1, "a path takes memory");
    bytes[0] = 0x30;
    failures = 0;
    left = -1;
    uint8_t *json = malloc(8 * len + 4096);
    size_t written;
    do {
        left = failures++;
        written = 0;
        code = picky_der_to_json(PICKY_DER_TYPE_CERTIFICATE, bytes, len, &position, json, 8 * len + 4096, &written);
        need(code == PICKY_DER_OK || (code == PICKY_DER_NO_MEMORY && written == 0), "JSON without memory");
    } while (code != PICKY_DER_OK);
    need(failures > 10, "JSON takes memory");
    failures = 0;
    size_t json_len = written;
    do {
        left = failures++;
        written = 0;
        code = picky_der_from_json(PICKY_DER_TYPE_CERTIFICATE, json, json_len, bytes, len, &written);
        need(code == PICKY_DER_OK || (code == PICKY_DER_NO_MEMORY && written == 0), "a message of JSON without memory");
    } while (code != PICKY_DER_OK);
    need(failures > 10 && written == len, "a message of JSON takes memory");
    failures = 0;
    do {
        left = failures++;
        written = 0;
        code = picky_der_from_ber(PICKY_DER_TYPE_CERTIFICATE, bytes, len, json, len, &written);
        need(code == PICKY_DER_OK || (code == PICKY_DER_NO_MEMORY && written == 0), "a message in BER without memory");
    } while (code != PICKY_DER_OK);
    need(failures > 10 && written == len, "a message in BER takes memory");
    left = -1;
    free(json);
    failures = 0;
    uint8_t sorted[] = {2, 1, 2, 2, 1, 1};
    do {
        left = failures++;
        code = picky_der_sort(sorted, sizeof sorted, sizeof sorted, 0);
        need(code == PICKY_DER_OK || (code == PICKY_DER_NO_MEMORY && sorted[2] == 2), "a sort without memory");
    } while (code != PICKY_DER_OK);
    need(failures > 1 && sorted[2] == 1, "a sort takes memory");
    left = -1;

    /* what takes none */
    left = 0;
    picky_der_place place = {0, 0};
    size_t ends[64], used = 0;
    uint8_t out[4];
    while ((code = picky_der_next(bytes, len, &place, ends, 64, &element)) == PICKY_DER_OK)
        ;
    need(code == PICKY_DER_END, "a walk takes no memory");
    need(picky_der_front(bytes, len, &element) == PICKY_DER_OK, "nor does the front");
    need(picky_der_put(out, sizeof out, &used, 0x05, bytes, 0) == PICKY_DER_OK, "nor does writing");
    left = -1;
    free(bytes);
    return 0;
}
