/* Tests of the library.
 *
 *     test_picky_der CASES [time]
 *
 * CASES is what tools/bindings writes: inputs, each with what `der read` says of it. Each input is in a block of its own of exactly its size,
 * so that a tool that watches memory sees a read past the end. With `time` the calls are timed, and nothing is tested. */
#define _POSIX_C_SOURCE 200809L
#include "picky_der.h"

#include <pthread.h>
#include <stdio.h>
#include <stdlib.h>
#include <string.h>
#include <time.h>

#ifdef WITH_OPENSSL
#include <openssl/x509.h>
#endif

enum { THREADS = 4, DEEPEST = 64, ROUNDS = 300 };

/* What is known of an input. */
enum verdict { CERTIFICATE = 0, READ = 1, REFUSED = 2, UNKNOWN = 3 };

struct input {
    enum verdict verdict;
    size_t offset; /* where `der read` refuses it */
    uint8_t *bytes;
    size_t len;
};

static struct input *inputs;
static size_t input_count;

static void need(int holds, const char *what) {
    if (!holds) {
        fprintf(stderr, "test_picky_der: %s\n", what);
        exit(1);
    }
}

static size_t number_in(FILE *file) {
    uint8_t four[4];
    need(fread(four, 1, 4, file) == 4, "a number of the cases");
    return (size_t)four[0] << 24 | (size_t)four[1] << 16 | (size_t)four[2] << 8 | four[3];
}

static void load(const char *path) {
    FILE *file = fopen(path, "rb");
    need(file != NULL, "the file of cases");
    input_count = number_in(file);
    inputs = calloc(input_count, sizeof *inputs);
    for (size_t i = 0; i < input_count; i++) {
        inputs[i].verdict = (enum verdict)number_in(file);
        inputs[i].offset = number_in(file);
        inputs[i].len = number_in(file);
        inputs[i].bytes = malloc(inputs[i].len + (inputs[i].len == 0));
        need(fread(inputs[i].bytes, 1, inputs[i].len, file) == inputs[i].len, "the bytes of a case");
    }
    fclose(file);
}

/* ---- elements */

static int same_element(const picky_der_element *a, const picky_der_element *b) {
    return a->offset == b->offset && a->header_len == b->header_len && a->content_len == b->content_len && a->depth == b->depth &&
           a->tag == b->tag && a->tag_class == b->tag_class && a->tag_number == b->tag_number && a->is_constructed == b->is_constructed;
}

/* Goes over the bytes by picky_der_next, and compares with what picky_der_elements gives. */
static void walk(const uint8_t *bytes, size_t len, const picky_der_element *all, size_t count, picky_der_code end) {
    picky_der_place place = {0, 0};
    size_t ends[DEEPEST];
    picky_der_element element;
    size_t found = 0;
    picky_der_code code;
    while ((code = picky_der_next(bytes, len, &place, ends, DEEPEST, &element)) == PICKY_DER_OK) {
        need(found < count && same_element(&element, &all[found]), "an element of the walk");
        found++;
    }
    need(found == count, "how many elements the walk comes to");
    need(code == (end == PICKY_DER_OK ? (picky_der_code)PICKY_DER_END : end), "how the walk ends");
}

/* The elements of the bytes are the same by each way to them. Returns the code, and the position through the pointer. */
static picky_der_code list(const uint8_t *bytes, size_t len, size_t *position) {
    size_t count = 99, again = 99;
    picky_der_element none;
    picky_der_code code = picky_der_elements(bytes, len, &none, 0, &count, position);
    need(*position <= len, "a position of the elements");
    picky_der_element *all = malloc((count + 1) * sizeof *all);
    memset(&all[count], 0xA5, sizeof *all);
    need(picky_der_elements(bytes, len, all, count + 1, &again, position) == code && again == count, "the elements with room");
    for (const uint8_t *byte = (const uint8_t *)&all[count]; byte < (const uint8_t *)&all[count + 1]; byte++)
        need(*byte == 0xA5, "the place after the last element");
    for (size_t i = 0; i < count; i++) {
        picky_der_element front;
        need(all[i].tag == bytes[all[i].offset], "a tag");
        need(picky_der_front(bytes + all[i].offset, len - all[i].offset, &front) == PICKY_DER_OK, "an element at the front");
        front.offset = all[i].offset;
        front.depth = all[i].depth;
        need(same_element(&front, &all[i]), "the same element at the front");
    }
    walk(bytes, len, all, count, code);
    free(all);
    return code;
}

/* ---- checks */

static void certificate(const struct input *it) {
    size_t position = 99;
    need(picky_der_check_certificate(it->bytes, it->len, &position) == PICKY_DER_OK && position == it->len, "a certificate is one");
    need(picky_der_check(PICKY_DER_TYPE_CERTIFICATE, it->bytes, it->len, &position) == PICKY_DER_OK, "by its number too");
    need(picky_der_check_crl(it->bytes, it->len, &position) != PICKY_DER_OK, "it is no list of revoked ones");
    need(picky_der_check(0, it->bytes, it->len, &position) == PICKY_DER_UNKNOWN_TYPE && position == 0, "no type has the number 0");
    need(list(it->bytes, it->len, &position) == PICKY_DER_OK && position == it->len, "its elements are in DER");

    uint8_t *more = malloc(it->len + 1);
    memcpy(more, it->bytes, it->len);
    more[it->len] = 0;
    need(picky_der_check_certificate(more, it->len + 1, &position) == PICKY_DER_INVALID && position == it->len, "a byte after it");
    free(more);
    for (size_t cut = 0; cut < it->len; cut += 31) {
        uint8_t *part = malloc(cut + (cut == 0));
        memcpy(part, it->bytes, cut);
        need(picky_der_check_certificate(part, cut, &position) == PICKY_DER_TRUNCATED && position <= cut, "a part of it");
        free(part);
    }
}

/* Where `der read` says that elements were refused at this position: at bytes after the first, or at the last one before it. */
static size_t offset_of(const uint8_t *bytes, size_t len, size_t position) {
    picky_der_place place = {0, 0};
    size_t ends[DEEPEST], offset = 0;
    picky_der_element element;
    while (picky_der_next(bytes, len, &place, ends, DEEPEST, &element) == PICKY_DER_OK && element.offset < position) {
        if (element.offset == 0 && element.header_len + element.content_len <= position && position < len)
            return position;
        offset = element.offset;
    }
    return offset;
}

/* What the check says of an input is what `der read` and `der show` say. */
static void changed(const struct input *it) {
    size_t position = 99, broken = 99;
    picky_der_code code = picky_der_check_certificate(it->bytes, it->len, &position);
    picky_der_code rule = list(it->bytes, it->len, &broken);
    need(position <= it->len && code != PICKY_DER_NO_MEMORY, "a position of a check");
    need(code != PICKY_DER_OK || rule == PICKY_DER_OK, "what is accepted is in DER");
    need(code < 100 || (code == rule && position == broken), "the rule of a check");
    if (it->verdict == UNKNOWN)
        return;
    need((it->verdict == READ) == (code == PICKY_DER_OK || code > 100), "the verdict of der read");
    if (it->verdict == REFUSED)
        need(it->offset == (rule != PICKY_DER_OK ? broken : offset_of(it->bytes, it->len, position)), "the offset of der read");
}

static void *run(void *unused) {
    (void)unused;
    for (size_t i = 0; i < input_count; i++)
        (inputs[i].verdict == CERTIFICATE ? certificate : changed)(&inputs[i]);
    return NULL;
}

/* ---- places and ends that are none */

static void places(void) {
    const uint8_t bytes[] = {0x30, 0x04, 0x31, 0x02, 0x05, 0x00};
    size_t ends[3] = {0, 0, 0};
    picky_der_element element = {0};
    picky_der_place place = {0, 0};
    need(picky_der_next(bytes, sizeof bytes, &place, ends, 0, &element) == PICKY_DER_NO_ROOM && place.offset == 0, "no end at all");
    need(picky_der_next(bytes, sizeof bytes, &place, ends, 1, &element) == PICKY_DER_OK && place.offset == 2 && place.depth == 1, "one end");
    need(picky_der_next(bytes, sizeof bytes, &place, ends, 1, &element) == PICKY_DER_NO_ROOM && place.depth == 1, "one end for two");
    need(picky_der_next(bytes, sizeof bytes, &place, ends, 2, &element) == PICKY_DER_OK && place.depth == 2, "two ends");
    need(picky_der_next(bytes, sizeof bytes, &place, ends, 2, &element) == PICKY_DER_OK && place.depth == 0, "the last element");
    need(picky_der_next(bytes, sizeof bytes, &place, ends, 2, &element) == PICKY_DER_END && place.offset == 6, "the end");
    need(picky_der_next(bytes, sizeof bytes, &place, ends, 0, &element) == PICKY_DER_END, "the end, again");
    picky_der_place wild[] = {{7, 0}, {SIZE_MAX, 0}, {0, 4}, {0, SIZE_MAX}, {5, 1}, {1, 2}};
    size_t wild_ends[3] = {5, SIZE_MAX, 2};
    for (size_t i = 0; i < sizeof wild / sizeof *wild; i++) {
        picky_der_place before = wild[i];
        need(picky_der_next(bytes, sizeof bytes, &wild[i], wild_ends, 3, &element) == PICKY_DER_NO_PLACE, "a place that is none");
        need(wild[i].offset == before.offset && wild[i].depth == before.depth, "it is as it was");
    }
    size_t position = 99;
    need(picky_der_check_certificate(PICKY_DER_BYTES(NULL), 0, &position) == PICKY_DER_TRUNCATED && position == 0, "no bytes");
    need(picky_der_front(PICKY_DER_BYTES(NULL), 0, &element) == PICKY_DER_RULE_CUT_HEADER, "no element");
    /* no byte is read where there is none */
    const uint8_t *nowhere = (const uint8_t *)(uintptr_t)16;
    need(picky_der_check_certificate(nowhere, 0, &position) == PICKY_DER_TRUNCATED && position == 0, "no bytes anywhere");
    size_t count = 99;
    need(picky_der_elements(nowhere, 0, (picky_der_element *)(uintptr_t)16, 0, &count, &position) == PICKY_DER_OK && count == 0, "no element anywhere");
    place = (picky_der_place){0, 0};
    need(picky_der_next(nowhere, 0, &place, (size_t *)(uintptr_t)16, 0, &element) == PICKY_DER_END, "no walk anywhere");
    size_t used = 0;
    need(picky_der_put((uint8_t *)(uintptr_t)16, 0, &used, 0x04, nowhere, 0) == PICKY_DER_NO_ROOM && used == 2, "no room anywhere");
    need(strcmp(picky_der_clause(PICKY_DER_RULE_LONG_LENGTH), "10.1") == 0 && *picky_der_text(PICKY_DER_END) != 0, "texts");
    need(*picky_der_text(77) == 0 && *picky_der_clause(PICKY_DER_OK) == 0, "no texts");
}

/* ---- paths */

/* The path of a refusal is appended, and counted where there is no room. */
static void path(const struct input *it) {
    uint8_t *bytes = malloc(it->len), out[64], nothing;
    memcpy(bytes, it->bytes, it->len);
    size_t used = 0, ends[DEEPEST];
    need(picky_der_path(PICKY_DER_TYPE_CERTIFICATE, bytes, it->len, out, sizeof out, &used) == PICKY_DER_OK && used == 0, "the path of none");
    picky_der_place place = {0, 0};
    picky_der_element element = {0};
    while (element.tag != 0x06)
        need(picky_der_next(bytes, it->len, &place, ends, DEEPEST, &element) == PICKY_DER_OK, "an object identifier");
    bytes[element.offset] = 0x04;
    const char *wanted = "tbsCertificate.signature.algorithm";
    need(picky_der_path(PICKY_DER_TYPE_CERTIFICATE, bytes, it->len, &nothing, 0, &used) == PICKY_DER_NO_ROOM && used == strlen(wanted), "no room");
    used = 3;
    need(picky_der_path(PICKY_DER_TYPE_CERTIFICATE, bytes, it->len, out, sizeof out, &used) == PICKY_DER_OK, "a path");
    need(used == 3 + strlen(wanted) && memcmp(out + 3, wanted, strlen(wanted)) == 0, "a path by names");
    used = SIZE_MAX - 1;
    need(picky_der_path(PICKY_DER_TYPE_CERTIFICATE, bytes, it->len, out, sizeof out, &used) == PICKY_DER_UNSUPPORTED && used == SIZE_MAX - 1, "a path past all memory");
    need(picky_der_path(0, bytes, it->len, out, sizeof out, &used) == PICKY_DER_UNKNOWN_TYPE, "the path by no type");
    const uint8_t padded[] = {0x6b, 8, 0x30, 6, 0xa0, 4, 2, 2, 0, 5};
    used = 0;
    need(picky_der_path(PICKY_DER_TYPE_KRB, padded, sizeof padded, out, sizeof out, &used) == PICKY_DER_OK, "a path");
    need(used == 7 && memcmp(out, "0.0.0.0", 7) == 0, "a path by numbers");
    free(bytes);
}

/* ---- JSON */

/* The JSON of a certificate begins with the first of its members by name, and is counted where there is no room. */
static void json(const struct input *it) {
    size_t position = 99, used = 0, again = 0;
    uint8_t nothing;
    picky_der_code code = picky_der_to_json(PICKY_DER_TYPE_CERTIFICATE, it->bytes, it->len, &position, &nothing, 0, &used);
    need(code == PICKY_DER_NO_ROOM && position == it->len, "JSON without room");
    uint8_t *out = malloc(used);
    code = picky_der_to_json(PICKY_DER_TYPE_CERTIFICATE, it->bytes, it->len, &position, out, used, &again);
    need(code == PICKY_DER_OK && again == used && position == it->len, "JSON");
    const char *front = "{\"signature\":{\"length\":";
    need(memcmp(out, front, strlen(front)) == 0 && out[used - 1] == '}' && memchr(out, '\n', used) == NULL, "an object on one line");
    again = 0;
    need(picky_der_to_json(PICKY_DER_TYPE_CERTIFICATE, it->bytes, it->len - 1, &position, out, used, &again) == PICKY_DER_TRUNCATED, "JSON of a part");
    need(again == 0 && position < it->len, "nothing is appended then");
    need(picky_der_to_json(PICKY_DER_TYPE_CRL, it->bytes, it->len, &position, out, used, &again) != PICKY_DER_OK, "JSON as another type");
    need(picky_der_to_json(99, it->bytes, it->len, &position, out, used, &again) == PICKY_DER_UNKNOWN_TYPE && position == 0, "JSON of no type");
    const uint8_t reply[] = {0x6F, 0x1B, 0x30, 0x19, 0xA0, 3, 2, 1, 5, 0xA1, 3, 2, 1, 0x0F, 0xA2, 0x0D, 0x30, 0x0B, 0xA0, 3, 2, 1, 0x11, 0xA2, 4, 4, 2, 1, 2};
    code = picky_der_to_json(PICKY_DER_TYPE_KRB, reply, sizeof reply, &position, out, used, &again);
    need(code == PICKY_DER_NO_TABLE && again == 0, "a type without a table");

    uint8_t *der = malloc(it->len + 100);
    need(picky_der_from_json(PICKY_DER_TYPE_CERTIFICATE, out, used, der, it->len, &again) == PICKY_DER_OK && again == it->len, "the message of JSON");
    need(memcmp(der, it->bytes, it->len) == 0, "the same bytes");
    again = 0;
    need(picky_der_from_json(PICKY_DER_TYPE_CERTIFICATE, out, used, der, it->len - 1, &again) == PICKY_DER_NO_ROOM && again == it->len, "a byte too little");
    again = 0;
    code = picky_der_from_json(PICKY_DER_TYPE_CERTIFICATE, out, used - 1, der, it->len + 100, &again);
    need(code == PICKY_DER_NO_VALUE && again > 10, "a part of JSON, and why it is refused");
    again = 0;
    need(picky_der_from_json(PICKY_DER_TYPE_KRB, out, used, der, it->len, &again) == PICKY_DER_NO_TABLE && again == 0, "no table");
    need(picky_der_from_json(99, out, used, der, it->len, &again) == PICKY_DER_UNKNOWN_TYPE && again == 0, "no type");
    free(der);
    free(out);
}

/* ---- BER */

/* A certificate with an indefinite length is the same certificate, and a part of it isn't BER. */
static void ber(const struct input *it) {
    size_t header = it->bytes[1] < 0x80 ? 2 : 2 + (it->bytes[1] & 0x7F), len = it->len - header + 4, used = 0;
    uint8_t *form = malloc(len), *der = malloc(it->len + 100);
    form[0] = 0x30;
    form[1] = 0x80;
    memcpy(form + 2, it->bytes + header, it->len - header);
    memset(form + len - 2, 0, 2);
    need(picky_der_check_certificate(form, len, &used) == PICKY_DER_INVALID, "BER isn't DER");
    used = 0;
    need(picky_der_from_ber(PICKY_DER_TYPE_CERTIFICATE, form, len, der, it->len, &used) == PICKY_DER_OK && used == it->len, "the message of BER");
    need(memcmp(der, it->bytes, it->len) == 0, "its DER");
    used = 0;
    need(picky_der_from_ber(PICKY_DER_TYPE_CERTIFICATE, form, len, der, it->len - 1, &used) == PICKY_DER_NO_ROOM && used == it->len, "a byte too little");
    used = 0;
    need(picky_der_from_ber(PICKY_DER_TYPE_CERTIFICATE, form, len - 2, der, it->len + 100, &used) == PICKY_DER_NO_VALUE, "BER without its end");
    need(used > 12 && memcmp(der, "not BER at ", 11) == 0, "and why it is refused");
    used = 0;
    need(picky_der_from_ber(PICKY_DER_TYPE_KRB, form, len, der, it->len, &used) == PICKY_DER_NO_TABLE && used == 0, "no table");
    need(picky_der_from_ber(99, form, len, der, it->len, &used) == PICKY_DER_UNKNOWN_TYPE && used == 0, "no type");
    free(der);
    free(form);
}

/* ---- writing */

struct buffer {
    uint8_t *bytes;
    size_t room, used;
};

/* Writes the elements of the bytes again, those from `*at` on that are at this depth. */
static picky_der_code write_again(struct buffer *to, const uint8_t *bytes, const picky_der_element *all, size_t count, size_t *at, size_t depth) {
    picky_der_code worst = PICKY_DER_OK;
    while (*at < count && all[*at].depth == depth) {
        const picky_der_element *it = &all[(*at)++];
        picky_der_code code;
        if (it->is_constructed) {
            size_t start = to->used;
            code = write_again(to, bytes, all, count, at, depth + 1);
            worst = code != PICKY_DER_OK ? code : worst;
            code = picky_der_wrap(to->bytes, to->room, &to->used, start, it->tag);
        } else {
            code = picky_der_put(to->bytes, to->room, &to->used, it->tag, bytes + it->offset + it->header_len, it->content_len);
        }
        worst = code != PICKY_DER_OK ? code : worst;
    }
    return worst;
}

/* A certificate that is written again from its elements is the same bytes. The first pass has no room, and tells the size. */
static void written_again(const struct input *it) {
    size_t count, position, at = 0;
    picky_der_element none;
    uint8_t nothing;
    need(picky_der_elements(it->bytes, it->len, &none, 0, &count, &position) == PICKY_DER_OK, "the elements of a certificate");
    picky_der_element *all = malloc(count * sizeof *all);
    picky_der_elements(it->bytes, it->len, all, count, &count, &position);
    struct buffer sized = {&nothing, 0, 0};
    need(write_again(&sized, it->bytes, all, count, &at, 0) == PICKY_DER_NO_ROOM && sized.used == it->len, "the size of what is written");
    struct buffer exact = {malloc(it->len), it->len, 0};
    at = 0;
    need(write_again(&exact, it->bytes, all, count, &at, 0) == PICKY_DER_OK && exact.used == it->len, "what fits exactly");
    need(memcmp(exact.bytes, it->bytes, it->len) == 0, "what is written");
    struct buffer small = {malloc(it->len - 1), it->len - 1, 0};
    at = 0;
    need(write_again(&small, it->bytes, all, count, &at, 0) == PICKY_DER_NO_ROOM && small.used == it->len, "one byte too little");
    free(small.bytes);
    free(exact.bytes);
    free(all);
}

static void writing(void) {
    uint8_t out[8];
    size_t used = 0;
    const uint8_t two = 2, one = 1;
    picky_der_put(out, sizeof out, &used, 0x02, &two, 1);
    picky_der_put(out, sizeof out, &used, 0x02, &one, 1);
    need(picky_der_wrap(out, sizeof out, &used, 0, 0x31) == PICKY_DER_RULE_SET_ORDER && used == 6, "a set out of order");
    need(picky_der_sort(out, sizeof out, used, 7) == PICKY_DER_NO_PLACE && picky_der_sort(out, sizeof out, 9, 0) == PICKY_DER_NO_ROOM, "no bytes to sort");
    need(picky_der_sort(out, sizeof out, used, 1) > 100 && memcmp(out, "\x02\x01\x02\x02\x01\x01", 6) == 0, "bytes that aren't elements");
    need(picky_der_sort(out, sizeof out, used, used) == PICKY_DER_OK && memcmp(out, "\x02\x01\x02\x02\x01\x01", 6) == 0, "none to sort");
    need(picky_der_wrap(out, sizeof out, &used, 7, 0x30) == PICKY_DER_NO_PLACE && used == 6, "a start past the end");
    need(picky_der_wrap(out, sizeof out, &used, 0, 0x30) == PICKY_DER_OK && used == 8, "the same as a sequence");
    need(memcmp(out, "\x30\x06\x02\x01\x02\x02\x01\x01", 8) == 0, "its bytes");
    used = 6;
    memmove(out, out + 2, 6);
    need(picky_der_sort(out, sizeof out, used, 0) == PICKY_DER_OK && picky_der_wrap(out, sizeof out, &used, 0, 0x31) == PICKY_DER_OK, "a set in order");
    need(memcmp(out, "\x31\x06\x02\x01\x01\x02\x01\x02", 8) == 0, "its bytes");
    used = SIZE_MAX - 1;
    need(picky_der_put(out, sizeof out, &used, 0x02, &one, 1) == PICKY_DER_UNSUPPORTED && used == SIZE_MAX - 1, "a size that isn't one");
    need(picky_der_wrap(out, sizeof out, &used, 0, 0x30) == PICKY_DER_UNSUPPORTED && used == SIZE_MAX - 1, "a size that isn't one");
}

/* ---- times */

static double now(void) {
    struct timespec at;
    clock_gettime(CLOCK_MONOTONIC, &at);
    return (double)at.tv_sec + (double)at.tv_nsec / 1e9;
}

#define TIMED(name, call)                                                                                                                  \
    do {                                                                                                                                   \
        double best = 1e9;                                                                                                                 \
        size_t certificates = 0;                                                                                                           \
        for (int round = 0; round < ROUNDS; round++) {                                                                                     \
            certificates = 0;                                                                                                              \
            double start = now();                                                                                                          \
            for (size_t i = 0; i < input_count; i++)                                                                                       \
                if (inputs[i].verdict == CERTIFICATE) {                                                                                    \
                    const uint8_t *bytes = inputs[i].bytes;                                                                                \
                    size_t len = inputs[i].len;                                                                                            \
                    certificates++;                                                                                                        \
                    call;                                                                                                                  \
                }                                                                                                                          \
            double each = (now() - start) / (double)certificates * 1e6;                                                                    \
            best = each < best ? each : best;                                                                                              \
        }                                                                                                                                  \
        printf("%-34s %8.2f us\n", name, best);                                                                                            \
    } while (0)

static void walk_alone(const uint8_t *bytes, size_t len) {
    picky_der_place place = {0, 0};
    size_t ends[DEEPEST];
    picky_der_element element;
    while (picky_der_next(bytes, len, &place, ends, DEEPEST, &element) == PICKY_DER_OK)
        ;
}

static void measure(void) {
    size_t position, count;
    picky_der_element none;
    TIMED("picky_der_check_certificate", picky_der_check_certificate(bytes, len, &position));
    TIMED("picky_der_elements, without room", picky_der_elements(bytes, len, &none, 0, &count, &position));
    TIMED("picky_der_next, to the end", walk_alone(bytes, len));
#ifdef WITH_OPENSSL
    TIMED("d2i_X509", {
        const uint8_t *at = bytes;
        X509 *it = d2i_X509(NULL, &at, (long)len);
        need(it != NULL, "OpenSSL");
        X509_free(it);
    });
    TIMED("d2i_X509, i2d_X509, memcmp", {
        const uint8_t *at = bytes;
        X509 *it = d2i_X509(NULL, &at, (long)len);
        unsigned char *again = NULL;
        need(i2d_X509(it, &again) == (int)len && memcmp(again, bytes, len) == 0, "OpenSSL");
        OPENSSL_free(again);
        X509_free(it);
    });
#endif
}

int main(int argc, char **argv) {
    need(argc > 1, "usage: test_picky_der CASES [time]");
    load(argv[1]);
    if (argc > 2) {
        measure();
        return 0;
    }
    places();
    writing();
    for (size_t i = 0; i < input_count; i++)
        if (inputs[i].verdict == CERTIFICATE)
            written_again(&inputs[i]);
    path(&inputs[0]);
    json(&inputs[0]);
    ber(&inputs[0]);
    pthread_t threads[THREADS];
    for (int i = 0; i < THREADS; i++)
        need(pthread_create(&threads[i], NULL, run, NULL) == 0, "a thread");
    for (int i = 0; i < THREADS; i++)
        pthread_join(threads[i], NULL);
    for (size_t i = 0; i < input_count; i++)
        free(inputs[i].bytes);
    free(inputs);
    return 0;
}
