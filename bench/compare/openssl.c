/* Answers lines `read TYPE HEX` by what OpenSSL's parser makes of the bytes: `ok N ..` with how many bytes were read, or `refused`.
 *
 *     cc -O2 openssl.c -lcrypto -o openssl && ./openssl < lines
 *
 * The types are those of der_tool, and `certificate`. After N comes the value as OpenSSL encodes it again, or for a certificate what
 * `print_certificate` prints. OpenSSL has no numbers of a given size and no character, so these two are tested here.
 */
#include <openssl/asn1t.h>
#include <openssl/bn.h>
#include <openssl/crypto.h>
#include <openssl/err.h>
#include <openssl/x509.h>
#include <stdbool.h>
#include <stdio.h>
#include <stdlib.h>
#include <string.h>
#include <sys/types.h>
#include <time.h>

typedef struct {
    ASN1_INTEGER *size;
    ASN1_NULL *null;
} PAIR;

ASN1_SEQUENCE(PAIR) = {
    ASN1_SIMPLE(PAIR, size, ASN1_INTEGER),
    ASN1_SIMPLE(PAIR, null, ASN1_NULL),
} static_ASN1_SEQUENCE_END(PAIR)

typedef struct {
    ASN1_INTEGER *number;
    ASN1_OCTET_STRING *octets;
    PAIR *pair;
} TEST;

ASN1_SEQUENCE(TEST) = {
    ASN1_SIMPLE(TEST, number, ASN1_INTEGER),
    ASN1_SIMPLE(TEST, octets, ASN1_OCTET_STRING),
    ASN1_SIMPLE(TEST, pair, PAIR),
} static_ASN1_SEQUENCE_END(TEST)

typedef struct {
    X509_ALGOR *algorithm;
    ASN1_BIT_STRING *key;
} PUBLIC_KEY;

ASN1_SEQUENCE(PUBLIC_KEY) = {
    ASN1_SIMPLE(PUBLIC_KEY, algorithm, X509_ALGOR),
    ASN1_SIMPLE(PUBLIC_KEY, key, ASN1_BIT_STRING),
} static_ASN1_SEQUENCE_END(PUBLIC_KEY)

/* Whether a number isn't negative and has at most so many bits. */
static bool fits(const ASN1_INTEGER *number, int bits)
{
    BIGNUM *value = ASN1_INTEGER_to_BN(number, NULL);
    bool answer = value != NULL && !BN_is_negative(value) && BN_num_bits(value) <= bits;

    BN_free(value);
    return answer;
}

static bool is_any(const void *value, int bits)
{
    (void)value;
    (void)bits;
    return true;
}

static bool is_number(const void *value, int bits)
{
    return fits(value, bits);
}

static bool is_character(const void *value, int bits)
{
    unsigned long code;
    int size = ASN1_STRING_length(value);

    (void)bits;
    return size > 0 && UTF8_getc(ASN1_STRING_get0_data(value), size, &code) == size;
}

static bool is_test(const void *value, int bits)
{
    const TEST *test = value;

    (void)bits;
    return fits(test->number, 8) && fits(test->pair->size, 64);
}

typedef struct {
    const char *word;
    ASN1_ITEM_EXP *item;
    bool (*is_value)(const void *value, int bits);
    int bits;
} TYPE;

static const TYPE TYPES[] = {
    {"bool", ASN1_ITEM_ref(ASN1_BOOLEAN), is_any, 0},
    {"u8", ASN1_ITEM_ref(ASN1_INTEGER), is_number, 8},
    {"u16", ASN1_ITEM_ref(ASN1_INTEGER), is_number, 16},
    {"u32", ASN1_ITEM_ref(ASN1_INTEGER), is_number, 32},
    {"u64", ASN1_ITEM_ref(ASN1_INTEGER), is_number, 64},
    {"u128", ASN1_ITEM_ref(ASN1_INTEGER), is_number, 128},
    {"null", ASN1_ITEM_ref(ASN1_NULL), is_any, 0},
    {"char", ASN1_ITEM_ref(ASN1_UTF8STRING), is_character, 0},
    {"text", ASN1_ITEM_ref(ASN1_UTF8STRING), is_any, 0},
    {"octets", ASN1_ITEM_ref(ASN1_OCTET_STRING), is_any, 0},
    {"raw", ASN1_ITEM_ref(ASN1_ANY), is_any, 0},
    {"test", ASN1_ITEM_ref(TEST), is_test, 0},
    {"spki", ASN1_ITEM_ref(PUBLIC_KEY), is_any, 0},
};

static void print_hex(const unsigned char *bytes, long size)
{
    for (long place = 0; place < size; place++)
        printf("%02x", bytes[place]);
}

/* Prints the encoding of a value of the item. */
static void print_encoding(ASN1_VALUE **value, const ASN1_ITEM *item)
{
    int size = ASN1_item_ex_i2d((const ASN1_VALUE **)value, NULL, item, -1, 0);
    unsigned char *bytes = size > 0 ? malloc(size) : NULL;
    unsigned char *end = bytes;

    if (bytes != NULL)
        print_hex(bytes, ASN1_item_ex_i2d((const ASN1_VALUE **)value, &end, item, -1, 0));
    free(bytes);
}

static void answer_value(const TYPE *type, const unsigned char *bytes, long size)
{
    const ASN1_ITEM *item = ASN1_ITEM_ptr(type->item);
    const unsigned char *end = bytes;
    ASN1_VALUE *value = NULL;
    ASN1_TLC context = {0};

    if (ASN1_item_ex_d2i(&value, &end, size, item, -1, 0, 0, &context) <= 0 || !type->is_value(value, type->bits)) {
        printf("refused\n");
    } else {
        printf("ok %ld ", (long)(end - bytes));
        print_encoding(&value, item);
        printf("\n");
    }
    ASN1_item_ex_free(&value, item);
}

/* Prints the attributes of a name, each as `STEP:OID:ELEMENT`, with `,` between them, and `-` where there are none. */
static void print_name(const X509_NAME *name)
{
    int count = X509_NAME_entry_count(name);

    for (int place = 0; place < count; place++) {
        const X509_NAME_ENTRY *entry = X509_NAME_get_entry(name, place);
        unsigned char *element = NULL;
        char kind[4096];
        int size = i2d_ASN1_PRINTABLE(X509_NAME_ENTRY_get_data(entry), &element);

        OBJ_obj2txt(kind, sizeof kind, X509_NAME_ENTRY_get_object(entry), 1);
        printf("%s%d:%s:", place == 0 ? "" : ",", X509_NAME_ENTRY_set(entry), kind);
        print_hex(element, size);
        OPENSSL_free(element);
    }
    if (count == 0)
        printf("-");
}

/* Prints a date, as 2026-11-27T23:12:00Z. A time with a fraction is printed as it is, and one that is none as the digits of its bytes. */
static void print_time(const ASN1_TIME *time)
{
    const unsigned char *content = ASN1_STRING_get0_data(time);
    int size = ASN1_STRING_length(time);
    struct tm moment;

    printf(" ");
    if (!ASN1_TIME_to_tm(time, &moment))
        print_hex(content, size);
    else if (memchr(content, '.', size) != NULL)
        printf("%.*s", size, content);
    else
        printf("%04d-%02d-%02dT%02d:%02d:%02dZ", moment.tm_year + 1900, moment.tm_mon + 1, moment.tm_mday, moment.tm_hour,
               moment.tm_min, moment.tm_sec);
}

/* Prints the subject, the two times, the object identifier of the key, and how many extensions there are. */
static void print_certificate(const X509 *certificate)
{
    ASN1_OBJECT *algorithm = NULL;
    char kind[4096];

    X509_PUBKEY_get0_param(&algorithm, NULL, NULL, NULL, X509_get_X509_PUBKEY(certificate));
    OBJ_obj2txt(kind, sizeof kind, algorithm, 1);
    print_name(X509_get_subject_name(certificate));
    print_time(X509_get0_notBefore(certificate));
    print_time(X509_get0_notAfter(certificate));
    printf(" %s %d\n", kind, X509_get_ext_count(certificate));
}

/* A certificate must be all of the bytes. */
static void answer_certificate(const unsigned char *bytes, long size)
{
    const unsigned char *end = bytes;
    X509 *certificate = d2i_X509(NULL, &end, size);

    if (certificate == NULL || end != bytes + size) {
        printf("refused\n");
    } else {
        printf("ok %ld ", size);
        print_certificate(certificate);
    }
    X509_free(certificate);
}

/* Answers a line with this word for the type and these bytes. */
static void answer(const char *word, const unsigned char *bytes, long size)
{
    if (strcmp(word, "certificate") == 0) {
        answer_certificate(bytes, size);
        return;
    }
    for (size_t place = 0; place < sizeof TYPES / sizeof *TYPES; place++) {
        if (strcmp(word, TYPES[place].word) == 0) {
            answer_value(&TYPES[place], bytes, size);
            return;
        }
    }
    printf("unknown\n");
}

int main(void)
{
    char *line = NULL;
    size_t room = 0;

    while (getline(&line, &room, stdin) > 0) {
        char *word = line + strlen("read ");
        char *digits = strchr(word, ' ');
        long size = 0;
        unsigned char *bytes;

        *digits++ = '\0';
        digits[strcspn(digits, "\n")] = '\0';
        bytes = OPENSSL_hexstr2buf(digits, &size);
        answer(word, bytes, bytes == NULL ? 0 : size);
        OPENSSL_free(bytes);
        ERR_clear_error();
    }
    free(line);
    return 0;
}
