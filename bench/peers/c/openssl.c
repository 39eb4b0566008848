/* Signed messages by OpenSSL. It also makes the keys of their certificates ready, and keeps encodings of parts. */
#include "peer.h"
#include <openssl/cms.h>
#include <openssl/crypto.h>

const char *const library = "openssl";
const char *const job = "signed-messages";
const char *const kind = "signed";

void *read_value(const unsigned char *bytes, size_t length) {
    const unsigned char *end = bytes;
    CMS_ContentInfo *value = d2i_CMS_ContentInfo(NULL, &end, (long)length);
    must(value != NULL && end == bytes + length, "a message is refused");
    return value;
}

unsigned char *write_value(void *value, size_t *length) {
    unsigned char *bytes = NULL;
    int count = i2d_CMS_ContentInfo(value, &bytes);
    must(count > 0, "a message isn't written");
    *length = (size_t)count;
    return bytes;
}

void drop_value(void *value) {
    CMS_ContentInfo_free(value);
}

void drop_bytes(unsigned char *bytes) {
    OPENSSL_free(bytes);
}
