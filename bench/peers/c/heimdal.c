/* AS-REPs of Kerberos, by what Heimdal's compiler of ASN.1 wrote. */
#include "peer.h"
/* the header of Heimdal needs the types of this one */
#include <stdint.h>
#include <krb5_asn1.h>
#include <stdlib.h>

const char *const library = "heimdal";
const char *const job = "kerberos-replies";
const char *const kind = "reply";

void *read_value(const unsigned char *bytes, size_t length) {
    AS_REP *value = malloc(sizeof *value);
    size_t end;
    must(value != NULL && decode_AS_REP(bytes, length, value, &end) == 0 && end == length, "a reply is refused");
    return value;
}

unsigned char *write_value(void *value, size_t *length) {
    size_t room = length_AS_REP(value);
    unsigned char *bytes = malloc(room);
    /* it is written from its end */
    must(bytes != NULL && encode_AS_REP(bytes + room - 1, room, value, length) == 0, "a reply isn't written");
    return bytes;
}

void drop_value(void *value) {
    free_AS_REP(value);
    free(value);
}

void drop_bytes(unsigned char *bytes) {
    free(bytes);
}
