/* A peer in C: a library that reads and writes one of bench's jobs. */
#ifndef PEER_H
#define PEER_H

#include <stddef.h>

/* What the file of a peer defines. */
extern const char *const library; /* its name in what is printed */
extern const char *const job;
extern const char *const kind; /* the word before its encodings in the file of inputs */

/* Returns a value of these bytes. */
void *read_value(const unsigned char *bytes, size_t length);
/* Returns the encoding of a value, in memory that drop_bytes frees. */
unsigned char *write_value(void *value, size_t *length);
void drop_value(void *value);
void drop_bytes(unsigned char *bytes);
/* Ends the program with a sentence if this isn't so. */
void must(int is_so, const char *sentence);

#endif
