/* How the calls for lines read bytes, and write into a caller's room. */
#ifndef REGISTRYD_TEXT_H
#define REGISTRYD_TEXT_H

#include <stddef.h>
#include <stdint.h>

/* A text that is written as far as there is room. */
struct written {
    char *room;
    size_t size, length;
};

void put(struct written *to, char byte);
void put_words(struct written *to, const char *words);

/* Puts the 0 behind a text, and tells its length: what a call that writes one answers. */
int end_written(struct written *to, size_t *length);

/* What is left of a line. */
struct rest {
    const char *at, *end;
};

struct rest rest_of(const char *line, size_t length);

/* Whether the rest begins with a word, which is passed over then. */
int has(struct rest *rest, const char *word);
int has_number(struct rest *rest, uint32_t *number);

#endif
