#include "text.h"

#include "registryd.h"

#include <string.h>

void put(struct written *to, char byte)
{
    if (to->length + 1 < to->size)
        to->room[to->length] = byte;
    to->length++;
}

void put_words(struct written *to, const char *words)
{
    while (*words)
        put(to, *words++);
}

int end_written(struct written *to, size_t *length)
{
    if (to->size)
        to->room[to->length < to->size ? to->length : 0] = '\0';
    *length = to->length;
    return to->length < to->size ? REGISTRYD_OK : REGISTRYD_MEMORY;
}

struct rest rest_of(const char *line, size_t length)
{
    return (struct rest){line, line + (length && line[length - 1] == '\n' ? length - 1 : length)};
}

int has(struct rest *rest, const char *word)
{
    size_t length = strlen(word);
    if ((size_t)(rest->end - rest->at) < length || memcmp(rest->at, word, length))
        return 0;
    rest->at += length;
    return 1;
}

int has_number(struct rest *rest, uint32_t *number)
{
    const char *first = rest->at;
    uint64_t read = 0;
    for (; rest->at < rest->end && *rest->at >= '0' && *rest->at <= '9' && read <= UINT32_MAX; rest->at++)
        read = read * 10 + (uint64_t)(*rest->at - '0');
    *number = (uint32_t)read;
    return rest->at > first && read <= UINT32_MAX;
}
