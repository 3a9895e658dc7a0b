/* The heap of the static library: it counts requests and blocks, and refuses one request. */
#include <stddef.h>
#include <stdint.h>
#include <stdlib.h>

struct given { uint64_t is_there; void *at; };

/* How many requests came, the number of the one that is refused (0: none), and how many blocks are not given back. */
size_t requests, refused;
long blocks;

static int is_refused(void)
{
    return ++requests == refused;
}

struct given rattle_alloc(size_t size, size_t align)
{
    void *at = is_refused() ? NULL : malloc(size ? size : align);
    blocks += at != NULL;
    return (struct given){at != NULL, at};
}

struct given rattle_realloc(void *old, size_t was, size_t size, size_t align)
{
    (void)was;
    void *at = is_refused() ? NULL : realloc(old, size ? size : align);
    return (struct given){at != NULL, at};
}

void rattle_dealloc(void *at)
{
    blocks--;
    free(at);
}
