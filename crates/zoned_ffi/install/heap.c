/* The three functions by which the library takes memory, over malloc: for processors for which the kit has no heap, and to start
   one of your own from. zoned(3) says under "Memory" what each promises. */
#include <stdbool.h>
#include <stddef.h>
#include <stdlib.h>

struct tried {
    bool ok;
    void *p;
};

static struct tried tried_as(void *block) {
    static char none;
    return (struct tried){block != NULL, block ? block : &none};
}

struct tried rattle_alloc(size_t size, size_t align) { return tried_as(malloc(size ? size : align)); }

struct tried rattle_realloc(void *block, size_t kept, size_t size, size_t align) {
    (void)kept;
    return tried_as(realloc(block, size ? size : align));
}

void rattle_dealloc(void *block) { free(block); }
