/* The memory of the library, over malloc. The definitions are weak, so that a program's own take their place. */
#include "rdfax.h"
#include <stdlib.h>

static char nothing;

static rdfax_memory answer(void *at) {
    return (rdfax_memory){at != NULL, at != NULL ? at : &nothing};
}

__attribute__((weak)) rdfax_memory rdfax_alloc(size_t size, size_t align) {
    return answer(malloc(size != 0 ? size : align));
}

__attribute__((weak)) rdfax_memory rdfax_realloc(void *at, size_t kept, size_t size, size_t align) {
    (void)kept;
    return answer(realloc(at, size != 0 ? size : align));
}

__attribute__((weak)) void rdfax_dealloc(void *at) {
    free(at);
}
