/* The memory of the library, of which one request is refused: the one whose number the environment gives as REFUSE. That it
 * came to it is told by a file named REACHED. */
#include <fcntl.h>
#include <rdfax.h>
#include <stdlib.h>
#include <unistd.h>

static char nothing;

static bool is_refused(void) {
    static long number;
    const char *refused = getenv("REFUSE");
    number++;
    if (refused == NULL || number != atol(refused))
        return false;
    int file = open(getenv("REACHED"), O_CREAT | O_WRONLY, 0600);
    if (file >= 0)
        close(file);
    return true;
}

static rdfax_memory answer(void *at) {
    return (rdfax_memory){at != NULL, at != NULL ? at : &nothing};
}

rdfax_memory rdfax_alloc(size_t size, size_t align) {
    return answer(is_refused() ? NULL : malloc(size != 0 ? size : align));
}

rdfax_memory rdfax_realloc(void *at, size_t kept, size_t size, size_t align) {
    (void)kept;
    return answer(is_refused() ? NULL : realloc(at, size != 0 ? size : align));
}

void rdfax_dealloc(void *at) {
    free(at);
}
