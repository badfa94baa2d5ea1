/* The same page so many times in one process, through the library: embed COUNT PAGE [TASK]
 * TASK is extract, which is meant without it, check, or open, which opens and closes the page and hands nothing over. */
#include <rdfax.h>
#include <stdio.h>
#include <stdlib.h>
#include <string.h>

int main(int count, char **words) {
    FILE *file = count > 2 ? fopen(words[2], "rb") : NULL;
    if (file == NULL || fseek(file, 0, SEEK_END) != 0)
        return 70;
    size_t length = (size_t)ftell(file), most = 8 * length + 4096;
    rewind(file);
    char *bytes = malloc(length), *room = malloc(most);
    if (bytes == NULL || room == NULL || fread(bytes, 1, length, file) != length)
        return 70;
    const char *base = "http://localhost/", *task = count > 3 ? words[3] : "extract";
    rdfax_options options = {RDFAX_HTML, RDFAX_NQUADS, 0};
    rdfax_page page = RDFAX_NO_PAGE;
    size_t written = 0;
    for (int left = atoi(words[1]); left > 0; left--) {
        uint32_t status = strcmp(task, "check") == 0
            ? rdfax_check(RDFAX_HTML, NULL, 0, &page)
            : rdfax_extract(&options, base, strlen(base), NULL, 0, NULL, 0, &page);
        if (strcmp(task, "open") != 0) {
            if (status == RDFAX_DONE)
                status = rdfax_feed(&page, bytes, length);
            if (status == RDFAX_DONE)
                status = rdfax_finish(&page);
            written += rdfax_text(&page, 0, room, most);
        }
        rdfax_close(&page);
        if (status != RDFAX_DONE)
            return (int)status;
    }
    printf("%zu\n", written);
    free(bytes);
    free(room);
    return 0;
}
