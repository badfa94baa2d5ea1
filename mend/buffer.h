/* Bytes that grow. Once there was no memory, a buffer stays as it is, and says so. */
#ifndef BUFFER_H
#define BUFFER_H

#include <stdbool.h>
#include <stddef.h>

typedef struct {
    unsigned char *bytes;
    size_t length;
    size_t room;
    bool failed;
} buffer;

/* Whether there is room for so many more bytes. */
bool buffer_reserve(buffer *text, size_t count);

void buffer_add(buffer *text, const void *bytes, size_t count);

#define BUFFER_ADD(text, literal) buffer_add(text, literal, sizeof(literal) - 1)

/* A code point, as UTF-8. */
void buffer_add_character(buffer *text, unsigned long code);

void buffer_free(buffer *text);

#endif
