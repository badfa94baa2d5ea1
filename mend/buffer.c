#include "buffer.h"
#include <stdint.h>
#include <stdlib.h>
#include <string.h>

enum { FIRST_ROOM = 4096 };

bool buffer_reserve(buffer *text, size_t count) {
    if (text->failed || count <= text->room - text->length)
        return !text->failed;
    if (count > SIZE_MAX / 2 - text->length) {
        text->failed = true;
        return false;
    }
    size_t room = text->room != 0 ? text->room : FIRST_ROOM;
    while (room - text->length < count)
        room *= 2;
    unsigned char *bytes = realloc(text->bytes, room);
    if (bytes == NULL) {
        text->failed = true;
        return false;
    }
    text->bytes = bytes;
    text->room = room;
    return true;
}

void buffer_add(buffer *text, const void *bytes, size_t count) {
    if (count == 0 || !buffer_reserve(text, count))
        return;
    memcpy(text->bytes + text->length, bytes, count);
    text->length += count;
}

void buffer_add_character(buffer *text, unsigned long code) {
    unsigned char bytes[4];
    size_t count = code < 0x80 ? 1 : code < 0x800 ? 2 : code < 0x10000 ? 3 : 4;
    static const unsigned char lead[] = {0, 0, 0xC0, 0xE0, 0xF0};
    for (size_t at = count; at > 1; at--) {
        bytes[at - 1] = (unsigned char)(0x80 | (code & 0x3F));
        code >>= 6;
    }
    bytes[0] = (unsigned char)(lead[count] | code);
    buffer_add(text, bytes, count);
}

void buffer_free(buffer *text) {
    free(text->bytes);
    *text = (buffer){0};
}
