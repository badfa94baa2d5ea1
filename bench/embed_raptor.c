/* The same page so many times in one process, through libraptor2: embed_raptor COUNT PAGE */
#include <raptor2.h>
#include <stdio.h>
#include <stdlib.h>

static void add(void *serializer, raptor_statement *statement) {
    raptor_serializer_serialize_statement(serializer, statement);
}

int main(int count, char **words) {
    FILE *file = count > 2 ? fopen(words[2], "rb") : NULL;
    if (file == NULL || fseek(file, 0, SEEK_END) != 0)
        return 70;
    size_t length = (size_t)ftell(file), written = 0;
    rewind(file);
    unsigned char *bytes = malloc(length);
    if (bytes == NULL || fread(bytes, 1, length, file) != length)
        return 70;
    raptor_world *world = raptor_new_world();
    raptor_uri *base = raptor_new_uri(world, (const unsigned char *)"http://localhost/");
    for (int left = atoi(words[1]); left > 0; left--) {
        unsigned char *text = NULL;
        size_t size = 0;
        raptor_parser *parser = raptor_new_parser(world, "rdfa");
        raptor_serializer *serializer = raptor_new_serializer(world, "nquads");
        raptor_serializer_start_to_string(serializer, base, (void **)&text, &size);
        raptor_parser_set_statement_handler(parser, serializer, add);
        int failed = raptor_parser_parse_start(parser, base) || raptor_parser_parse_chunk(parser, bytes, length, 1);
        raptor_serializer_serialize_end(serializer);
        raptor_free_serializer(serializer);
        raptor_free_parser(parser);
        written += size;
        raptor_free_memory(text);
        if (failed)
            return 1;
    }
    printf("%zu\n", written);
    raptor_free_uri(base);
    raptor_free_world(world);
    free(bytes);
    return 0;
}
