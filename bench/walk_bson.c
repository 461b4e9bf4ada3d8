/* Walks or validates a document with libbson, for the benchmark `bench/iterate`.
 *
 *     walk_bson FILE iterate COUNT    prints how many elements of all levels a full iteration meets
 *     walk_bson FILE readable COUNT   prints whether bson_validate accepts the document
 */
#include <bson/bson.h>
#include <stdio.h>
#include <stdlib.h>
#include <string.h>

static size_t elements_of(bson_iter_t *iter)
{
    size_t elements = 0;
    bson_iter_t inner;
    while (bson_iter_next(iter)) {
        elements++;
        if ((BSON_ITER_HOLDS_DOCUMENT(iter) || BSON_ITER_HOLDS_ARRAY(iter)) &&
            bson_iter_recurse(iter, &inner)) {
            elements += elements_of(&inner);
        }
    }
    return elements;
}

static uint8_t *read_file(const char *name, size_t *length)
{
    FILE *file = fopen(name, "rb");
    uint8_t *bytes;
    long size;
    if (!file || fseek(file, 0, SEEK_END) != 0 || (size = ftell(file)) < 0) {
        exit(1);
    }
    rewind(file);
    bytes = malloc((size_t)size);
    if (!bytes || fread(bytes, 1, (size_t)size, file) != (size_t)size) {
        exit(1);
    }
    fclose(file);
    *length = (size_t)size;
    return bytes;
}

int main(int argc, char **argv)
{
    size_t length, elements = 0;
    bool valid = false;
    bson_t document;
    bson_iter_t iter;
    unsigned long count, i;
    uint8_t *bytes;
    if (argc != 4) {
        return 3;
    }
    bytes = read_file(argv[1], &length);
    count = strtoul(argv[3], NULL, 10);
    if (!bson_init_static(&document, bytes, length)) {
        return 1;
    }
    if (strcmp(argv[2], "iterate") == 0) {
        for (i = 0; i < count; i++) {
            if (!bson_iter_init(&iter, &document)) {
                return 1;
            }
            elements = elements_of(&iter);
        }
        printf("%zu\n", elements);
        return 0;
    }
    for (i = 0; i < count; i++) {
        valid = bson_validate(
            &document, BSON_VALIDATE_UTF8 | BSON_VALIDATE_UTF8_ALLOW_NULL, NULL);
    }
    puts(valid ? "readable" : "not readable");
    return 0;
}
