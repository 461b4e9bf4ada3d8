/* Builds with libbson the command that `mongo_bench insert` builds, for the benchmark `bench/command`.
 *
 *     build_insert COUNT    builds it COUNT times and prints how many bytes the last one had
 */
#include <bson/bson.h>
#include <stdio.h>
#include <stdlib.h>

static void append_document(bson_t *documents, unsigned number)
{
    static const uint8_t id_bytes[12] = {0x5f, 0, 0, 0, 1, 2, 3, 4, 5, 6, 7, 8};
    char buffer[16];
    const char *key;
    size_t length = bson_uint32_to_string(number, &key, buffer, sizeof buffer);
    bson_oid_t id;
    bson_t document;
    bson_oid_init_from_data(&id, id_bytes);
    bson_append_document_begin(documents, key, (int)length, &document);
    BSON_APPEND_OID(&document, "_id", &id);
    BSON_APPEND_UTF8(&document, "name", "the name of a document");
    BSON_APPEND_INT64(&document, "number", number);
    BSON_APPEND_DOUBLE(&document, "price", 1.0);
    BSON_APPEND_BOOL(&document, "sold", false);
    bson_append_document_end(documents, &document);
}

static void append_text_document(bson_t *command, const char *key, const char *inner, const char *text)
{
    bson_t document;
    BSON_APPEND_DOCUMENT_BEGIN(command, key, &document);
    BSON_APPEND_UTF8(&document, inner, text);
    bson_append_document_end(command, &document);
}

static void append_body(bson_t *command)
{
    bson_t documents;
    unsigned number;
    BSON_APPEND_UTF8(command, "insert", "items");
    BSON_APPEND_BOOL(command, "ordered", true);
    BSON_APPEND_ARRAY_BEGIN(command, "documents", &documents);
    for (number = 0; number < 1000; number++) {
        append_document(&documents, number);
    }
    bson_append_array_end(command, &documents);
    BSON_APPEND_UTF8(command, "$db", "shop");
}

static void append_session(bson_t *command)
{
    bson_t document;
    BSON_APPEND_DOCUMENT_BEGIN(command, "lsid", &document);
    BSON_APPEND_BINARY(&document, "id", BSON_SUBTYPE_UUID, (const uint8_t *)"0123456789abcdef", 16);
    bson_append_document_end(command, &document);
    BSON_APPEND_DOCUMENT_BEGIN(command, "$clusterTime", &document);
    BSON_APPEND_INT64(&document, "clusterTime", 7);
    bson_append_document_end(command, &document);
    BSON_APPEND_UTF8(command, "apiVersion", "1");
    BSON_APPEND_BOOL(command, "apiStrict", true);
    BSON_APPEND_BOOL(command, "apiDeprecationErrors", false);
}

static void append_arguments(bson_t *command)
{
    bson_t document;
    append_text_document(command, "$readPreference", "mode", "primary");
    BSON_APPEND_INT64(command, "txnNumber", 1);
    BSON_APPEND_BOOL(command, "startTransaction", true);
    BSON_APPEND_BOOL(command, "autocommit", false);
    BSON_APPEND_DOCUMENT_BEGIN(command, "readConcern", &document);
    BSON_APPEND_UTF8(&document, "level", "majority");
    BSON_APPEND_TIMESTAMP(&document, "afterClusterTime", 1700000000, 1);
    bson_append_document_end(command, &document);
    append_text_document(command, "writeConcern", "w", "majority");
    append_text_document(command, "recoveryToken", "shardId", "a");
}

int main(int argc, char **argv)
{
    unsigned long count, i;
    uint32_t length = 0;
    if (argc != 2) {
        return 3;
    }
    count = strtoul(argv[1], NULL, 10);
    for (i = 0; i < count; i++) {
        bson_t command;
        bson_init(&command);
        append_body(&command);
        append_session(&command);
        append_arguments(&command);
        length = command.len;
        bson_destroy(&command);
    }
    printf("%u\n", length);
    return 0;
}
