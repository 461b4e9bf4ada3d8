/* Connects with libmongoc, sends a ping and disconnects. Words: HOST PORT MECHANISM, or --version. */
#include <mongoc/mongoc.h>
#include <stdio.h>
#include <stdlib.h>
#include <string.h>

int main(int count, char **words)
{
    mongoc_init();
    if (count == 2 && !strcmp(words[1], "--version")) {
        puts(mongoc_get_version());
        return 0;
    }
    if (count != 4)
        return 3;
    mongoc_uri_t *uri = mongoc_uri_new_for_host_port(words[1], (uint16_t) atoi(words[2]));
    mongoc_uri_set_username(uri, getenv("INTEROP_USER"));
    mongoc_uri_set_password(uri, getenv("INTEROP_PASSWORD"));
    mongoc_uri_set_auth_source(uri, "admin");
    mongoc_uri_set_auth_mechanism(uri, words[3]);
    mongoc_uri_set_option_as_int32(uri, MONGOC_URI_SERVERSELECTIONTIMEOUTMS, 10000);
    mongoc_client_t *client = mongoc_client_new_from_uri(uri);
    bson_t ping = BSON_INITIALIZER, reply;
    bson_error_t error;
    BSON_APPEND_INT32(&ping, "ping", 1);
    int status = 0;
    if (!mongoc_client_command_simple(client, "admin", &ping, NULL, &reply, &error)) {
        puts(error.message);
        status = error.domain == MONGOC_ERROR_CLIENT && error.code == MONGOC_ERROR_CLIENT_AUTHENTICATE ? 1 : 2;
    }
    bson_destroy(&reply);
    bson_destroy(&ping);
    mongoc_client_destroy(client);
    mongoc_uri_destroy(uri);
    mongoc_cleanup();
    return status;
}
