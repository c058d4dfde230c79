/* One call of any operation of KMIP 1.2, whose payload is JSON: it writes the answer, and its
   status is that of the call.

       operate HOST PORT CERTIFICATE KEY AUTHORITY OPERATION PAYLOAD */
#define _POSIX_C_SOURCE 200809L
#include "testing.h"

int main(int argc, char **argv) {
    if (argc != 8) return KMIP_CALL_GRAMMAR;
    kmip_settings settings = settings_of(argv);
    kmip_client *client = opened(&settings);
    int status = kmip_operation(client, argv[6], "1.2", argv[7]);
    puts(kmip_line(client));
    kmip_close(client);
    return status;
}
