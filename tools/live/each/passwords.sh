# shellcheck shell=bash
# needs: server
# PyKMIP looks at no password; between.py does.
between password
KMIP_USER=alice KMIP_PASSWORD=secret call_is 'a password that is right' 0 query
KMIP_USER=alice KMIP_PASSWORD=Secret call_is 'a password that is wrong' 1 query
says "the server's words on the wrong password" 'who are you'
call_is 'no password' 1 query
