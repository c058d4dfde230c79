# shellcheck shell=bash
# needs: server
# A server that breaks off.
between half
call_is 'a server that is killed within a message' 3 query
between head
call_is 'a server that is killed within a head' 3 query
port=$server_port
KMIP_LIMIT=100 call_is 'a response over the limit' 3 query
KMIP_LIMIT=65536 call_is 'a response within the limit' 0 query
