# shellcheck shell=bash
# needs: server
# Who may talk to PyKMIP.
other=$certs/other
certificate=$other/client.pem key=$other/client.key call_is 'a client of another authority' 3 query
authority=$other/ca.pem call_is 'a server of another authority' 3 query
certificate=$certs/plain.pem key=$certs/plain.key call_is 'a certificate that is not made for clients' 1 query
host=127.0.0.1 call_is 'another host than the certificate names' 3 query
