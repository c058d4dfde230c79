# shellcheck shell=bash
# Who may talk to whom.
fake good
call_is 'a good server and a good client' 0 query
other=$certs/other
certificate=$other/client.pem key=$other/client.key call_is 'a client of another authority' 3 query
authority=$other/ca.pem call_is 'a server of another authority' 3 query
host=127.0.0.1 call_is 'another host than the certificate names' 3 query
certificate=$certs/expired.pem key=$certs/expired.key call_is "a client's certificate that has ended" 3 query
certificate=$certs/none.pem call_is 'a certificate that is not there' 3 query
key=$certs/plain.key call_is 'the key of another certificate' 3 query
fake nobody
call_is 'nobody listens' 3 query
fake other/server
call_is "a server's certificate of another authority" 3 query
mkdir system
cp "$certs/other/ca.pem" system && openssl rehash system >"$said" 2>&1
SSL_CERT_FILE=$certs/other/ca.pem SSL_CERT_DIR=$work/system call_is 'the same where the system trusts that authority' 3 query
fake of_between
authority=$certs/between.pem call_is "a server's certificate of an authority that is no root, and that is given" 0 query
call_is 'the same where the root alone is given' 3 query
fake wrong_host
call_is "a server's certificate for another host" 3 query
fake expired_server
call_is "a server's certificate that has ended" 3 query
fake address
host=127.0.0.1 call_is 'an address that the certificate names' 0 query
call_is 'a name where the certificate has an address' 3 query
fake certificate
certificate=$certs/chained.pem key=$certs/chained.key call_is 'a certificate of an authority between' 0 query
says 'the server knows whose it is' carol
fake no_tls
call_is 'a server without TLS' 3 query
