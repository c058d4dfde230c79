#!/bin/sh
# Makes, in the folder DIR, an authority and the certificates that the live test and tools/test_server.sh use. Each is a
# pair of files, NAME.pem and NAME.key, in PEM.
#
#   certs.sh DIR [few]
#
#   ca               the authority (DIR/ca.pem is what a client trusts)
#   server           a server that is named localhost
#   client           a client, alice
# and, without the word `few`,
#   address          a server at 127.0.0.1 and ::1 that has no name
#   wrong_host       a server that is named other.example
#   cn_only          a server whose subject is localhost, and that has no alternative name
#   wildcard         a server that is named k*.example.test
#   self_signed      a server named localhost, of no authority
#   expired_server   a server named localhost, whose certificate ended long ago
#   expired          a client, alice, whose certificate ended long ago
#   plain            a client, bob, whose certificate is not made for clients
#   encrypted        alice's certificate again; its key is encrypted with the passphrase `geheim & co`
#   of_between       a server named localhost, of an authority between, `between`
#   chained          a client, carol, of an authority between; chained.pem holds that authority's certificate too
#   other/..         `ca`, `server` and `client` again, under another authority
#   objects/..       keys and a certificate that a server may hold, in DER, as PublicKey.X509.der
#
# PyKMIP wants exactly one common name of a client's certificate, who is then the owner of what the client makes, and,
# with enable_tls_client_auth=True, the extended key usage clientAuth.
set -eu
umask 077

new_key='-newkey ec -pkeyopt ec_paramgen_curve:P-256 -sha256 -nodes'
authority='basicConstraints=critical,CA:TRUE\nkeyUsage=critical,keyCertSign,cRLSign\n'
of_server='basicConstraints=CA:FALSE\nextendedKeyUsage=serverAuth\n'
of_client='basicConstraints=CA:FALSE\nextendedKeyUsage=clientAuth\n'
localhost=${of_server}'subjectAltName=DNS:localhost\n'

request() { # NAME SUBJECT EXTENSIONS: NAME.key, NAME.csr and NAME.ext
    # shellcheck disable=SC2086 # several words
    openssl req -new $new_key -subj "$2" -keyout "$1.key" -out "$1.csr"
    printf '%b' "$3" >"$1.ext"
}

leaf() { # NAME SUBJECT EXTENSIONS [AUTHORITY]
    request "$1" "$2" "$3"
    openssl x509 -req -in "$1.csr" -CA "${4-ca}.pem" -CAkey "${4-ca}.key" -CAcreateserial -days 30 -sha256 \
        -extfile "$1.ext" -out "$1.pem"
    rm -f "$1.csr" "$1.ext"
}

expired() { # NAME SUBJECT EXTENSIONS
    request "$1" "$2" "$3"
    : >index.txt
    printf '[ca]\ndefault_ca=it\n[it]\ndatabase=index.txt\nserial=ca.srl\nnew_certs_dir=.\ndefault_md=sha256\npolicy=any\n[any]\ncommonName=supplied\n' >ca.conf
    openssl ca -batch -config ca.conf -cert ca.pem -keyfile ca.key -startdate 20200101000000Z -enddate 20200201000000Z \
        -extfile "$1.ext" -in "$1.csr" -out "$1.pem" -notext
    rm -f "$1.csr" "$1.ext" index.txt* ca.conf ca.srl.old [0-9A-F]*.pem
}

# What a server holds, as fakes.py gives it out: an RSA pair, a key on a curve, and a certificate.
objects() { # FOLDER
    mkdir -p "$1"
    openssl genrsa -out "$1/rsa.pem" 2048
    openssl ecparam -name prime256v1 -genkey -noout -out "$1/ec.pem"
    openssl rsa -in "$1/rsa.pem" -RSAPublicKey_out -outform DER -out "$1/PublicKey.PKCS1.der"
    openssl pkey -in "$1/rsa.pem" -pubout -outform DER -out "$1/PublicKey.X509.der"
    openssl rsa -in "$1/rsa.pem" -traditional -outform DER -out "$1/PrivateKey.PKCS1.der"
    openssl pkcs8 -topk8 -nocrypt -in "$1/rsa.pem" -outform DER -out "$1/PrivateKey.PKCS8.der"
    openssl ec -in "$1/ec.pem" -outform DER -out "$1/PrivateKey.ECPrivateKey.der"
    openssl pkcs8 -topk8 -nocrypt -in "$1/ec.pem" -outform DER -out "$1/EC.PKCS8.der"
    openssl x509 -in client.pem -outform DER -out "$1/Certificate.X509.der"
    printf 'raw bytes of key' >"$1/SymmetricKey.Raw.der"
}

pair_of() { # FOLDER COMMON-NAME: an authority, a server and a client
    mkdir -p "$1"
    cd "$1"
    # shellcheck disable=SC2086 # several words
    openssl req -x509 $new_key -days 30 -subj "/CN=$2" -addext 'basicConstraints=critical,CA:TRUE' \
        -addext 'keyUsage=critical,keyCertSign,cRLSign' -keyout ca.key -out ca.pem
    leaf server /CN=localhost "$localhost"
    leaf client /CN=alice "$of_client"
}

make_all() { # DIR few|all
    pair_of "$1" 'Test authority'
    [ "$2" = all ] || return 0
    leaf address /CN=address "${of_server}subjectAltName=IP:127.0.0.1,IP:::1\n"
    leaf wrong_host /CN=other.example "${of_server}subjectAltName=DNS:other.example\n"
    leaf cn_only /CN=localhost "$of_server"
    leaf wildcard /CN=wildcard "${of_server}subjectAltName=DNS:k*.example.test\n"
    leaf plain /CN=bob 'basicConstraints=CA:FALSE\n'
    # shellcheck disable=SC2086 # several words
    openssl req -x509 $new_key -days 30 -subj /CN=localhost -addext 'subjectAltName=DNS:localhost' \
        -addext 'extendedKeyUsage=serverAuth' -keyout self_signed.key -out self_signed.pem
    expired expired_server /CN=localhost "$localhost"
    expired expired /CN=alice "$of_client"
    openssl pkey -in client.key -aes256 -passout 'pass:geheim & co' -out encrypted.key
    cp client.pem encrypted.pem
    leaf between '/CN=Test authority between' "$authority"
    leaf of_between /CN=localhost "$localhost" between
    leaf chained /CN=carol "$of_client" between
    cat between.pem >>chained.pem
    objects objects
    pair_of "$1/other" 'Other authority'
}

dir=${1:?usage: certs.sh DIR [few]}
mkdir -p "$dir"
dir=$(cd "$dir" && pwd)
make_all "$dir" "${2-all}" >"$dir/openssl.log" 2>&1 || {
    tail -5 "$dir/openssl.log" >&2
    exit 1
}
rm -f "$dir/openssl.log"
