# shellcheck shell=bash disable=SC2154
# Settings and URIs that are wrong, and the order of providers: each is said, without a server.
load() { # [NAME=VALUE]..
    printf '%s\n' env OPENSSL_CONF=/dev/null "OPENSSL_MODULES=$run/openssl" "$@" openssl list -providers \
        -provider default -provider metsuwan
}
wrong() { # WHAT REGEX NAME=VALUE..
    local words
    mapfile -t words < <(load "${@:3}")
    refuses "$1, and why" "$2" "${words[@]}"
}
right() { # WHAT NAME=VALUE..
    local words
    mapfile -t words < <(load "${@:2}")
    does "$1" "${words[@]}"
}
right 'no setting at all'
says 'it names itself' 'keys of a KMIP server \(metsuwan\)'
wrong 'seconds that are no number' 'METSUWAN_SECONDS is no number from 0 to 86400: soon' METSUWAN_SECONDS=soon
wrong 'seconds below 0' 'METSUWAN_SECONDS is no number' METSUWAN_SECONDS=-1
wrong 'endless seconds' 'METSUWAN_SECONDS is no number' METSUWAN_SECONDS=inf
wrong 'no connections' 'METSUWAN_CONNECTIONS is no whole number' METSUWAN_CONNECTIONS=0
wrong 'half a connection' 'METSUWAN_CONNECTIONS is no whole number' METSUWAN_CONNECTIONS=1.5
wrong 'a salt that is none' 'METSUWAN_PSS_SALT is neither digest nor max: 20' METSUWAN_PSS_SALT=20
wrong 'a user without a password' 'user and a password belong together' METSUWAN_USER=alice
wrong 'a password without a user' 'user and a password belong together' METSUWAN_PASSWORD=secret
printf 'secret\n' >password
: >empty
printf 'two\nlines\n' >lines
right 'a file of a password' METSUWAN_USER=alice "METSUWAN_PASSWORD_FILE=$work/password"
wrong 'a password and a file of it' 'exclude each other' METSUWAN_USER=alice METSUWAN_PASSWORD=secret \
    "METSUWAN_PASSWORD_FILE=$work/password"
wrong 'a passphrase and a file of it' 'METSUWAN_PASSPHRASE_FILE and another setting exclude each other: passphrase' \
    METSUWAN_PASSPHRASE=secret "METSUWAN_PASSPHRASE_FILE=$work/password"
wrong 'a file of a passphrase with two lines' 'METSUWAN_PASSPHRASE_FILE is not one line' "METSUWAN_PASSPHRASE_FILE=$work/lines"
wrong 'no such file of a password' 'PASSWORD_FILE No such file or directory: /nowhere' METSUWAN_USER=a METSUWAN_PASSWORD_FILE=/nowhere
wrong 'an empty one' 'is not one line' METSUWAN_USER=a "METSUWAN_PASSWORD_FILE=$work/empty"
wrong 'one of two lines' 'is not one line' METSUWAN_USER=a "METSUWAN_PASSWORD_FILE=$work/lines"
for server in localhost localhost:5696 127.0.0.1:1 '[::1]' '[::1]:5696' 'a.example:5696,b.example,[::1]:5697'; do
    right "the server $server" "METSUWAN_SERVER=$server"
done
for server in :5696 localhost: a:b:c '[::1' '[::1]x' '[]:1' ::1 'a, b' a,,b a,A:5696 a:99999; do
    wrong "the server $server" 'METSUWAN_SERVER is wrong: (server|port|host) .*' "METSUWAN_SERVER=$server"
done
right 'an order and a name' METSUWAN_ORDER=turns METSUWAN_SERVER_NAME=kms.example METSUWAN_MAX_AGE=60
wrong 'an order that is none' 'METSUWAN_ORDER is neither first nor turns: last' METSUWAN_ORDER=last
wrong 'a name that is none' 'METSUWAN_SERVER_NAME is no name, and no address: .example' METSUWAN_SERVER_NAME=.example
wrong 'an age that is none' 'METSUWAN_MAX_AGE is no number from 0 to 86400: old' METSUWAN_MAX_AGE=old

# What OpenSSL loads for openssl.cnf, whose errors of loading it keeps to itself: each use says what is wrong.
by_file() { # WHAT REGEX TEXT LINE..: openssl.cnf with these lines of settings; a use fails with that line, which has the text
    host=localhost port=1 configure "${@:4}"
    sed -i 's/^openssl_conf = init/config_diagnostics = 1\n&/' "$OPENSSL_CONF"
    refuses "$1 in openssl.cnf, and why" "$2" openssl dgst -sha256 -sign kmip:id=1 -out never /dev/null
    run_program wrong uri.pem "$3"
    does "$1: another key is made as ever" openssl genpkey -algorithm RSA -pkeyopt rsa_keygen_bits:2048 -out other.key
    does "$1: and signs" openssl dgst -sha256 -sign other.key -out made /dev/null
    does "$1: openssl list" openssl list -providers
    says "$1 is in the provider's name" "name: .*$2"
    says "$1: it is not active" 'status: inactive'
}
build_test program
write_uri kmip:id=1 uri.pem
by_file 'a wrong number' 'seconds in openssl.cnf, in the section of metsuwan is no number from 0 to 86400: soon' \
    'seconds in openssl.cnf' 'seconds = soon'
METSUWAN_CONNECTIONS=no by_file 'a wrong number of the environment' 'METSUWAN_CONNECTIONS is no number from 0 to 1000: no' \
    METSUWAN_CONNECTIONS
by_file 'a long text' "pss_salt in openssl.cnf, in the section of metsuwan is neither digest nor max: a{900,}\\.\\.\$" 'max: aaaa' \
    "pss_salt = $(printf 'a%.0s' {1..2000})"
by_file 'a text that moves the cursor' 'neither digest nor max: .u001B.2J$' '\u001B' $'pss_salt = \e[2J'
sed -i '/^default = /d; s/^metsuwan = .*/&\ndefault = default_section/; s/^pss_salt.*//' "$OPENSSL_CONF"
refuses 'metsuwan before default in openssl.cnf, and why' 'activate default \(or fips\) first, and metsuwan after it' \
    openssl dgst -sha256 -sign kmip:id=1 -out never /dev/null
does 'other keys are made there' openssl genpkey -algorithm RSA -pkeyopt rsa_keygen_bits:2048 -out other.key
host=localhost port=1 configure
sed -i 's/^metsuwan = .*/&\nmore = metsuwan_section/' "$OPENSSL_CONF"
refuses 'a second section is named where the first fails' \
    'more is not asked, since metsuwan is active before it: name all servers' \
    openssl dgst -sha256 -sign kmip:id=1 -out never /dev/null
says 'after why the first failed' 'Connection refused'
does 'openssl list names it' openssl list -providers
says 'by its name' 'name: more is not asked'

export OPENSSL_CONF=/dev/null
refuses 'metsuwan before default, and why' 'activate default \(or fips\) first, and metsuwan after it' \
    openssl list -providers -provider-path "$run/openssl" -provider metsuwan -provider default
refuses 'metsuwan alone, and why' 'activate default' openssl list -providers -provider-path "$run/openssl" -provider metsuwan
by() { # WHAT REGEX URI
    refuses "$1, and why" "$2" openssl dgst -sha256 -provider-path "$run/openssl" -provider default -provider metsuwan \
        -sign "$3" -out never /dev/null
}
for uri in kmip: kmip:id= 'kmip:;id=1' 'kmip:id=1;id=2' 'kmip:id=1;name=a' 'kmip:public-id=1' 'kmip:id=1;other=2' \
    'kmip:id=1;' 'kmip:a%2' 'kmip:a%00' 'kmip:a%GG' 'kmip:id=1;public-id=2;public-name=3'; do
    by "the URI $uri" 'it is kmip:NAME-OR-ID' "$uri"
done
by 'no server is set' 'server is set neither in' kmip:id=1
METSUWAN_SERVER=localhost by 'no certificate is set' 'certificate is set neither in' kmip:id=1
