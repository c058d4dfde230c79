# shellcheck shell=bash disable=SC2154
# What the days of tools/live/each have: any operation by each client, its items as words, and certificates that a key on the
# server signs.

# The program operate of this client, whose words are an operation and its payload.
build_operate() {
    case $client in
    c) test_build operate ;;
    rust)
        cp "$own/operate.rs" "$run/rust/source/examples"
        cargo_of_copy build --release --features openssl --example operate >"$said" 2>&1
        verdict 'the program for operations is built'
        ;;
    esac
}

text() { # TAG VALUE
    printf '{"tag":"%s","type":"TextString","value":"%s"}' "$@"
}
octets() { # TAG HEX
    printf '{"tag":"%s","type":"ByteString","value":"%s"}' "$@"
}
named() { # TAG NAME
    printf '{"tag":"%s","type":"Enumeration","value":"%s"}' "$@"
}
number() { # TAG NUMBER
    printf '{"tag":"%s","type":"Integer","value":%d}' "$@"
}
items() { # TAG ITEM..
    local IFS=,
    printf '{"tag":"%s","value":[%s]}' "$1" "${*:2}"
}
attribute() { # NAME ITEM
    items Attribute "$(text AttributeName "$1")" "$2"
}
name_of() { # TEXT
    attribute Name "$(items AttributeValue "$(text NameValue "$1")" "$(named NameType UninterpretedTextString)")"
}

operate() { # OPERATION ITEM..
    local payload words=("$host" "$port" "$certificate" "$key" "$authority")
    payload=$(items RequestPayload "${@:2}")
    case $client in
    shell | command) client_run call operation "$1" "$payload" ;;
    c) timeout -k 2 $((90 * slack)) "$work/operate" "${words[@]}" "$1" "$payload" ;;
    python)
        PYTHONPATH=$top/clients/python LIBMETSUWAN=$built/libmetsuwan.so timeout -k 2 $((90 * slack)) \
            "$python" -B "$own/operate.py" "${words[@]}" "$1" "$payload"
        ;;
    rust) patience=90 client_run operate "$1" "$payload" ;;
    esac >"$said" 2>&1 </dev/null
}
operates() { # WHAT OPERATION ITEM..: it is answered
    operate "${@:2}"
    verdict "$1"
}
refused() { # WHAT REGEX OPERATION ITEM..: it is not, by the server, and a line like this says why
    ! operate "${@:3}" && grep -qE -- "$2" "$said"
    verdict "$1"
}
value() { # TAG: of the answer's payload
    jq -r --arg tag "$1" '.answer.value[] | select(.tag == $tag).value' "$said"
}

hex_of() { # FILE
    od -An -v -tx1 "$1" | tr -d ' \n'
}
bytes_of() { # HEX
    printf %s "$1" | "$python" -c "import sys; sys.stdout.buffer.write(bytes.fromhex(sys.stdin.read()))"
}

# A certificate of the public key in KEY.pem for SUBJECT. A key that is thrown away signs it as THROWN-AWAY.pem, whose subject
# is the authority's; then the signature is that of the authority, by `sign_by FILE`, which sets $signature to its hex.
issue() { # NAME SUBJECT THROWN-AWAY
    openssl x509 -new -force_pubkey "$1.pem" -subj "$2" -CA "$3.crt" -CAkey "$3.key" -days 9 -set_serial "0x$RANDOM" -sha256 \
        -outform DER -out template.der >"$said" 2>&1 &&
        "$python" -B "$here/certify.py" template.der >"$1.tbs" && sign_by "$1.tbs" &&
        "$python" -B "$here/certify.py" template.der "$signature" | openssl x509 -inform DER -out "$1.crt" 2>>"$said"
    verdict "a certificate for $2"
}

# The certificate that was registered is got as it was.
is_kept() { # ID FILE
    client_run call pem "$1" >got.crt 2>"$said" && openssl x509 -in got.crt -outform DER -out got.der 2>>"$said" &&
        openssl x509 -in "$2" -outform DER 2>>"$said" | cmp - got.der >>"$said" 2>&1
    verdict 'and got as it was'
}
