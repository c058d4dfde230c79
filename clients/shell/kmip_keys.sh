# shellcheck shell=bash
# The part of kmip.sh, which sources it, about keys: what openssl wrote is registered, and keys whose parts are told one by
# one become DER.
# shellcheck disable=SC2034 # kmip.sh uses KMIP_FORMAT

# Whether openssl reads a key, whose bits and algorithm it leaves in KMIP_WORDS, and its DER in hex.
kmip_read_key() { # private|public FILE
    local blocks form bits algorithm flags=()
    KMIP_WORDS=('the file cannot be read')
    [[ -r $2 && ! -d $2 ]] || return
    mapfile -t blocks < <(sed -n 's/^-----BEGIN \(.*\)-----[[:space:]]*$/\1/p' "$2" | grep -v 'PARAMETERS$')
    KMIP_WORDS=('the key is no PEM, or several blocks of it, and one at a time is registered')
    ((${#blocks[@]} == 1)) || return
    KMIP_WORDS=('the key is encrypted: decrypt it before, as by openssl pkey')
    ! grep -q -e ENCRYPTED -- "$2" || return
    KMIP_WORDS=("the PEM has no $1 key")
    case $1.${blocks[0]} in
    'private.PRIVATE KEY' | 'private.RSA PRIVATE KEY' | 'private.EC PRIVATE KEY' | 'private.DSA PRIVATE KEY') form=PKCS8 ;;
    'public.PUBLIC KEY' | 'public.RSA PUBLIC KEY') form=X509 flags=(-pubin) ;;
    *) return 1 ;;
    esac
    KMIP_WORDS=('openssl reads no such key')
    bits=$(openssl pkey "${flags[@]}" -in "$2" -noout -text -passin pass: 2>/dev/null) || return
    KMIP_WORDS=('KMIP 1.2 has no name for the algorithm of the key')
    case $bits in
    *$'\n''ASN1 OID: '* | *$'\n''NIST CURVE: '*) algorithm=ECDSA ;;
    *$'\n''pub:'*$'\n''Q:'*) algorithm=DSA ;;
    [Mm]odulus:* | *$'\n'[Mm]odulus:*) algorithm=RSA ;;
    *) return 1 ;;
    esac
    [[ $bits =~ \(([0-9]+)\ bit ]] || return
    KMIP_WORDS=("$form" "$algorithm" "${BASH_REMATCH[1]}")
    if [[ $1 == private ]]; then flags=(pkcs8 -topk8 -nocrypt -passin pass:); else flags=(pkey -pubin); fi
    KMIP_WORDS+=("$(openssl "${flags[@]}" -in "$2" -outform DER 2>/dev/null | kmip_hex)")
    [[ -n ${KMIP_WORDS[3]} ]]
}

# The hex digits of what is read.
kmip_hex() {
    od -An -v -tx1 | tr -d ' \n'
}

# Leaves in KMIP_WORDS the parts of what is registered, as a program of jq's arguments; or says what is wrong with it.
kmip_read_object() { # KIND FILE
    local count
    case $1 in
    private | public) kmip_read_key "$1" "$2" ;;
    certificate)
        KMIP_WORDS=('the file cannot be read')
        [[ -r $2 && ! -d $2 ]] || return
        KMIP_WORDS=('the certificate is none of X.509, or several')
        count=$(grep -c -e '^-----BEGIN ' -- "$2" 2>/dev/null) || count=0
        ((count < 2)) || return
        ! grep -q -e 'PRIVATE KEY-----' -- "$2" 2>/dev/null || return
        # (without -passin openssl would ask the terminal where a block is encrypted)
        KMIP_WORDS+=("$(openssl x509 -in "$2" -outform DER -passin pass: 2>/dev/null | kmip_hex)")
        [[ -n ${KMIP_WORDS[1]} ]]
        ;;
    secret)
        KMIP_WORDS=('the file cannot be read')
        [[ -r $2 && ! -d $2 ]] && KMIP_WORDS+=("$(kmip_hex <"$2")")
        ;;
    esac
}

# Registers what a file has. The answer is {"answer":{"unique_identifier":..}}.
kmip_register() { # private|public|certificate|secret FILE [usage=NAME,..] [name=TEXT] [kind=Seed]
    local what=$1 file=${2-} word answer payload status=0 given='' name='' usage='' kind=Password KMIP_WORDS
    kmip_has_jq || return
    for word in "${@:3}"; do
        case $word in
        name=*) name=${word#name=} given+=name ;;
        usage=?*) usage=${word#usage=} ;;
        kind=Password | kind=Seed) kind=${word#kind=} ;;
        *) file='' ;;
        esac
        if [[ $word == kind=* && $what != secret ]]; then file=''; fi
    done
    if [[ -z $file ]]; then
        kmip_fails GrammarError "kmip register-$what FILE [usage=..] [name=..]: there is no file, or an option that is none"
        return 2
    fi
    if [[ $file != /* ]]; then file=./$file; fi
    if ! kmip_read_object "$what" "$file"; then
        kmip_fails GrammarError "${KMIP_WORDS[0]}"
        return 2
    fi
    # What is kept secret is in no word of jq.
    payload=$(jq -Rnc --arg what "$what" --arg given "$given" --arg name "$name" --arg usage "$usage" --arg kind "$kind" \
        --arg form "${KMIP_WORDS[0]}" --arg algorithm "${KMIP_WORDS[1]-}" --arg bits "${KMIP_WORDS[2]-0}" '
        def text($t; $v): {tag: $t, type: "TextString", value: $v};
        def enum($t; $v): {tag: $t, type: "Enumeration", value: $v};
        def bytes($t; $v): {tag: $t, type: "ByteString", value: $v};
        def attribute($n; $v): {tag: "Attribute", value: [text("AttributeName"; $n), {tag: "AttributeValue"} + $v]};
        def block($f; $hex; $more): {tag: "KeyBlock", value:
            ([enum("KeyFormatType"; $f), {tag: "KeyValue", value: [bytes("KeyMaterial"; $hex)]}] + $more)};
        ("Sign Verify Encrypt Decrypt WrapKey UnwrapKey Export MacGenerate MacVerify DeriveKey ContentCommitmentNonRepudiation " +
            "KeyAgreement CertificateSign CrlSign GenerateCryptogram ValidateCryptogram TranslateEncrypt TranslateDecrypt " +
            "TranslateWrap TranslateUnwrap" | split(" ")) as $uses |
        (reduce ($usage | split(","))[] as $it (0; . + (($uses | index($it)) as $at |
            if $at == null then ("" | halt_error(9)) else ([range($at)] | reduce .[] as $_ (1; . * 2)) end))) as $mask |
        (input | ascii_upcase) as $hex |
        {private: "PrivateKey", public: "PublicKey", certificate: "Certificate", secret: "SecretData"}[$what] as $type |
        {tag: "RequestPayload", value: [enum("ObjectType"; $type), {tag: "TemplateAttribute", value: ([
            if $usage == "" then empty else attribute("Cryptographic Usage Mask"; {type: "Integer", value: $mask}) end,
            if $given == "" then empty else attribute("Name"; {value: [text("NameValue"; $name),
                enum("NameType"; "UninterpretedTextString")]}) end])}, {tag: $type, value:
            (if $what == "certificate" then [enum("CertificateType"; "X509"), bytes("CertificateValue"; $hex)]
            elif $what == "secret" then [enum("SecretDataType"; $kind), block("Opaque"; $hex; [])]
            else [block($form; $hex; [enum("CryptographicAlgorithm"; $algorithm),
                {tag: "CryptographicLength", type: "Integer", value: ($bits | tonumber)}])] end)}]}' <<<"${KMIP_WORDS[-1]}") || {
        kmip_fails GrammarError 'usage is not names of KMIP'
        return 2
    }
    answer=$(kmip operation Register version=1.0 "$payload") || status=$?
    if ((status == 0)); then
        jq -c '{answer: {unique_identifier: (.answer.value[] | select(.tag == "UniqueIdentifier").value)}}' <<<"$answer" || status=4
    else
        printf '%s\n' "$answer"
    fi
    return $status
}

# Leaves in KMIP_WORD an element of DER in hex: its tag, the length, and these contents.
kmip_element() { # TAG HEX
    local length=$((${#2} / 2)) digits
    printf -v digits %X "$length"
    if ((${#digits} % 2)); then digits=0$digits; fi
    if ((length >= 128)); then printf -v digits %02X%s $((128 + ${#digits} / 2)) "$digits"; fi
    KMIP_WORD=$1$digits$2
}

# Leaves in KMIP_WORD the DER, in hex, of a key whose parts are told one by one, and in KMIP_FORMAT what format that is;
# nothing where there is none.
kmip_parts() { # FORMAT ANSWER
    local part made='' rsa=(Modulus PublicExponent PrivateExponent P Q PrimeExponentP PrimeExponentQ CRTCoefficient)
    local -A parts=() curves=([P_192]=06082A8648CE3D030101.48 [P_224]=06052B81040021.56 [P_256]=06082A8648CE3D030107.64
        [P_384]=06052B81040022.96 [P_521]=06052B81040023.132 [SECP256K1]=06052B8104000A.64
        [BRAINPOOLP256R1]=06092B2403030208010107.64 [BRAINPOOLP384R1]=06092B240303020801010B.96
        [BRAINPOOLP512R1]=06092B240303020801010D.128)
    KMIP_WORD=''
    while IFS=$'\t' read -r part made; do parts[$part]=$made; done < <(jq -r '.answer | if .tag then
        [.. | objects | select(.tag == "KeyMaterial")][0].value[] | [.tag, (.value | tostring | sub("^0x"; ""))]
        else [.. | objects | select(has("key_material"))][0].key_material | to_entries[0].value | to_entries[] |
        select(.value != null) | [(.key | split("_") | map(if . == "crt" then "CRT" else (.[:1] | ascii_upcase) + .[1:] end) | join("")), .value]
        end | @tsv' <<<"$2")
    made=''
    case $1 in
    TransparentRSAPublicKey) rsa=("${rsa[@]:0:2}") KMIP_FORMAT=PKCS1 ;;
    TransparentRSAPrivateKey) made=020100 KMIP_FORMAT=PKCS1 ;;
    TransparentEC*) kmip_curve "$1" ;;
    esac
    if [[ $1 != TransparentRSA* ]]; then return 0; fi
    for part in "${rsa[@]}"; do
        KMIP_WORD='' part=${parts[$part]-}
        [[ -n $part ]] || return 0
        while [[ $part == 00?* ]]; do part=${part#00}; done
        if [[ $part == [89A-Fa-f]* ]]; then part=00$part; fi
        kmip_element 02 "$part"
        made+=$KMIP_WORD
    done
    kmip_element 30 "$made"
}

# The same for a key of a curve, whose parts are in `parts`.
kmip_curve() { # FORMAT
    local curve=${curves[${parts[RecommendedCurve]-none}]-} digits made=''
    [[ -n $curve ]] || return 0
    digits=${curve#*.} curve=${curve%.*}
    if [[ $1 == *PublicKey && -n ${parts[QString]-} ]]; then
        kmip_element 30 "06072A8648CE3D0201$curve"
        made=$KMIP_WORD
        kmip_element 03 "00${parts[QString]}"
        KMIP_FORMAT=X509
    elif [[ $1 == *PrivateKey && -n ${parts[D]-} ]]; then
        made=${parts[D]}
        while [[ $made == 00?* ]]; do made=${made#00}; done
        ((${#made} <= digits)) || return 0
        while ((${#made} < digits)); do made=00$made; done
        kmip_element 04 "$made"
        made=020101$KMIP_WORD
        kmip_element A0 "$curve"
        KMIP_FORMAT=ECPrivateKey
    else
        return 0
    fi
    kmip_element 30 "$made$KMIP_WORD"
}
