# shellcheck shell=bash
# Completion in bash for kmip_call and for the functions of kmip.sh: source this file, or copy it as
# ~/.local/share/bash-completion/completions/kmip_call.

# The calls; how many words stand before the options of one, and which they are; of which kind a word is, by its place, or
# the value of an option; and the names of a kind.
# clients/grammar.py: calls
_kmip_calls=(query discover create-rsa create-aes create register locate attributes attribute-add attribute-modify
             attribute-delete activate sign rename get revoke destroy rng raw operation message)
declare -gA _kmip_plain=(
    [query]=0 [discover]=0 [create-rsa]=3 [create-aes]=2 [create]=3 [register]=2 [locate]=1 [attributes]=1
    [attribute-add]=1 [attribute-modify]=1 [attribute-delete]=2 [activate]=1 [sign]=2 [rename]=2 [get]=1 [revoke]=1
    [destroy]=1 [rng]=1 [raw]=1
)
declare -gA _kmip_options=(
    [create-rsa]='private-usage= public-usage='
    [create]='usage='
    [register]='format= algorithm= length= usage= name='
    [locate]='name= group= contact= type= state= algorithm= length= activation='
    [attribute-add]='name= group= contact= type= state= algorithm= length= activation='
    [attribute-modify]='name= group= contact= type= state= algorithm= length= activation= index='
    [attribute-delete]='index='
    [sign]='hash= padding= algorithm= prehashed'
    [get]='format= wrap='
    [revoke]='reason= message= since='
)
declare -gA _kmip_kinds=(
    [create-rsa.private-usage=]=Uses [create-rsa.public-usage=]=Uses
    [create.1]=Algorithm [create.usage=]=Uses
    [register.1]=KeyKind [register.format=]=Format [register.algorithm=]=Algorithm [register.usage=]=Uses
    [locate.type=]=ObjectType [locate.state=]=State [locate.algorithm=]=Algorithm
    [attribute-add.type=]=ObjectType [attribute-add.state=]=State [attribute-add.algorithm=]=Algorithm
    [attribute-modify.type=]=ObjectType [attribute-modify.state=]=State [attribute-modify.algorithm=]=Algorithm
    [sign.hash=]=Hash [sign.padding=]=Padding [sign.algorithm=]=Algorithm
    [get.format=]=Format
    [revoke.reason=]=Reason
)
declare -gA _kmip_names=(
    [KeyKind]='public private symmetric'
    [Algorithm]='DES TRIPLE_DES AES RSA'
    [Format]='Raw Opaque PKCS1 PKCS8 X509 ECPrivateKey TransparentSymmetricKey TransparentDSAPrivateKey TransparentDSAPublicKey TransparentRSAPrivateKey TransparentRSAPublicKey TransparentDHPrivateKey TransparentDHPublicKey TransparentECDSAPrivateKey TransparentECDSAPublicKey TransparentECHDPrivateKey TransparentECDHPublicKey TransparentECMQVPrivateKey TransparentECMQVPublicKey'
    [Hash]='MD2 MD4 MD5 SHA1 SHA224 SHA256 SHA384 SHA512 RIPEMD160 Tiger Whirlpool'
    [Padding]='None OAEP PKCS5 SSL3 Zeros ANSI_X9_23 ISO_10126 PKCS1_v1_5 X9_31 PSS'
    [Reason]='Unspecified KeyCompromise CACompromise AffiliationChanged Superseded CessationOfOperation PrivilegeWithdrawn'
    [State]='PreActive Active Deactivated Compromised Destroyed DestroyedCompromised'
    [ObjectType]='Certificate SymmetricKey PublicKey PrivateKey SplitKey Template SecretData OpaqueObject PGPKey'
    [Uses]='Sign Verify Encrypt Decrypt WrapKey UnwrapKey Export MacGenerate MacVerify DeriveKey ContentCommitmentNonRepudiation KeyAgreement CertificateSign CrlSign GenerateCryptogram ValidateCryptogram TranslateEncrypt TranslateDecrypt TranslateWrap TranslateUnwrap'
    [Version]='1.0 1.1 1.2'
)
# clients/grammar.py: end
_kmip_operations=(Create CreateKeyPair Register Rekey DeriveKey Certify Recertify Locate Check Get GetAttributes
    GetAttributeList AddAttribute ModifyAttribute DeleteAttribute ObtainLease GetUsageAllocation Activate Revoke Destroy
    Archive Recover Validate Query Cancel Poll Notify Put RekeyKeyPair DiscoverVersions Encrypt Decrypt Sign SignatureVerify
    MAC MACVerify RNGRetrieve RNGSeed Hash CreateSplitKey JoinSplitKey)
# The same of the calls that `kmip_call --operations` lists.
# clients/grammar.py: operations
_kmip_table=(encrypt decrypt mac mac-verify verify hash derive-key rekey rekey-pair certify recertify create-ec
             create-pair create-key check attribute-list lease usage-allocation archive recover validate cancel poll
             rng-seed)
_kmip_plain+=([encrypt]=2 [decrypt]=2 [mac]=2 [mac-verify]=3 [verify]=3 [hash]=1 [derive-key]=2 [rekey]=1
              [rekey-pair]=1 [certify]=1 [recertify]=1 [create-ec]=3 [create-pair]=4 [create-key]=3 [check]=1
              [attribute-list]=1 [lease]=1 [usage-allocation]=2 [archive]=1 [recover]=1 [validate]=1 [cancel]=1
              [poll]=1 [rng-seed]=1)
_kmip_options+=(
    [encrypt]='mode= padding= hash= role= signature-algorithm= algorithm= random-iv= iv-length= tag-length= fixed-field-length= invocation-field-length= counter-length= initial-counter= iv='
    [decrypt]='mode= padding= hash= role= signature-algorithm= algorithm= random-iv= iv-length= tag-length= fixed-field-length= invocation-field-length= counter-length= initial-counter= iv='
    [mac]='mode= padding= hash= role= signature-algorithm= algorithm= random-iv= iv-length= tag-length= fixed-field-length= invocation-field-length= counter-length= initial-counter='
    [mac-verify]='mode= padding= hash= role= signature-algorithm= algorithm= random-iv= iv-length= tag-length= fixed-field-length= invocation-field-length= counter-length= initial-counter='
    [verify]='mode= padding= hash= role= signature-algorithm= algorithm= random-iv= iv-length= tag-length= fixed-field-length= invocation-field-length= counter-length= initial-counter='
    [hash]='hash='
    [derive-key]='type= also= mode= padding= hash= cipher= iv= data= salt= iterations= algorithm= length= usage= name='
    [rekey]='offset='
    [rekey-pair]='offset='
    [certify]='request-type= request= name='
    [recertify]='request-type= request= offset= name='
    [create-ec]='algorithm= length= private-usage= public-usage='
    [create-pair]='private-usage= public-usage='
    [create-key]='usage='
    [check]='count= usage= lease='
)
_kmip_kinds+=([encrypt.random-iv=]=Truth [decrypt.random-iv=]=Truth [mac.random-iv=]=Truth
              [mac-verify.random-iv=]=Truth [verify.random-iv=]=Truth [derive-key.usage=]=Uses
              [create-ec.private-usage=]=Uses [create-ec.public-usage=]=Uses [create-pair.private-usage=]=Uses
              [create-pair.public-usage=]=Uses [create-key.usage=]=Uses [check.usage=]=Uses)
_kmip_names+=([Truth]='true false')
# clients/grammar.py: end
_kmip_fields=(attributes cryptographic_object data iv_counter_nonce mac_data object_type object_types operations private_key
    public_key random_bytes signature_data supported_versions unique_identifier unique_identifiers validity_indicator
    vendor_identification)

# Leaves in COMPREPLY those of the words that begin as what was typed does.
_kmip_offer() { # TYPED WORD..
    local word
    COMPREPLY=()
    for word in "${@:2}"; do
        if [[ $word == "$1"* ]]; then COMPREPLY+=("$word"); fi
    done
}

_kmip_offer_files() { # TYPED
    mapfile -t COMPREPLY < <(compgen -f -- "$1")
    compopt -o filenames 2>/dev/null || :
}

# Leaves in `words` those of the line, the last of which is what was typed. What bash takes for three words, as
# `record=FILE`, is one.
_kmip_split() {
    local line=${COMP_LINE:0:COMP_POINT}
    COMPREPLY=()
    # shellcheck disable=SC2162 # a space behind a backslash is part of its word
    read -a words <<<"$line"
    if [[ $line == *[[:space:]] ]]; then words+=(''); fi
}

# Leaves in COMPREPLY names of a kind that a value begins as; of uses the last, after a `,`.
_kmip_offer_names() { # KIND TYPED
    local front=''
    if [[ $1 == Uses && $2 == *,* ]]; then front=${2%,*},; fi
    # shellcheck disable=SC2086 # several names
    _kmip_offer "${2#"$front"}" ${_kmip_names[$1]}
    COMPREPLY=("${COMPREPLY[@]/#/$front}")
}

# The options of a call that are not given yet; or what the value of one may be.
_kmip_offer_options() { # CALL WORD.. TYPED
    local typed=${!#} option left=()
    if [[ $typed == *=* ]]; then
        option=${_kmip_kinds[$1.${typed%%=*}=]-}
        if [[ -n $option ]]; then _kmip_offer_names "$option" "${typed#*=}"; fi
        return 0
    fi
    for option in ${_kmip_options[$1]-}; do
        if [[ " ${*:2:$#-2}" != *" $option"* ]]; then left+=("$option"); fi
    done
    _kmip_offer "$typed" ${left[@]+"${left[@]}"}
}

# What may follow a call: after `operation` a name, and then a version and an ID; after `locate` the word `where`; and the names that a
# word may be, the options, and what their values may be.
_kmip_follow() { # CALL WORD.. TYPED
    COMPREPLY=()
    case $1.$# in
    operation.2) _kmip_offer "$2" "${_kmip_operations[@]}" ;;
    operation.3) _kmip_offer "$3" version= item-id= ;;
    operation.4)
        case $3 in
        version=*) _kmip_offer "$4" item-id= ;;
        item-id=*) _kmip_offer "$4" version= ;;
        esac
        ;;
    locate.2) _kmip_offer "$2" where ;;
    *)
        if [[ -n ${_kmip_kinds[$1.$(($# - 1))]-} ]]; then
            _kmip_offer_names "${_kmip_kinds[$1.$(($# - 1))]}" "${!#}"
        elif (($# - 1 > ${_kmip_plain[$1]-$#})); then
            _kmip_offer_options "$@"
        fi
        ;;
    esac
    if [[ ${COMPREPLY[0]-} == *= ]]; then compopt -o nospace 2>/dev/null || :; fi
}

# Options in their order, each once, and then a call.
_kmip_call() {
    local words word typed at=1 options=(user= password= limit= record=)
    _kmip_split
    typed=${words[-1]}
    for word in "${words[@]:1:${#words[@]}-2}"; do
        while ((${#options[@]})) && [[ $word != "${options[0]}"* ]]; do options=("${options[@]:1}"); done
        if ((${#options[@]} == 0)); then # the call is there already
            _kmip_follow "${words[@]:at}"
            return 0
        fi
        options=("${options[@]:1}")
        at=$((at + 1))
    done
    case $typed in
    record=*) _kmip_offer_files "${typed#record=}" ;;
    *=*) COMPREPLY=() ;;
    -*) _kmip_offer "$typed" --help --version --grammar --operations ;;
    *) _kmip_offer "$typed" "${_kmip_calls[@]}" "${_kmip_table[@]}" "${options[@]}" ;;
    esac
    if [[ ${COMPREPLY[0]-} == *= ]]; then compopt -o nospace 2>/dev/null || :; fi
}

# kmip CALL WORD..
_kmip() {
    local words
    _kmip_split
    if ((${#words[@]} == 2)); then
        _kmip_offer "${words[1]}" "${_kmip_calls[@]}" "${_kmip_table[@]}" pem
    elif [[ ${words[1]-} == @(operation|message) && ${words[-1]} == @* ]]; then
        _kmip_offer_files "${words[-1]#@}"
    else
        _kmip_follow "${words[@]:1}"
    fi
}

# kmip_field FIELD CALL WORD..
_kmip_field() {
    COMPREPLY=()
    case $COMP_CWORD in
    1) _kmip_offer "${COMP_WORDS[1]}" "${_kmip_fields[@]}" ;;
    2) _kmip_offer "${COMP_WORDS[2]}" "${_kmip_calls[@]}" "${_kmip_table[@]}" ;;
    esac
}

# kmip_open HOST:PORT CERTIFICATE KEY AUTHORITY: files, but for the first.
_kmip_open() {
    local words
    _kmip_split
    if ((${#words[@]} > 2)); then _kmip_offer_files "${words[-1]}"; fi
}

complete -F _kmip_call kmip_call
complete -F _kmip kmip
complete -F _kmip_field kmip_field
complete -F _kmip_open kmip_open
complete -c kmip_without
