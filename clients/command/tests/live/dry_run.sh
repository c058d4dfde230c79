# shellcheck shell=bash disable=SC2154
# Requests that are shown and not sent: each example of the help, with no settings and no server.
if [[ -z ${KMIP_TTLV-} ]]; then
    KMIP_TTLV=$built/kmip_ttlv
    export KMIP_TTLV
fi
if [[ ! -x $KMIP_TTLV ]]; then
    printf 'skipped command: requests are not shown: there is no kmip_ttlv (clients/build.sh --encoder)\n'
    return
fi
alone() { env -i HOME="$work/home" PATH="$PATH" KMIP_TTLV="$KMIP_TTLV" "$kmip" "$@"; }
alone sign issuing text:hello --dry-run >"$said" 2>&1
verdict 'a signature, with no settings'
diff - "$said" >different <<'END'
RequestMessage
  RequestHeader
    ProtocolVersion
      ProtocolVersionMajor (Integer): 1
      ProtocolVersionMinor (Integer): 2
    BatchCount (Integer): 1
  BatchItem
    Operation (Enumeration): Sign
    RequestPayload
      UniqueIdentifier (TextString): issuing
      CryptographicParameters
        PaddingMethod (Enumeration): PKCS1V1_5
        HashingAlgorithm (Enumeration): SHA_256
        CryptographicAlgorithm (Enumeration): RSA
      Data (ByteString): 68656C6C6F
# issuing would be looked up first, as a name
END
verdict 'is shown as a tree'
# The files that the examples name.
all=42007801000000604200770100000038420069010000002042006A0200000004000000010000000042006B
all+=0200000004000000000000000042000D0200000004000000010000000042000F010000001842005C0500000004
all+=00000008000000004200790100000000
printf '%s' "$all" | sed 's/../\\x&/g' | xargs -0 printf '%b' >request.ttlv
for file in tbs.der tbs.sig sealed iv code request.der; do printf 'sixteen bytes or' >"$file"; done
printf '{"tag":"RequestPayload","value":[]}' >query.json
cp "$certs/ca.pem" ca.pem
openssl genrsa -out key.pem 2048 2>"$said" && openssl rsa -in key.pem -pubout -out public.pem 2>"$said"
count=0 shown=0
while read -r example; do
    count=$((count + 1))
    eval "words=($example)"
    if printf secret | alone "${words[@]:1}" --dry-run >"$said" 2>&1 && grep -q '^RequestMessage$' "$said"; then
        shown=$((shown + 1))
    else
        printf 'FAILED  command: %s\n' "$example"
    fi
    # What a key or a password is, is not shown.
    if grep -qE '736563726574|4D4949' "$said"; then printf 'FAILED  command: %s shows a secret\n' "$example"; fi
done < <(alone __examples)
((count > 40 && count == shown))
verdict "each of the $count examples is a request"
env -i HOME="$work" PATH=/nowhere "$kmip" query --dry-run >"$said" 2>&1
(($? == 2))
verdict 'without kmip_ttlv the status is 2'
says 'and it is said where it comes from' 'kmip_ttlv, which is installed beside kmip'
