# shellcheck shell=bash
# Any operation, by its name and a payload in JSON or XML, and whole messages in JSON or XML.
payload='{"tag":"RequestPayload","value":[{"tag":"UniqueIdentifier","type":"TextString","value":"my key"}]}'
answer='^\{"answer":\{"tag":"ResponsePayload","value":\[\{"tag":"UniqueIdentifier","type":"TextString","value":"my key"\}\]\}\}$'
printf '%s\n' "$payload" >'a payload.json'
fake good
call_is 'an operation' 0 operation Archive "$payload"
says 'its answer is the payload of the response' "$answer"
call_is 'an operation of KMIP 1.0' 0 operation Archive version=1.0 "$payload"
call_is 'the payload of a file' 0 operation Archive version=1.1 '@a payload.json'
says 'is the same' "$answer"
call_is 'a name that is none of KMIP' 2 operation archive "$payload"
says 'it is said' '"GrammarError".*no operation of this name'
call_is 'a version that is none of these' 2 operation Archive version=2.0 "$payload"
call_is 'a payload with another tag' 2 operation Archive '{"tag":"ResponsePayload","value":[]}'
says 'it is said, too' '"GrammarError".*the payload: .*no Structure with the tag RequestPayload'
call_is 'a payload without its end' 2 operation Archive "${payload%?}"
call_is 'no payload' 2 operation Archive
call_is 'no name' 2 operation
KMIP_RECORD=$work/calls call_is 'an operation that is recorded' 0 operation Archive "$payload"
grep -qE '^message 420078[0-9A-F]+ 42007B[0-9A-F]+$' calls && (($(wc -l <calls) == 1))
verdict 'is so as a message'
call_is 'a file that is not there' 2 operation Archive @nowhere.json
says 'is said' '"GrammarError".*file'
printf '%s\0\n' "$payload" >zero.json
call_is 'a file with a byte of zero' 2 operation Archive @zero.json
long='{"tag":"RequestPayload","value":[{"tag":"Data","type":"ByteString","value":"'$(head -c 131000 /dev/zero | tr '\0' 0)'"}]}'
printf %s "$long" >long.json
script_is 'a payload longer than a word may be, of a file and of a text, and a call after both' 0 '
    open; kmip operation Archive @long.json && kmip operation Archive "$(<long.json)" && kmip query; kmip_close'
(($(grep -c '^{"answer":{"tag":"ResponsePayload"' "$said") == 2))
verdict 'both are answered'
message='{"tag":"RequestMessage","value":[{"tag":"RequestHeader","value":[{"tag":"ProtocolVersion","value":[
    {"tag":"ProtocolVersionMajor","type":"Integer","value":1},{"tag":"ProtocolVersionMinor","type":"Integer","value":2}]},
    {"tag":"BatchCount","type":"Integer","value":1}]},{"tag":"BatchItem","value":[
    {"tag":"Operation","type":"Enumeration","value":"Archive"},{"tag":"RequestPayload","value":[
    {"tag":"UniqueIdentifier","type":"TextString","value":"my key"}]}]}]}'
printf '%s\n' "$message" >message.json
call_is 'a whole message' 0 message "$message"
says 'its answer is the whole response' '^\{"answer":\{"tag":"ResponseMessage","value":\[\{"tag":"ResponseHeader",.*"my key"'
call_is 'the message of a file' 0 message @message.json
# OASIS's use cases 3.1.1 and 3.1.3, and Query, in the XML of its encodings
header() { # MINOR-VERSION
    printf '<RequestMessage><RequestHeader><ProtocolVersion><ProtocolVersionMajor type="Integer" value="1"/>'
    printf '<ProtocolVersionMinor type="Integer" value="%s"/></ProtocolVersion>' "$1"
    printf '<BatchCount type="Integer" value="1"/></RequestHeader><BatchItem>'
}
attribute() { # NAME TYPE VALUE
    printf '<Attribute><AttributeName type="TextString" value="%s"/>' "$1"
    printf '<AttributeValue type="%s" value="%s"/></Attribute>' "$2" "$3"
}
{
    printf '<?xml version="1.0" encoding="UTF-8"?>\n<!-- a key of 128 bits -->\n'
    header 0
    printf '<Operation type="Enumeration" value="Create"/><RequestPayload>'
    printf '<ObjectType type="Enumeration" value="SymmetricKey"/><TemplateAttribute>'
    attribute 'Cryptographic Algorithm' Enumeration AES
    attribute 'Cryptographic Length' Integer 128
    attribute 'Cryptographic Usage Mask' Integer 'Decrypt Encrypt'
    printf '</TemplateAttribute></RequestPayload></BatchItem></RequestMessage>\n'
} >Create.xml
{
    header 0
    printf '<Operation type="Enumeration" value="0x0000000A"/><RequestPayload>'
    printf "<UniqueIdentifier value='my key' type='TextString'/></RequestPayload></BatchItem></RequestMessage>"
} >Get.xml
{
    header 2
    printf '<Operation type="Enumeration" value="Query"/><RequestPayload>'
    printf '<QueryFunction type="Enumeration" value="QueryOperations"/></RequestPayload></BatchItem></RequestMessage>'
} >Query.xml
for name in Create Get Query; do
    call_is "$name as XML" 0 message "@$name.xml"
    says 'the response answers it' '"tag":"Operation","type":"Enumeration","value":"'"$name"'"'
done
xml='<RequestPayload><UniqueIdentifier type="TextString" value="my key"/></RequestPayload>'
call_is 'a payload of XML' 0 operation Archive "$xml"
says 'its answer is that of the same in JSON' "$answer"
call_is 'XML without its end' 2 operation Archive "${xml%?}"
says 'the place is said' '"GrammarError".*the payload: line 1, column '
call_is 'a payload in the place of a message' 2 message "$payload"
says 'what is wrong' '"GrammarError".*the message: .*no Structure with the tag RequestMessage'
call_is 'a message and a word more' 2 message "$message" more
fake batch_two
call_is 'two answers to a message' 0 message "$message"
says 'both are told' '"BatchItem".*"BatchItem"'
fake not_utf8
call_is 'a response that is malformed' 3 message "$message"
fake other_operation
call_is 'an answer to another operation' 3 operation Archive "$payload"
says 'the operation that was asked for is named, and the skeleton shows the number of what came' \
    '"InternalError","text":"Response does not match request operation Archive","response":"7B\[[^"]*0F\[5Ce14:'
fake other_failure
call_is 'a failure of another operation' 3 operation Archive "$payload"
says 'both operations are named' '"InternalError","text":"Response operation Destroy does not match request operation Archive"'
fake unknown_reason
call_is 'a failure whose reason is in no table' 1 operation Archive "$payload"
says "its number and the server's message are shown" '"ServerError","text":"Operation Archive failed for reason 32767: not today".*"reason":\{"number":32767\},"message":"not today"'
fake digest
data=$(head -c 30000 /dev/zero | tr '\0' Q | tee "$work/data" | od -An -v -tx1 | tr -d ' \n')
printf '{"tag":"RequestPayload","value":[{"tag":"UniqueIdentifier","type":"TextString","value":"k"},
    {"tag":"Data","type":"ByteString","value":"%s"}]}' "$data" >sign.json
script 'open; kmip_field "value[] | select(.tag == \"SignatureData\").value" operation Sign @sign.json; kmip_close'
got=$(printf '%b' "$(sed 's/../\\x&/g' "$said")")
[[ $got == "30000 $(sha256sum <"$work/data" | cut -d' ' -f1)" ]]
verdict 'all of 30000 bytes of a payload arrive'
# What the tables of get and attributes have no words for is answered as a tree: by one request, and without jq.
fake transparent
script_is 'an HMAC key, and attributes of no table' 0 'open; mkdir tools; export KMIP_RECORD=$work/kept
    for tool in bash flock timeout sed openssl; do ln -s "$(type -P "$tool")" tools; done
    PATH=$work/tools; kmip get HMAC && kmip attributes k && kmip query; status=$?; kmip_close; exit $status'
(($(grep -c '^{"answer":{"tag":"ResponsePayload",' "$said") == 2))
verdict 'both are answered as trees'
says 'each is asked for once' '"vendor_identification":"3"'
(($(wc -l <kept) == 3 && $(grep -c '^get HMAC 42007B' kept) == 1))
verdict 'and recorded once'
