# shellcheck shell=bash
# needs: server
# Operations by words, of a server that has them: what encrypt seals decrypt opens, and a mac is that of openssl.
script_is 'a key that encrypts and decrypts by words' 0 '
    open
    aes=$(kmip_field unique_identifier create-aes 256 "sealed by words") && kmip activate "$aes"
    options=(mode=CBC padding=PKCS5 algorithm=AES iv=000102030405060708090A0B0C0D0E0F)
    sealed=$(kmip_field data encrypt "$aes" 68656C6C6F "${options[@]}") && echo "sealed $sealed"
    opened=$(kmip_field data decrypt "$aes" "$sealed" "${options[@]}") && echo "opened $opened"
    kmip encrypt "$aes" 68656C6C6F mode=NONE; echo "status $?"
    kmip_close'
says 'one block of 16 bytes' '^sealed [0-9A-Fa-f]{32}$'
says 'the data comes back' '^opened 68656[Cc]6[Cc]6[Ff]$'
says 'a mode that is none is refused' '^status 2$'
hex=000102030405060708090A0B0C0D0E0F101112131415161718191A1B1C1D1E1F
cat >register.json <<END
{"tag":"RequestPayload","value":[
    {"tag":"ObjectType","type":"Enumeration","value":"SymmetricKey"},
    {"tag":"TemplateAttribute","value":[{"tag":"Attribute","value":[
        {"tag":"AttributeName","type":"TextString","value":"Cryptographic Usage Mask"},
        {"tag":"AttributeValue","type":"Integer","value":"MACGenerate"}]}]},
    {"tag":"SymmetricKey","value":[{"tag":"KeyBlock","value":[
        {"tag":"KeyFormatType","type":"Enumeration","value":"Raw"},
        {"tag":"KeyValue","value":[{"tag":"KeyMaterial","type":"ByteString","value":"$hex"}]},
        {"tag":"CryptographicAlgorithm","type":"Enumeration","value":"HMAC_SHA256"},
        {"tag":"CryptographicLength","type":"Integer","value":256}]}]}]}
END
printf hello | openssl dgst -sha256 -mac HMAC -macopt "hexkey:$hex" | sed 's/.*= //' >theirs.hex
script_is 'a key that makes codes by words' 0 '
    open
    id="value[] | select(.tag == \"UniqueIdentifier\").value"
    hmac=$(kmip_field "$id" operation Register @register.json) && kmip activate "$hmac"
    ours=$(kmip_field mac_data mac "$hmac" 68656C6C6F algorithm=HMAC_SHA256)
    echo "code ${ours,,}"
    kmip_close'
says 'the code is that of openssl' "^code $(<theirs.hex)\$"
