# shellcheck shell=bash
# needs: server
# Calls that are no part of the life of an RSA key.
name="live $client"
call_is 'an AES key' 0 create-aes 256 "$name"
made=$(grep -o '"unique_identifier": *"[0-9]*"' "$said" | grep -o '[0-9]*')
call_is 'the objects with its name' 0 locate "$name"
says 'its identifier is among them' "\"$made\""
call_is 'its attributes' 0 attributes "$made"
says 'its name is among them' "$name"
call_is 'the versions of the server' 0 discover
says '1.2 is among them' '"major": *1, *"minor": *2'
call_is 'a destroyed AES key' 0 destroy "$made"
