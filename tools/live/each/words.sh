# shellcheck shell=bash
# needs: server
# Words that are odd, and words that are none.
call_is 'a call that is none' 2 sing 1 00
call_is 'a word too few' 2 rename 1
call_is 'hex digits that are none' 2 sign 1 XY
call_is 'a space and a percent sign in an identifier' 1 get 'no such %20 key'
call_is 'a line feed and a quote in an identifier' 1 get $'no\n"such" key'
call_is 'a letter past ASCII in an identifier' 1 get 'schlüssel'
call_is 'the empty identifier, which a server may take for the last object' 2 get ''
call_is 'an identifier like a word of its own' 1 get '-'
