# shellcheck shell=bash disable=SC2154
# needs: server
# A program with a key on the server: what it may ask for, threads and forks, connections that end. The provider and the program
# are built with address sanitizing where that works here.
look_for_sanitizers
build_provider with_sanitizers ${sanitized[@]+"${sanitized[@]}"}
build_test program ${sanitized[@]+"${sanitized[@]}"}
make_key 'of a program' || give_up 'no key'
uri="kmip:id=$private;public-id=$public"
configure 'pss_salt = max'
run_program uses "$uri"
run_threads "$uri" 2
configure 'pss_salt = max' 'connections = 2'
run_threads "$uri" 2
through_relay
configure 'pss_salt = max'
run_program lost "$uri" "$relay"
run_program gone "$uri" "$relay"
