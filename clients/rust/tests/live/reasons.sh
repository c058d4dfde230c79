# shellcheck shell=bash
# What is no answer is one line of JSON on standard error, which says why: the cases of the client in C.
. "$top/clients/c/tests/live/reasons.sh"
