# shellcheck shell=bash disable=SC2034
# Several servers, each of which fails in its way, by Client.
client_program call # (what it needs of the environment)
several=("$python" -B "$own/several.py")
. "$here/several.sh"
