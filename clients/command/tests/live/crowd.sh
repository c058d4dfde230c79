# shellcheck shell=bash disable=SC1091,SC2154
# 200 scripts, some at once, of calls of two servers that die by turns. A script ends with a call that is lost; what is left of
# it is made by another process.
. "$here/servers.sh"
crowd '200 scripts' 1200 "$python" -B "$own/crowd.py" "$kmip" 200 3
