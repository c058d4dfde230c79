# shellcheck shell=bash
# tools/test_server.sh, and a folder of somebody's own PyKMIP: it is left alone.
server=$top/tools/test_server.sh
folder=$work/pykmip
mkdir "$folder" few
printf 'port=5696\n' >"$folder/server.conf"
printf '%s\n' "$$" >"$folder/server.pid"
printf 'key\n' >"$folder/server.key"
printf '#!/bin/bash\nexit 9\n' >few/pykmip-server
chmod +x few/pykmip-server
PATH=$work/few:$PATH "$server" start --folder "$folder" >"$said" 2>&1
(($? == 1))
verdict 'start in it is refused'
says 'which is said' 'no folder of this script'
"$server" stop --folder "$folder" >"$said" 2>&1
(($? == 1))
verdict 'so is stop'
says 'which is said, too' 'no folder of this script'
[[ $(ls "$folder") == $'server.conf\nserver.key\nserver.pid' && $(<"$folder/server.key") == key ]]
verdict 'all of it is there'
# A start of its own that fails leaves a folder that it takes again, and that stop takes away.
for _ in 1 2; do
    PATH=$work/few:$PATH "$server" start --folder "$work/own" >"$said" 2>&1
    says 'a server that does not start' 'PyKMIP did not start'
done
"$server" stop --folder "$work/own" >"$said" 2>&1 && [[ ! -e $work/own ]]
verdict 'its folder is removed by stop'
ln -s "$folder" "$work/link"
! "$server" stop --folder "$work/link" >"$said" 2>&1 && [[ -e $folder/server.key ]]
verdict 'by a link, too, it is left alone'
