# shellcheck shell=bash
# needs: server
# tools/test_server.sh: what it says to enter is entered.
server=$top/tools/test_server.sh
folder="$work/the server's"
"$server" start --folder "$folder" >"$said" 2>&1
verdict 'test_server.sh start'
process=$(<"$folder/server.pid")
sed -n '/^Enter:/,/^And/s/^    //p' "$said" | grep -v '/build\.sh ' | sed "s|^export KMIP_CALL=.*|export KMIP_CALL=$built/kmip_call|" >"$work/enter.sh"
printf 'kmip activate 2; kmip_field signature_data sign 2 68656C6C6F; kmip_close\n' >>"$work/enter.sh"
"$server" start --folder "$folder" >"$work/again" 2>&1 && grep -q "^It runs already, as process $process" "$work/again"
verdict 'a second start says that it runs'
bash "$work/enter.sh" >"$said" 2>&1
says 'what it says to enter makes a pair of keys' '^\{"answer":\{"private_key":"2","public_key":"1"\}\}$'
says 'and the private key signs' '^[0-9A-F]{512}$'
"$server" stop --folder "$folder" >"$said" 2>&1 && [[ ! -e $folder ]]
verdict 'test_server.sh stop'
# The server has processes of its own, which watch its policies; they end when the system comes to it.
for ((try = 0; try < 100 * slack; try++)); do
    pgrep -af "pykmip-server -f $folder/server.conf" >"$said" || break
    sleep 0.1
done
[[ ! -s $said ]]
verdict 'it ends all processes of the server'
"$server" stop --folder "$folder" >"$said" 2>&1
says 'a second stop says that it does not run' 'does not run'
mkdir few "$work/not empty"
touch "$work/not empty/mine"
for tool in bash dirname sed realpath ls openssl mkdir; do ln -s "$(type -P "$tool")" few; done
! PATH=$work/few "$server" start --folder "$folder" >"$said" 2>&1
verdict 'without PyKMIP it does not start'
says 'and names the package' 'apt-get install python3-pykmip'
! "$server" start --folder "$work/not empty" >"$said" 2>&1 && [[ -e "$work/not empty/mine" ]]
verdict 'a folder that is not its own is left alone'
! "$server" start --port "$server_port" --folder "$folder" >"$said" 2>&1
verdict 'a port that is taken is said to be'
"$server" start --port $((server_port + 65536)) --folder "$folder" >"$said" 2>&1
(($? == 2))
verdict 'a port that is none: status 2'
"$server" >"$said" 2>&1
(($? == 2))
verdict 'no word: status 2'
