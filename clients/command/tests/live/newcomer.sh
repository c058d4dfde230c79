# shellcheck shell=bash disable=SC2154
# needs: server
# kmip-test-server: three commands, and a signature.
server=$top/clients/command/kmip-test-server
export HOME=$work/home KMIP=$kmip
unset XDG_CONFIG_HOME XDG_DATA_HOME
mkdir -p home/.config/metsuwan
printf 'seconds = 100\n[default]\nserver = elsewhere\n' >home/.config/metsuwan/kmip.conf
cp home/.config/metsuwan/kmip.conf before
chmod 640 home/.config/metsuwan/kmip.conf
"$server" status >"$said" 2>&1
(($? == 1))
verdict 'it does not run'
"$server" start >"$said" 2>&1
verdict start
says 'the next command is told' '^    kmip --profile test sign issuing text:hello$'
"$kmip" --profile test sign issuing text:hello >"$said" 2>&1
verdict 'the next command signs'
says 'which is a signature' '"signature_data":"[0-9A-F]{512}"'
"$server" start >"$said" 2>&1
says 'a second start says that it runs' '^It runs already, on localhost:'
"$server" status >"$said" 2>&1
verdict 'it runs'
[[ $(stat -c %a home/.config/metsuwan/kmip.conf) == 640 ]]
verdict 'the mode of the settings is as it was'
"$server" stop >"$said" 2>&1
verdict stop
cmp before home/.config/metsuwan/kmip.conf >"$said" 2>&1
verdict 'the settings are as they were'
printf '[ test ]\nserver = mine\n' >home/.config/metsuwan/kmip.conf
! "$server" start >"$said" 2>&1 && grep -q mine home/.config/metsuwan/kmip.conf
verdict 'a profile of the same name is left alone'
"$server" >"$said" 2>&1
(($? == 2))
verdict 'no word: status 2'
