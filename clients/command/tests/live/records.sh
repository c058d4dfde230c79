# shellcheck shell=bash disable=SC2154
# Records: of many processes in one file, and one that cannot be written.
fake good
export METSUWAN_RECORD=$work/record
for ((at = 0; at < 100; at++)); do
    kmip_here attributes id:k >/dev/null 2>>"$said" &
    ((at % 10 != 9)) || wait
done
wait
unset METSUWAN_RECORD
[[ $(grep -cE '^raw ([0-9A-F]{2})+ ([0-9A-F]{2})+$' record) == 100 && $(wc -l <record) == 100 ]]
verdict 'a hundred processes have each a line, whole'
[[ $(stat -c %a record) == 600 ]]
verdict 'which are for their owner alone'
kmip_is 'a record that is a folder' 2 query --record "$work"
says 'it is said' 'record .*: Is a directory'
kmip_is 'a record on a disk that is full' 4 rng 5 --record /dev/full
says 'the answer is there' random_bytes
says 'and it is said' 'the record cannot be written'
# The lock is that of the one write: it is not held while a server keeps silent, and what holds it too long is told.
fake silent
METSUWAN_RECORD=$work/shared METSUWAN_SECONDS=600 kmip_here query >waits 2>&1 &
waiting=$!
started+=("$waiting")
until [[ -e shared ]]; do sleep 0.1; done
sleep 1
fake good
kmip_is 'another process waits for a silent server' 0 attributes id:k --record "$work/shared"
[[ $(wc -l <shared) == 1 ]]
verdict 'this one adds its line at once'
kill "$waiting" 2>/dev/null
printf 'raw 42' >shared
kmip_is 'behind a line that was torn' 0 attributes id:k --record "$work/shared"
[[ $(head -1 shared) == 'raw 42' && $(sed -n 2p shared) == 'raw 4200'* && $(wc -l <shared) == 2 ]]
verdict 'it stands in a line of its own'
exec 9>>shared
flock 9
kmip_is 'a lock that is held' 4 rng 5 --record "$work/shared"
exec 9>&-
says 'the answer is there' random_bytes
says 'and it is said' 'another process has it locked'
