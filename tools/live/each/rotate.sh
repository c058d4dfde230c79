# shellcheck shell=bash
# needs: server
# A key rotation. The old key is made, and the new one tried, by the shell's client.
# The program has the deadline of 30 seconds that is a client's own: where a machine is so busy that this is over, it is tried
# again, with another key.
for try in 1 2 3; do
    name="issuing by $client, $try"
    old=$(by_shell create-rsa 2048 "$name" "$name, public" | jq -r .answer.private_key)
    by_shell activate "$old" >/dev/null
    new=$(client_run rotate "$old" "$name" 2>"$said")
    grep -q 'no answer within' "$said" || break
done
[[ -n $new && $new != "$old" ]]
verdict 'a rotation gives a new key'
by_shell sign "$new" 00 >"$said" 2>&1
verdict 'the new key signs'
by_shell get "$old" >"$said" 2>&1
(($? == 1))
verdict 'the old key is gone'
client_run rotate "$old" "$name" >"$said" 2>&1
(($? == 1))
verdict 'a rotation of a key that is gone is refused'
