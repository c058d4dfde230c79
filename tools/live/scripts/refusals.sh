# shellcheck shell=bash
# tools/refusals.py: which edits it counts as refused by the contracts, and its status and output, by an rt that says what
# the real one does.
mkdir -p 'a clone/crates/one/must-fail' 'a clone/crates/two/must-fail' bin
touch 'a clone/crates/one/must-fail/first.edit' 'a clone/crates/two/must-fail/second.edit'
# shellcheck disable=SC2016 # that of the script that is written
printf '#!/bin/bash\nprintf "%%b" "$SAYS"\nexit "$STATUS"\n' >bin/rt
chmod +x bin/rt
judge() { # STATUS SAYS WORD..: runs `rt WORD..`, which ends with this status and says this
    (cd 'a clone' && PATH="$work/bin:$PATH" STATUS=$1 SAYS=$2 "$top/tools/refusals.py" rt "${@:3}") >"$said" 2>&1
}
judges() { # WHAT COUNT STATUS SECOND: what rt says of the second edit, where it ends well
    judge 0 "${first}rt: must-fail two/second.edit: $4\n5 passed, 0 failed\n" ci
    (($? == $3)) && [[ $(tail -1 "$said") == "refusals.py: $2 of 2 must-fail edits are refused by the contracts" ]]
    verdict "refusals.py: $1"
}
refused='refused, as it must be'
first="rt: must-fail one/first.edit: $refused: note: src/a.rt:3:5: it is not proved that what the function ensures holds\\n"
judges 'a proof that does not fit' 2 0 \
    "$refused: ./proofs/f/Answers.antt:129:134: error: \`returns\`: expected type \`Rattle.kmip_wire.specs.Open.Passes c.in-Some.whole (take c.words.left c."
says_not 'no edit is told beside it' '^refusals.py: two/'
says 'what rt said is passed on' '^rt: must-fail two/second.edit: refused, as it must be: ./proofs/f/Answers.antt'
judges 'a goal that search leaves open' 2 0 \
    "$refused: note: src/b.rt:108:5: it is not proved that the invariant of the loop holds (\`items-preserved-then-front-ne66\`); \`search\` gave up at one of its limits"
judges 'a name that a proof lacks' 1 1 \
    "$refused (only because a proof file names what the edit took away, so this says little of the contract: change a value and keep the names): ./proofs/front/are_items/Invariants.antt:11:30: error: \`decreases-words\`: \`goal.decreases-words\`: module \`Rattle.kmip_wire.proofs.front.are_items.Given\` has no "
says 'the edit is told, with the reason' '^refusals.py: two/second.edit: refused only because a proof file names '
judges 'such a name, where the line is broken' 1 1 \
    "$refused: ./proofs/f/Answers.antt:1:1: error: \`returns\`: record \`After-f\`"
says 'the edit is told, with the reason' '^refusals.py: two/second.edit: refused only because a proof file names '
judges 'a limit' 1 1 \
    "$refused (only by a limit of the prover, which gave no verdict, so this says less of the contract: choose a change that it refuses sooner): ./proofs/f/Answers.antt:1:1: error: antt ran out of the steps that the check of one declaration may take"
says 'the edit is told, with the reason' '^refusals.py: two/second.edit: refused only by a limit of the prover'
judges 'no reason' 1 1 "$refused"
judges 'an edit that does not apply' 1 1 "BAD EDIT: an 'old:' text is in src/b.rt 0 times, and not once"
says 'the edit is told, with the reason' "^refusals.py: two/second.edit: BAD EDIT: an 'old:' text is in src/b.rt 0 times"
judges 'an edit that does not compile' 1 1 \
    'BAD EDIT: it did not reach the prover; the first lines of what it said:\nerror[unknown-name]: x'
judges 'a check that was killed' 1 1 \
    'NOT TRIED: its check was killed, most likely for memory, so nothing is known of it: run this again'
judges 'an edit that is still proved' 1 1 'NOT REFUSED: the crate is still proved with this edit'

judge 0 "$first" ci
(($? == 1))
verdict 'refusals.py: an edit of which nothing is said'
says 'it is told' '^refusals.py: two/second.edit: rt said nothing of it$'
judge 0 "$first" ci one
verdict 'refusals.py: an edit of a crate that was not named'
judge 0 "$first" must-fail one two
(($? == 1))
verdict 'refusals.py: an edit of a crate that was named'
judge 0 "${first}rt: crates/two/must-fail/second.edit~: BAD EDIT: an edit stands right in must-fail/, and its name is of letters\n" ci one
(($? == 1))
verdict 'refusals.py: a file beside the edits that is none'
judge 7 'broke off\n' ci
(($? == 7))
verdict "refusals.py: the command's own status"
says_not 'no edit is missed where it did not end well' 'said nothing'

lines=$'\xff no UTF-8\r\n\nno end of line'
(cd 'a clone' && "$top/tools/refusals.py" printf %s "$lines") >passed_on 2>"$said"
[[ $(<passed_on) == "$lines" ]]
verdict 'refusals.py: each byte is passed on'
mkfifo fifo_in fifo_out
(cd 'a clone' && exec "$top/tools/refusals.py" bash -c 'echo begun; cat' <"$work/fifo_in" >"$work/fifo_out" 2>&1) &
exec 7>fifo_in 8<fifo_out
IFS= read -r -t $((5 * slack)) line <&8 && [[ $line == begun ]]
verdict 'refusals.py: a line is passed on while the command runs'
exec 7>&- 8<&-
wait "$!"
(cd 'a clone' && exec "$top/tools/refusals.py" sleep 60) >"$said" 2>&1 &
sleep 1
kill "$!" && wait "$!"
(($? == 143))
verdict 'refusals.py: a signal reaches the command'
(cd 'a clone' && "$top/tools/refusals.py" ./none) >"$said" 2>&1
(($? == 1))
verdict 'refusals.py: a command that is none'
says 'it is told' '^refusals.py: \./none: .*No such file'
(cd 'a clone' && "$top/tools/refusals.py" echo one) >/dev/full 2>"$said"
(($? == 1))
verdict 'refusals.py: an output that takes nothing'
says 'it is told' '^refusals.py: echo one: .*No space left'
"$top/tools/refusals.py" >"$said" 2>&1
(($? == 2))
verdict 'refusals.py: no command'
