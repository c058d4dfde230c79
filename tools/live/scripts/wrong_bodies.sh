# shellcheck shell=bash
# tools/wrong_bodies.sh: which refusals it counts, and its status, by an rt that says one line of each wrong body.
mkdir -p 'a clone/tools' 'a clone/crates/one/src' 'a clone/wrong_bodies/one' bin
cp "$top/tools/wrong_bodies.sh" "$top/tools/refusals.py" 'a clone/tools'
printf 'one: # a crate\n' >'a clone/crates.txt'
printf 'Handles allowed: none.\n' >'a clone/HANDLES'
touch 'a clone/wrong_bodies/one/first.edit' 'a clone/wrong_bodies/one/second.edit'
# shellcheck disable=SC2016 # that of the script that is written
printf '#!/bin/bash\nls crates/one/must-fail\nprintf "must-fail one/%%s\\n" "first.edit: refused, as it must be: note: src/a.rt:1:1: not proved" "$SECOND"\nexit "$STATUS"\n' >bin/rt
chmod +x bin/rt
count_is() { # WHAT COUNT STATUS RT'S-STATUS SECOND-LINE
    PATH="$work/bin:$PATH" STATUS=$4 SECOND=$5 'a clone/tools/wrong_bodies.sh' >"$said" 2>&1
    (($? == $3)) && [[ $(tail -1 "$said") == "refusals.py: $2 of 2 must-fail edits are refused by the contracts" ]]
    verdict "wrong_bodies.sh: $1"
}
refused='second.edit: refused, as it must be'
count_is 'two that contracts refuse' 2 0 0 "$refused: ./proofs/f/Answers.antt:1:1: error: \`returns\`: the two types differ"
says 'they stand in the copy' '^second.edit$'
count_is 'one of a name that a proof lacks' 1 1 0 "$refused (only because a proof file names what the edit took away)"
count_is 'one of such a name, of which rt does not say it' 1 1 0 "$refused: ./proofs/f/Answers.antt:1:1: error: \`returns\`: record \`After-f\`"
count_is 'one that is still proved' 1 1 1 'second.edit: NOT REFUSED: the crate is still proved with this edit'
count_is 'one that does not apply' 1 1 1 'second.edit: BAD EDIT: there is no file src/b.rt'
count_is 'an rt that fails' 2 1 1 "$refused: note: src/b.rt:1:1: not proved"
