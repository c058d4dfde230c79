# shellcheck shell=bash
# .ci/run: the proofs, a long run, and then the clients' checks; what fails first ends it, with its status.
mkdir -p "a clone/.ci" "a clone/tools" "a clone/tables" "a clone/bench" bin
cp "$top/.ci/run" "a clone/.ci"
cp "$top/tools/refusals.py" "a clone/tools"
printf '#!/bin/bash\necho "$* in $PWD"; exit "$PROOFS"\n' >bin/rt
printf '#!/bin/bash\necho "the clients $*"; exit "$CLIENTS"\n' >'a clone/tools/check_clients.sh'
printf '#!/bin/bash\necho the counts; exit "$COUNTS"\n' >'a clone/bench/make_counts.sh'
for script in tables/generate.py tools/check_names.py; do printf '#!/bin/bash\necho the tables\n' >"a clone/$script"; done
chmod +x bin/rt 'a clone/tools/'* 'a clone/tables/'* 'a clone/bench/'*
run_is() { # WHAT STATUS PROOFS COUNTS CLIENTS
    (cd / && PATH="$work/bin:$PATH" PROOFS=$3 COUNTS=$4 CLIENTS=$5 "$work/a clone/.ci/run") >"$said" 2>&1
    (($? == $2))
    verdict ".ci/run: $1"
}
run_is 'all passes' 0 0 0 0
says 'the proofs are those of the clone' "^ci in $work/a clone$"
who='(shell|c|python|rust|command)'
[[ $(tail -1 "$said") =~ ^'the clients '(--client $who ){5}(--least $who=[1-9][0-9]+ ){5}'--seconds '[1-9][0-9]+$ ]]
verdict 'the clients come after them, each with a least number of checks'
run_is 'proofs that fail end it' 7 7 0 0
says_not 'and the clients are not tried' 'the clients'
run_is 'so does a long run that fails' 6 0 6 0
says_not 'and the clients are not tried' 'the clients'
run_is 'so do clients that fail' 5 0 0 5
