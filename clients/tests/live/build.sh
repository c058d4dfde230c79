# shellcheck shell=bash
# clients/build.sh, over a copy of the repository's scripts and a toolchain that proves nothing and takes no time.
if ! type -P gcc ar make >/dev/null; then
    printf 'skipped shell: build.sh is not tried: there is no gcc, no make or no ar (binutils)\n'
    return
fi
copy="$work/a copy"
kit="$work/a kit"
mkdir -p "$copy/crates" "$copy/tools" "$kit/c" "$kit/bin"
cp -r "$top/clients" "$top/crates.txt" "$top/HANDLES" "$copy"
cp "$top/tools/inline_hints.py" "$copy/tools"
printf 'int memory(void) { return 1; }\n' >memory.c
printf 'int kmip_request(void) { return 2; }\n' >library.c
gcc -c memory.c library.c && ar rc "$kit/c/liblibc_c.a" memory.o && ar rc ready.a library.o
while read -r crate _; do mkdir -p "$copy/crates/${crate%:}/src" "$copy/crates/${crate%:}/must-fail"; done \
    < <(grep '^[a-z]' "$copy/crates.txt")
# `rt ci` of this kit takes all for proved, and notes it and the folders of the crates; it leaves what is built. So does
# its `rattle`, for the library.
cat >"$kit/bin/rt" <<RT
#!/bin/bash
if [[ \$1 == doc ]]; then echo "$kit/START-HERE.md"; exit; fi
[[ -d .git && -f HANDLES && \$* == ci ]] || exit 2
ls -d crates/*/* >>"$work/asked"
while IFS=' :' read -r crate _; do
    echo "\$crate" >>"$work/asked"
    mkdir "crates/\$crate/out"
    if [[ \$crate == "\${BROKEN-}" ]]; then echo "rt: \$crate NOT PROVED" && exit 1; fi
    echo "rt: \$crate is kept: it was proved"
done < <(grep '^[a-z]' crates.txt)
if [[ -d crates/kmip_call ]]; then
    printf '#!/bin/bash\necho kmip_call of the copy\n' >crates/kmip_call/out/kmip_call
    chmod +x crates/kmip_call/out/kmip_call
fi
RT
cat >"$kit/bin/rattle" <<RATTLE
#!/bin/bash
echo "rattle \$*" >>"$work/asked"
cp "$work/ready.a" "\${*: -1}" && echo "logic=\${LOGIC-proved} functions=9"
RATTLE
# What is compiled with no proof takes no time either.
cat >"$copy/tools/build.py" <<PY
import runpy, shutil, sys
if sys.argv[1] == '--unproved':
    shutil.copy('/bin/true' if sys.argv[2] == 'program' else 'ready.a', sys.argv[4])
else:
    sys.dont_write_bytecode = True
    sys.path.insert(0, '$top/tools')
    runpy.run_path('$top/tools/build.py', run_name='__main__')
PY
chmod +x "$kit/bin/rt" "$kit/bin/rattle"
built_is() { # WHAT STATUS WORD..: build.sh has this status, in this folder
    PATH="$kit/bin:$PATH" "$copy/clients/build.sh" "${@:3}" >"$said" 2>&1
    (($? == $2))
    verdict "$1"
}

built_is 'build.sh: proved, into a relative path with a space' 0 'the folder'
says 'each crate is shown, of how many, with the time so far' '^\[1/[0-9]+\] kmip_[a-z_]+: kept, after 0:[0-9][0-9]$'
wanted=$(sed -n 's/^kmip_c staticlib: *//p' "$copy/crates.txt")
[[ $(tail -1 asked) == *" --crate-type staticlib "* ]]
verdict 'the library is built last'
missing=''
for crate in $wanted; do [[ $(tail -1 asked) == *" $crate="*"/crates/$crate/out/rlib/$crate.rlib "* ]] || missing+=" $crate"; done
[[ -z $missing && -n $wanted ]]
verdict 'over the crates that rt ci has passed'
grep -qx kmip_c asked && grep -qx kmip_call asked && ! grep -qE '^kmip_(run|web|server)|/must-fail' asked
verdict 'which are those that are wanted, without their edits'
[[ -z $(find "$copy/crates" -name out) ]]
verdict 'nothing is written into the checkout'
[[ $("the folder/kmip_call") == 'kmip_call of the copy' && -e $(echo "the folder/"lib*.a) && -e $(echo "the folder/"*.h) ]]
verdict 'the folder has the program, the library and its header'
for file in "the folder/"lib*.a "the folder/"lib*.so; do
    nm -g "$file" 2>"$said" | grep -q ' T kmip_request$'
    verdict "${file##*.}: the library has its calls"
done
[[ -e $(echo "the folder/"lib*.a) && -e $(echo "the folder/"lib*.so) ]]
verdict 'it is there static and shared'
version_is() { # WHAT FOLDER REGEX: what kmip_version() of the library in this folder says
    printf '%s\n' '#include <stdio.h>' '#include "metsuwan.h"' 'int main(void) { return puts(kmip_version()) < 0; }' |
        gcc -x c -I"$2" -o version - -x none "$2/libmetsuwan.a" >"$said" 2>&1 && ./version >"$said"
    says "$1" "$3"
}
version_is 'kmip_version() says that it is proved' 'the folder' '^[0-9.]+, proved$'
PATH="$kit/bin:$PATH" "$python" -B - "$top" "$work/marked" >"$said" 2>&1 <<'PY'
import sys
sys.path.insert(0, sys.argv[1] + '/tools')
from build import not_proved
not_proved(sys.argv[1] + '/crates/kmip_call', sys.argv[2])
PY
grep '^const VERSION' marked/src/main.rt >>"$said" 2>&1
says 'kmip_call --version of a build with no proof says so' '^const VERSION: &str = "kmip_call [0-9.]+, not proved\\n";$'
BROKEN=kmip_types built_is 'a crate that is not proved ends it' 1 broken
says 'what rt wrote is shown' 'kmip_types NOT PROVED'
[[ ! -e broken/kmip_call ]]
verdict 'and nothing is made'
LOGIC=unproved built_is 'a library that is not proved ends it' 1 broken
says 'which is said' 'kmip_c is not proved'
[[ ! -e $(echo broken/lib*.a) ]]
verdict 'and there is no library'
before=$(wc -l <asked)
built_is 'build.sh: once more into the same folder' 0 'the folder'
says 'what was made before is not made again' '^the library \.\. is there, made before'
[[ $(wc -l <asked) == "$before" && $("the folder/kmip_call") == 'kmip_call of the copy' ]]
verdict 'and rt is not asked'
version_is 'the library is as it was' 'the folder' '^[0-9.]+, proved$'
echo '// changed' >"$copy/crates/kmip_wire/src/lib.rt"
built_is 'build.sh: after a change of a crate' 0 'the folder'
(($(wc -l <asked) > before))
verdict 'it is made anew'
built_is 'build.sh --unproved over what was proved' 0 --unproved 'the folder'
says_not 'takes nothing of it' 'made before'
rm "$copy/crates/kmip_wire/src/lib.rt"
built_is 'build.sh FOLDER --unproved' 0 second --unproved
built_is 'build.sh --unproved FOLDER' 0 --unproved third
says 'it says how long it takes' 'minutes'
built_is 'build.sh --unproved --encoder' 0 --unproved --encoder encoding
[[ -x encoding/kmip_ttlv && ! -e third/kmip_ttlv ]]
verdict 'makes the encoder too'
# `cargo` of this kit makes a command that makes two pages.
cat >"$kit/bin/cargo" <<'CARGO'
#!/bin/bash
[[ $1 == build && -f Cargo.toml && -f ../rust/Cargo.toml && -e $LIBMETSUWAN_DIR/libmetsuwan.a ]] || exit 1
[[ $PWD != */clients/command ]] || exit 2
mkdir -p "$CARGO_TARGET_DIR/release"
printf '#!/bin/bash\n[[ $1 == __man ]] && touch "$2/kmip.1" "$2/kmip-sign.1"\n' >"$CARGO_TARGET_DIR/release/kmip"
chmod +x "$CARGO_TARGET_DIR/release/kmip"
CARGO
ln -s cargo "$kit/bin/rustc" && chmod +x "$kit/bin/cargo"
built_is 'build.sh --command' 0 --unproved --command 'the command'
[[ -x 'the command/kmip' && -e 'the command/man/kmip-sign.1' && -x 'the command/kmip_ttlv' ]]
verdict 'makes the command, its pages and the encoder'
built_is 'a program and a library that were built before' 0 --library ready.a fourth --program second/kmip_call
version_is 'of a library that was given its proof is not known' fourth '^[0-9.]+, proof unknown$'
cp "$(type -P sleep)" running && mv running fourth/kmip_call
fourth/kmip_call 60 &
started+=($!)
built_is 'build.sh: over a program that runs' 0 --library ready.a fourth --program second/kmip_call
kill -0 $! && cmp second/kmip_call fourth/kmip_call >"$said" 2>&1
verdict 'it runs on, and another is there'
kill $!
printf 'char kmip_not_proved[1];\n' >note.c && gcc -c note.c && ar rc noted.a library.o note.o
built_is 'a library that has the note of build.py --unproved' 0 --library noted.a fourth --program second/kmip_call
version_is 'is said to be not proved' fourth '^[0-9.]+, not proved$'
note_of() { make -s -C "$copy/clients/c" note BUILT="$work/$1" >"$said" 2>&1; }
note_of fourth
says 'make install says so' 'compiled with no proof'
note_of second
says_not 'and nothing of another' 'proof'
cp ready.a second/libkmip_c.a
built_is 'the same into the folder that they are in' 0 --library second/libkmip_c.a --program second/kmip_call second
cmp ready.a second/libkmip_c.a >"$said" 2>&1
verdict 'the library that was given is as it was'
echo 'no library' >second/none.a
built_is 'a file that is no library' 1 --library second/none.a --program second/kmip_call second
[[ $(<second/none.a) == 'no library' ]]
verdict 'stays where it is'
mkdir without
for tool in bash dirname sed realpath mkdir mktemp cp mv rm cat tail ar ld as cc gcc make objcopy; do ln -s "$(type -P "$tool")" without; done
PATH=$work/without "$copy/clients/build.sh" --library ready.a --program second/kmip_call fourth >"$said" 2>&1
verdict 'where nothing is built there is no need of rt'
built_is 'a program that is not there' 1 --program none fifth
built_is 'a flag that is none' 2 --proved fifth
built_is 'no folder' 2
built_is 'two folders' 2 fifth sixth
built_is '--help' 0 --help
says 'it says what is made' 'FOLDER/lib[a-z]*\.so'
[[ ! -e fifth && ! -e sixth ]]
verdict 'nothing is made where nothing is built'
mkdir few
for tool in bash dirname awk sed realpath mkdir; do ln -s "$(type -P "$tool")" few; done
PATH=$work/few "$copy/clients/build.sh" seventh >"$said" 2>&1
(($? == 1))
verdict 'without its tools it ends'
says 'rt is said to be missing' 'missing: rt '
says 'and gcc, with its package' 'missing: gcc .*apt-get install gcc'
says 'and ar, with its package' 'missing: ar .*apt-get install binutils'
says 'and make' 'missing: make .*apt-get install make'
