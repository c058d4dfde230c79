# shellcheck shell=bash disable=SC2154
# Words of kmip itself, against the fakes.
fake good
kmip_is 'data without a mark' 2 sign k 68656C6C6F
says 'the marks are shown' 'DATA has to be @FILE, - \(standard input\), hex:68656C6C6F, base64:aGVsbG8= or text:hello'
kmip_is 'data in hex' 0 sign id:k hex:68656C6C6F --json
kmip_is 'data in base64' 0 sign id:k base64:aGVsbG8=
printf hello >data
kmip_is 'data of a file' 0 sign id:k @data
kmip_here sign id:k - <data >"$said" 2>&1
verdict 'data of standard input'
kmip_is 'a file that is not there' 2 sign id:k @none
says 'it is said' 'none: No such file'
kmip_is 'standard input twice' 2 verify id:k - -
says 'it is said' 'read once'
kmip_is 'a call that is none' 2 sing
says 'the nearest is told' "'sign'"
kmip_is 'an option that is none' 2 sign id:k text:a --hahs SHA384
says 'the nearest is told' '[-]-hash'
kmip_is 'a value that is none' 2 sign id:k text:a --hash SHA385
says 'the nearest is told' SHA384
kmip_is 'two forms' 2 sign id:k text:a --raw --hex
kmip_is 'two forms, one of them before the call' 2 --hex sign id:k text:a --raw
says 'they exclude each other' 'exclude each other'
kmip_is 'a form that the call has not' 2 query --raw
says 'it is said' 'has no one value'
kmip_is 'PEM of a signature' 2 sign id:k text:a --pem
kmip_is 'bytes in hex' 0 rng 5 --hex
says 'as they are' '^0001020304$'
kmip_is 'bytes in base64' 0 rng 5 --base64
says 'as openssl has them' "^$(printf '\0\1\2\3\4' | openssl base64)\$"
kmip_here rng 5 --raw 2>"$said" | cmp - <(printf '\0\1\2\3\4') >>"$said" 2>&1
verdict 'bytes as they are'
kmip_is 'help' 0 --help
says 'with the statuses' 'whether it was done is not known'
kmip_is 'help of a call' 0 help sign
says 'with an example' '^Example: kmip sign issuing @tbs.der --hash SHA384 -o tbs.sig'
kmip_is 'the version' 0 --version
says "that of the repository" "^kmip $(sed -n 's/^## \([0-9.]*\).*/\1/p' "$top/CHANGELOG.md" | grep -m1 .)"
kmip_is 'no word' 2
# Names of any letters, in any locale.
renamed() { # WHAT REGEX WORD..: the name of the answer
    kmip_is "$1" 0 rename id:k "${@:3}"
    says 'is the name' "\"name_value\":\"$2\""
}
renamed 'NUL in a name' 'a\\u0000b' hex:610062
renamed 'a line feed in a name' 'a b\\u000Ac' $'a b\nc'
renamed 'a name that begins with a hyphen' '-x' -- -x
mapfile -t locales < <(locale -a | head -4)
for locale in "${locales[@]}"; do
    LC_ALL=$locale renamed "letters past ASCII, in the locale $locale" 'schlüssel' schlüssel
done
kmip_is 'a name that is not UTF-8' 2 rename id:k $'\xff'
says 'is said to be none' 'NAME is not UTF-8'
