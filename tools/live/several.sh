# shellcheck shell=bash disable=SC2154
# Several servers: each way of failing with two of them, and lists that are none. A case file says by what calls are made: the
# words `several` begin a program that takes SERVERS CERTIFICATE KEY AUTHORITY [NAME=VALUE].. and makes the calls of standard
# input, a line each, or `sleep SECONDS`. It writes `open SERVER`, or what there is no client for; for each call `NAME STATUS
# sent=0|1 at SERVER LINE`; and before that `  log TEXT` for what the log was told, but that a call has ended.
. "$here/servers.sh"

calls() { # SERVERS [SETTING]..: the calls that stand in standard input
    timeout $((60 * slack)) "${several[@]}" "$1" "$certificate" "$key" "$authority" "seconds=$((3 * slack))" "${@:2}" \
        >"$said" 2>&1
    verdict "$what"
}

begin 'the first is dead'
up "$b" good
calls "$both" <<<$'sign 4 00\nactivate 4'
says "$what: the next is taken" "^open localhost:$b"
says "$what: a call" "^sign 0 .* at localhost:$b"
says "$what: a change" "^activate 0 .* at localhost:$b"
says "$what: the log" "log .*localhost:$a: .*Connection refused.*: it is left out for [01]\.[0-9] s"
begin 'both are dead'
calls "$both" </dev/null
says "$what: each is told" "^open .*localhost:$a: [^;]*Connection refused[^;]*; localhost:$b: .*Connection refused"

begin 'one dies between calls'
up "$a" good && up "$b" good
{
    echo 'sign 4 00'
    until grep -q . "$read"; do sleep 0.1; done
    down "$a"
    printf '%s\n' 'activate 4' 'sign 4 00'
} | calls "$both"
says "$what: the first" "^sign 0 .* at localhost:$a"
says "$what: then the other" "^activate 0 .* at localhost:$b"
reads "$b" "$activate" 1
reads "$b" "$sign" 1

begin 'one dies once it has read'
up "$a" dies && up "$b" good
calls "$both" <<<$'sign 4 00'
says "$what: what changes nothing is made again" "^sign 0 .*at localhost:$b"
reads "$a" "$sign" 1
reads "$b" "$sign" 1
begin 'one dies once it has read a change'
up "$a" dies && up "$b" good
calls "$both" <<<$'activate 4\nactivate 5'
says "$what: it is lost" "^activate 3 sent=1 .*localhost:$a: .*; it may have been done there, and was sent to no other server"
says "$what: the next call goes on" "^activate 0 .* at localhost:$b"
reads "$a" "$activate" 1
reads "$b" "$activate" 1

# (half of the deadline is to be enough for the second)
hanging=seconds=$slack
begin 'one hangs once it has read'
up "$a" hangs && up "$b" good
calls "$both" "$hanging" <<<$'sign 4 00\nsign 4 00'
says "$what: the other answers" "^sign 0 .* at localhost:$b"
says "$what: the log" "log .*localhost:$a: .*no answer within [0-9.]+ seconds: the call is made again"
reads "$a" "$sign" 1
reads "$b" "$sign" 2
begin 'one hangs once it has read a change'
up "$a" hangs && up "$b" good
calls "$both" "$hanging" <<<$'activate 4\nactivate 5'
says "$what: it is lost at the deadline" "^activate 3 sent=1 .*no answer within $slack seconds; it may have been done"
says "$what: the next call goes on" "^activate 0 .* at localhost:$b"
reads "$b" "$activate" 1
begin 'one says no word of TLS'
up "$a" hangs_tls && up "$b" good
calls "$both" "$hanging" <<<'activate 4'
says "$what: the other is opened" "^open localhost:$b"
begin 'all hang'
up "$a" hangs && up "$b" hangs_tls
SECONDS=0
calls "$both" "$hanging" <<<'sign 4 00'
says "$what: one deadline" '^sign 3 '
((SECONDS < 2 * slack))
verdict "$what: it is one for all"

for tls in 1.2 1.3; do
    begin "the certificate is refused, TLS $tls"
    up "$a" refuses "$tls" && up "$b" good
    calls "$both" <<<$'activate 4\nsign 4 00'
    says "$what: by its name" "log .*localhost:$a: the server refused the certificate: unknown CA"
    says "$what: the other takes a change" "^activate 0 .* at localhost:$b"
    reads "$b" "$activate" 1
done
begin 'one server refuses the certificate'
up "$a" refuses
calls "localhost:$a" reconnect=true <<<$'activate 4\nsign 4 00'
says "$what: an error of connecting" '^activate 3 sent=0 .*ConnectError.*the server refused the certificate'
says "$what: it is not tried again at once" '^sign 3 .*left out for [01] s more: the server refused the certificate'

begin 'one comes back'
up "$b" good
{
    echo 'sign 4 00'
    until grep -q . "$read"; do sleep 0.1; done
    up "$a" good
    down "$b"
    printf '%s\n' 'sign 4 00' 'activate 4'
} | calls "$both"
says "$what: the log" "log .*localhost:$a: it answers again"
says "$what: a call" "^activate 0 .* at localhost:$a"

begin 'one is of another authority'
up "$a" foreign && up "$b" good
calls "$both" <<<'activate 4'
says "$what: the other is taken" "^open localhost:$b"
says "$what: why" "log .*localhost:$a: .*certificate verify failed"
reads "$a" "$activate" 0
begin 'connections end while they are idle'
up "$a" once && up "$b" good
calls "$both" <<<$'activate 4\nsleep 0.3\nactivate 4\nsleep 0.3\nsign 4 00'
says_not "$what: nothing is left out" 'left out'
reads "$a" "$activate" 2
reads "$a" "$sign" 1
begin 'connections are old'
up "$a" good && up "$b" good
calls "$both" max_age=0.2 order=turns <<<$'sign 4 00\nsleep 0.4\nsign 4 00\nsleep 0.4\nsign 4 00\nsleep 0.4\nsign 4 00'
says "$what: another is opened" 'log .*: the connection was old, and another one is opened'
reads "$a" "$sign" 2
reads "$b" "$sign" 2
begin 'a call is pending'
up "$a" pending && up "$b" good
calls "$both" <<<$'activate 4\npoll 0102\nsign 4 00'
reads "$a" "$poll" 1
reads "$b" "$poll" 0

begin 'another name'
up "$a" good
calls "127.0.0.1:$a" server_name=localhost <<<'sign 4 00'
says "$what: that of the certificate" '^sign 0'
calls "127.0.0.1:$a" </dev/null
says "$what: without it" 'IP address mismatch'
calls "localhost:$a" server_name=other.example </dev/null
says "$what: another one" 'ostname mismatch'
down "$a"
what='lists that are none'
for list in '' ',' 'a:1,,b' 'a:1,' 'a:0' 'a:1 ,b:2' '::1' '[::1' '[]:5' 'a:' 'a:1:2' 'a,A:5696' '.a:1' 'a:99999' ':5' \
    '1,2,3,4,5,6,7,8,9,10,11,12,13,14,15,16,17'; do
    calls "$list" </dev/null
    says "$what: $list" 'open (Config|Value)'
done
calls "[::1]:$a,localhost:$b" </dev/null
says 'an address in brackets' "\\[::1\\]:$a: "
calls "localhost:$a" order=last </dev/null
says 'an order that is none' 'order is '
down "$a" "$b"
