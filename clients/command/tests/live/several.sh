# shellcheck shell=bash disable=SC1091,SC2094,SC2154
# Several servers: each way of failing with two of them. A call is a process, and begins with the first.
. "$here/servers.sh"

makes() { # STATUS WORD..: a call of both servers, with its trace
    host=localhost port=$a,localhost:$b kmip_is "$what" "$@" --trace
}
at_server() { # PORT NAME
    says "$what: who answers" "^# localhost:$1: $2: status 0"
}

begin 'the first is dead'
up "$b" good
makes 0 activate id:4
at_server "$b" activate
says "$what: it is told" "^# localhost:$a: .*Connection refused.*: it is left out for [01]\.[0-9] s"
begin 'both are dead'
makes 3 activate id:4
says "$what: each is told" "ConnectError.*localhost:$a: [^;]*Connection refused[^;]*; localhost:$b: .*Connection refused"

begin 'one dies once it has read'
up "$a" dies && up "$b" good
makes 0 sign id:4 hex:00
at_server "$b" sign
reads "$a" "$sign" 1
reads "$b" "$sign" 1
begin 'one dies once it has read a change'
up "$a" dies && up "$b" good
makes 3 activate id:4
says "$what: it is lost" "localhost:$a: .*; it may have been done there, and was sent to no other server"
reads "$a" "$activate" 1
reads "$b" "$activate" 0

# (half of the deadline is to be enough for the second)
export KMIP_TIMEOUT=$slack
begin 'one hangs once it has read'
up "$a" hangs && up "$b" good
makes 0 sign id:4 hex:00
at_server "$b" sign
reads "$a" "$sign" 1
begin 'one hangs once it has read a change'
up "$a" hangs && up "$b" good
makes 3 activate id:4
says "$what: it is lost at the deadline" "no answer within $slack seconds; it may have been done there"
reads "$b" "$activate" 0
begin 'one says no word of TLS'
up "$a" hangs_tls && up "$b" good
makes 0 activate id:4
at_server "$b" activate
begin 'all hang'
up "$a" hangs && up "$b" hangs_tls
SECONDS=0
makes 3 sign id:4 hex:00
((SECONDS < 2 * slack))
verdict "$what: one deadline for all"
export KMIP_TIMEOUT=$((20 * slack))

for tls in 1.2 1.3; do
    begin "the certificate is refused, TLS $tls"
    up "$a" refuses "$tls" && up "$b" good
    makes 0 activate id:4
    at_server "$b" activate
    says "$what: by its name" "localhost:$a: the server refused the certificate: unknown CA"
    reads "$a" "$activate" 0
    down "$b"
    port=$a kmip_is "$what: no other is there" 3 activate id:4
    says "$what: an error of connecting" '"ConnectError".*the server refused the certificate: unknown CA'
done
begin 'one is of another authority'
up "$a" foreign && up "$b" good
makes 0 activate id:4
at_server "$b" activate
reads "$a" "$activate" 0

begin 'connections end while they are idle'
up "$a" once && up "$b" good
printf 'activate id:%s\n' 1 2 3 >calls
makes 0 run calls
says_not "$what: nothing is left out" 'left out'
reads "$a" "$activate" 3
begin 'one dies within a script'
up "$a" dies && up "$b" good
printf 'sign id:%s hex:00\n' 1 2 3 >calls
makes 0 run calls
reads "$a" "$sign" 1
reads "$b" "$sign" 3
printf '%s\n' 'activate id:1' 'activate id:2' >calls
up "$a" dies
: >"$read"
makes 3 run calls
says "$what: a change that is lost ends it" 'it may have been done there'
reads "$a" "$activate" 1
reads "$b" "$activate" 0
begin 'one dies within a batch'
up "$a" dies && up "$b" good
makes 3 run calls --batch 2
says "$what: it is lost as a whole" 'it may have been done there'
(($(wc -l <"$read") == 1))
verdict "$what: it went to one server"

begin 'by turns'
up "$a" good && up "$b" good
for ((at = 0; at < 40; at++)); do METSUWAN_ORDER=turns makes 0 sign id:4 hex:00; done | grep -v '^ok'
(($(grep -c "^$a " "$read") > 0 && $(grep -c "^$b " "$read") > 0 && $(wc -l <"$read") == 40))
verdict "$what: processes spread over both"
begin 'old connections'
up "$a" good && up "$b" good
# (a machine that is busy begins the script late: each call waits for the answer before, and then grows old)
: >"$said"
{
    SECONDS=0
    for ((at = 1; at < 5; at++)); do
        echo 'sign id:4 hex:00'
        until (($(wc -l <"$said") >= at || SECONDS > 20 * slack)); do sleep 0.05; done
        sleep 0.4
    done
} | METSUWAN_ORDER=turns METSUWAN_MAX_AGE=0.2 METSUWAN_CONF=/dev/null METSUWAN_SERVER=$both \
    METSUWAN_CERTIFICATE=$certificate METSUWAN_KEY=$key METSUWAN_AUTHORITY=$authority "$kmip" run - >"$said" 2>&1
verdict "$what: a script"
reads "$a" "$sign" 2
reads "$b" "$sign" 2
begin 'another name'
up "$a" good
METSUWAN_SERVER_NAME=localhost host=127.0.0.1 port=$a kmip_is "$what: that of the certificate" 0 sign id:4 hex:00
host=127.0.0.1 port=$a kmip_is "$what: without it" 3 sign id:4 hex:00
says "$what: it is said" 'IP address mismatch'
METSUWAN_SERVER_NAME=other.example port=$a kmip_is "$what: another one" 3 sign id:4 hex:00
says "$what: it is said" 'ostname mismatch'
kmip_is ping 0 ping --server "127.0.0.1:1,localhost:$a"
says 'the one that answers' "^server +localhost:$a\$"
for list in ',' 'a:1,,b' 'a:1,' 'a:0' 'a:1 ,b:2' '::1' '[::1' '[]:5' 'a:' 'a:1:2' 'a,A:5696' '.a:1' 'a:99999' ':5' \
    '1,2,3,4,5,6,7,8,9,10,11,12,13,14,15,16,17'; do
    kmip_is "a list that is none: $list" 2 query --server "$list"
    says 'it is said' 'ConfigurationError.*(server has|is no host)'
done
METSUWAN_ORDER=last kmip_is 'an order that is none' 2 query
says 'it is said' 'order is neither first nor turns: last'
METSUWAN_MAX_AGE=-1 kmip_is 'an age that is none' 2 query
says 'it is said' 'max_age is no number of 0 to 86400: -1'
down "$a" "$b"
