# shellcheck shell=bash
# What a server's certificate has to name, an authority that is no root, and files that are encrypted
# where no passphrase is for.
look_for_sanitizers
test_build names "${sanitized[@]}"
for name in good cn_only wildcard; do
    fake "$name"
    test_run names "$name"
done
fake of_between
authority=$certs/between.pem test_run names of_between
call_is 'a server whose authority is not told' 3 query

# A certificate that is encrypted is none that anybody is asked for.
{
    echo '-----BEGIN CERTIFICATE-----'
    printf 'Proc-Type: 4,ENCRYPTED\nDEK-Info: AES-256-CBC,000102030405060708090A0B0C0D0E0F\n\n'
    tail -n +2 "$certs/client.pem"
} >encrypted.pem
at_a_terminal() { # WHAT REGEX: a query, with a terminal that could be asked
    timeout $((20 * slack)) "$python" -c 'import pty, sys; pty.spawn(sys.argv[1:])' "$run/c/call" \
        "$host" "$port" "$certificate" "$key" "$authority" query >"$said" 2>&1 </dev/null
    says "$1: it fails" "ConnectError.*$2"
    says_not "$1: no question" 'Enter'
}
fake good
certificate=$work/encrypted.pem at_a_terminal 'an encrypted certificate' 'certificate .*encrypted\.pem'
authority=$work/encrypted.pem at_a_terminal 'an encrypted authority' 'authority .*encrypted\.pem'
