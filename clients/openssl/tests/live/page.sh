# shellcheck shell=bash disable=SC2154
# needs: server
# The lines of docs/OPENSSL.md, as they stand there, in a copy of the repository, but for clients/build.sh: $built is what it
# makes; and for the port of nginx, which is a free one. Where there is no nginx or no curl, theirs are left out.
folder=$work/copy
mkdir "$folder"
(cd "$top" && git ls-files -z | xargs -0 cp --parents -t "$folder") >"$said" 2>&1
verdict 'the repository is copied'
mkdir "$folder/built" && cp "$built/kmip_call" "$run/openssl/metsuwan.so" "$folder/built"
lines() { # HEADING: the lines of code below it
    awk -v heading="$1" '/^## / { here = $0 == "## " heading } /^```/ { code = $0 == "```sh"; next } here && code' \
        "$folder/docs/OPENSSL.md" | sed "/^clients\/build/d; s/8443/$own_port/g"
}
own_port=$(free_port)
{
    echo "cd '$folder' && set -e"
    echo "trap '[[ ! -e nginx.pid ]] || kill \"\$(cat nginx.pid)\"; tools/test_server.sh stop' EXIT"
    lines 'From nothing to a certificate'
    echo 'openssl verify -CAfile authority.pem leaf.pem && openssl req -in authority.csr -verify -noout'
    echo 'openssl x509 -in leaf.pem -noout -ext subjectAltName'
    echo 'with openssl list -providers -provider legacy'
    if [[ -n $(type -P nginx) && -n $(type -P curl) ]]; then
        lines nginx | sed "s/return 200/& \"by nginx\\\\\\\\n\"/"
    else
        echo "skipped $client: there is no nginx or no curl (Debian: apt-get install nginx-light curl)" >&2
        echo 'echo by nginx'
    fi
} >lines.sh
timeout $((60 * slack)) env -u OPENSSL_CONF bash lines.sh >"$said" 2>&1 </dev/null
verdict 'the lines of the page'
says 'the authority verifies' '^authority.pem: OK'
says 'so does what it issued' '^leaf.pem: OK'
says 'which has the name of the request' 'DNS:leaf.example'
says 'legacy is there beside it' '^  legacy$'
says 'curl reads what nginx serves' '^by nginx'
