# shellcheck shell=bash disable=SC2154
# needs: server
# Servers of TLS whose key is on the server: s_server and nginx, with TLS 1.2 and 1.3, to s_client and Python. TLS 1.3 wants
# salts as long as the digest: a PyKMIP of its own makes such ones.
make_salts() { # DIR: PyKMIP with those salts
    mkdir -p "$1/python" && cp -r "$certs" "$1/certs" || return
    printf '%s\n' 'from cryptography.hazmat.primitives.asymmetric import padding' \
        'padding.PSS.MAX_LENGTH = padding.PSS.DIGEST_LENGTH' >"$1/python/sitecustomize.py"
    port=$(free_port)
    PYTHONPATH=$1/python "$here/start_server.sh" "$1" "$port" || return
    groups+=("$(<"$1/server.pid")")
}
make_salts "$work/salts" || give_up 'no PyKMIP with other salts'
make_key tls || give_up 'no key'
uri="kmip:id=$private;public-id=$public"
configure 'pss_salt = digest'
write_uri "$uri" uri.key
openssl req -new -x509 -key "$uri" -days 30 -subj /CN=localhost -addext 'subjectAltName=DNS:localhost,IP:127.0.0.1' \
    -out tls.pem >"$said" 2>&1
verdict 'a certificate'

serve 's_server with a URI' -key "$uri"

serve_nginx() {
    local own folder=$work/nginx
    own=$(free_port)
    mkdir -p "$folder"
    cat >"$folder/conf" <<CONF
worker_processes 3;
daemon off;
$( ((EUID)) || echo 'user root;')
pid $folder/pid;
error_log $folder/error info;
events { worker_connections 64; }
http {
  access_log off;
  client_body_temp_path $folder/b; proxy_temp_path $folder/p; fastcgi_temp_path $folder/f;
  uwsgi_temp_path $folder/u; scgi_temp_path $folder/s;
  server {
    listen 127.0.0.1:$own ssl;
    ssl_certificate $work/tls.pem; ssl_certificate_key $work/uri.key;
    ssl_protocols TLSv1.2 TLSv1.3; ssl_session_cache off; ssl_session_tickets off;
    location / { return 200 "from nginx"; }
  }
}
CONF
    nginx -p "$folder" -e "$folder/error" -c "$folder/conf" >"$folder/out" 2>&1 &
    started+=($!)
    listens "$own" $! || cat "$folder/out" "$folder/error"
    for _ in 1 2 3; do
        client_reads 'nginx' "$own" tls1_2
        client_reads 'nginx' "$own" tls1_3
    done
    python_reads 'nginx' "$own" TLSv1_2
    python_reads 'nginx' "$own" TLSv1_3
    kill "${started[-1]}"
}
if command -v nginx >/dev/null; then
    serve_nginx
else
    printf 'skipped %s: there is no nginx (Debian: apt-get install nginx-light)\n' "$client"
fi

OPENSSL_CONF=$OPENSSL_CONF timeout $((60 * slack)) "$python" - >"$said" 2>&1 <<'PY'
import ssl
ssl.create_default_context(ssl.Purpose.CLIENT_AUTH).load_cert_chain('tls.pem', 'uri.key')
PY
verdict "Python's load_cert_chain takes the file"
