# shellcheck shell=bash
# needs: server
# The tasks of clients/c/README.md, as they stand there.
tasks_in_c >tasks.c
gcc -std=c11 -Wall -Wextra -Werror "${sanitized[@]}" -I"$top/clients/c" -o tasks tasks.c "$top"/clients/c/metsuwan_[!mv]*.c \
    "$built/libmetsuwan.a" -lssl -lcrypto -pthread >"$said" 2>&1
verdict 'the tasks are built'
cp "$authority" ca.pem
timeout $((200 * slack)) ./tasks "$host" "$port" "$certificate" "$key" "$authority" >"$said" 2>&1
verdict 'all tasks'
says 'to their end' '^the end$'
says 'the public key is PEM' '^-----BEGIN RSA PUBLIC KEY-----$'
says 'so is the certificate' '^-----BEGIN CERTIFICATE-----$'
