# shellcheck shell=bash
# What the program `operations` of a client has got of PyKMIP, as openssl reads it: c/operations.sh and the like source it.
openssl pkey -inform DER -in ec.der -pubout -out ec.public >"$said" 2>&1 &&
    openssl pkey -in "$certs/objects/ec.pem" -pubout | cmp - ec.public >"$said" 2>&1
verdict 'openssl reads the key on a curve that was registered, and it is that key'
openssl x509 -in certificate.pem -outform DER -out certificate.der >"$said" 2>&1 &&
    cmp certificate.der "$certs/objects/Certificate.X509.der" >"$said" 2>&1
verdict 'openssl reads the certificate that was registered, and it is that certificate'
openssl verify -CAfile "$authority" certificate.pem >"$said" 2>&1
verdict 'and verifies it'
