#!/usr/bin/env bash
# certificates.sh FOLDER MACHINE..: makes an authority of its own, a certificate for each machine by its name, and one
# for the front balancer. A machine is given its NAME.pem as machine.pem, and ca.crt; the front is given front.pem and
# ca.crt. Keep ca.key off all of them; a further call makes certificates of the same authority. They last ten years, or
# so many days as DAYS says.
set -euo pipefail
umask 077
folder=$1 days=${DAYS:-3650}
shift
mkdir -p "$folder"
cd "$folder"
key=(-newkey ec -pkeyopt ec_paramgen_curve:P-256 -nodes)

# made NAME USE [SAN]: the certificate of a key that is made for it, and both of them as one file.
made() {
    openssl req -new "${key[@]}" -keyout "$1.key" -subj "/CN=$1" -out "$1.csr" 2>/dev/null
    printf 'basicConstraints=critical,CA:FALSE\nkeyUsage=critical,digitalSignature\nextendedKeyUsage=%s\n%s\n' "$2" "${3:-}" >"$1.cnf"
    openssl x509 -req -in "$1.csr" -CA ca.crt -CAkey ca.key -CAcreateserial -days "$days" -sha256 -extfile "$1.cnf" -out "$1.crt" 2>/dev/null
    cat "$1.crt" "$1.key" >"$1.pem"
    rm "$1.csr" "$1.cnf" "$1.crt" "$1.key"
}

[ -e ca.key ] || openssl req -x509 "${key[@]}" -keyout ca.key -subj '/CN=shogi hosts' -days "$days" -sha256 \
    -addext 'keyUsage=critical,keyCertSign,cRLSign' -out ca.crt 2>/dev/null
made front clientAuth
for machine; do
    made "$machine" serverAuth "subjectAltName=DNS:$machine"
done
