#!/bin/sh
# `tb` and `send` against a real nginx with TLS: a certificate that is trusted, and those that aren't; that no key is seen among the
# processes, and that no other user listens where the program dials (docs/TESTING.md). It needs python3, nginx and openssl, and takes some
# seconds once the program is there.
set -eu

. "$(dirname "$0")/../lib/prepare.sh"

needs "tb over TLS" nginx openssl

# An authority, and certificates by it or by another, for a name and so many days.
authority() {
    openssl req -x509 -newkey ec -pkeyopt ec_paramgen_curve:P-256 -nodes -days 2 -subj "/CN=$1" -keyout "$1.key" -out "$1.pem" 2>/dev/null
}

certificate() {
    openssl req -newkey ec -pkeyopt ec_paramgen_curve:P-256 -nodes -subj "/CN=$1" -keyout "$1.key" -out "$1.csr" 2>/dev/null
    echo "subjectAltName=DNS:$3" >"$1.ext"
    openssl x509 -req -in "$1.csr" -CA "$2.pem" -CAkey "$2.key" -CAcreateserial -days "$4" -extfile "$1.ext" -out "$1.pem" 2>/dev/null
}

authority trusted
authority another
certificate good trusted localhost 2
certificate expired trusted localhost -1
certificate foreign another localhost 2
certificate misnamed trusted boards.example.org 2
# `tb` as it is installed.
mkdir bin
ln -s "$program" bin/taskboard
sed "s|\$(dirname \"\$(readlink -f \"\$0\")\")|$top/contrib/bin|" "$top/contrib/bin/tb" >bin/tb
chmod 755 bin/tb
chmod 711 "$folder"
python3 "$top/tests/run/tls.py" "$folder/bin" "$port"
