#!/bin/sh
# Serves a file behind a real nginx by contrib/nginx/nginx.conf: what it adds to answers, that an identifier goes on once, that wrong keys lock their
# address out and nobody else. It needs python3, nginx with its Lua module, and openssl, and takes some seconds once the program is there.
set -eu

. "$(dirname "$0")/../lib/prepare.sh"

needs "the proxy" nginx openssl
openssl req -x509 -newkey rsa:2048 -nodes -days 2 -subj /CN=boards.example.org -addext subjectAltName=DNS:boards.example.org \
    -keyout key.pem -out certificate.pem 2>/dev/null
chmod 711 "$folder"
python3 "$top/tests/operate/proxy.py" "$program" "$port" "$top/contrib/nginx/nginx.conf" "$top/page"
