#!/usr/bin/env bash
# Makes an authority in a folder, and certificates by it, for a day or for so many days.
#
#   examples/tls/certificates.sh FOLDER [DAYS]
#
# FOLDER then holds authority.pem, by which both sides know one another, with its key in authority.key; and server.pem for what
# stands in front of the server, as 127.0.0.1 and localhost, client.pem for an application, and stranger.pem by another authority,
# each with its key. Nobody else can read them. Wants openssl.
set -euo pipefail
folder=$1 days=${2:-1}
umask 077
mkdir -p "$folder"
cd "$folder"

key() { openssl genpkey -algorithm EC -pkeyopt ec_paramgen_curve:P-256 2>/dev/null; }

authority() { # NAME
  key >"$1.key"
  openssl req -x509 -new -key "$1.key" -days "$days" -subj "/CN=ifdb $1" -addext keyUsage=critical,keyCertSign,cRLSign -out "$1.pem"
}

certificate() { # NAME AUTHORITY EXTENSION
  key >"$1.key"
  printf 'subjectKeyIdentifier=hash\nauthorityKeyIdentifier=keyid\n%s\n' "$3" >"$1.extensions"
  openssl req -new -key "$1.key" -subj "/CN=ifdb $1" |
    openssl x509 -req -CA "$2.pem" -CAkey "$2.key" -CAcreateserial -days "$days" -extfile "$1.extensions" 2>/dev/null |
    cat "$1.key" - >"$1.pem"
  rm "$1.key" "$1.extensions"
}

authority authority
authority elsewhere
certificate server authority 'subjectAltName=IP:127.0.0.1,DNS:localhost'
certificate client authority 'extendedKeyUsage=clientAuth'
certificate stranger elsewhere 'extendedKeyUsage=clientAuth'
rm -f elsewhere.* ./*.srl
