#!/usr/bin/env bash
# TLS in front of a server, tried: it serves a client with a certificate by our authority, and nobody else.
#
#   examples/tls/try.sh      the variable IFDB names another program than crates/ifdb/out/ifdb
#
# Makes certificates in a temporary folder, starts the server and stunnel at free ports of 127.0.0.1, and ends both. Exit statuses: 0 all
# was so, 1 something wasn't, 69 nothing was tried: stunnel, openssl or python3 isn't there, or the program isn't built.
set -euo pipefail

readonly NOT_HERE=69
passed=0 failed=0
here=$(realpath -- "$(dirname "${BASH_SOURCE[0]}")")
program=$(realpath -m -- "${IFDB:-$here/../../crates/ifdb/out/ifdb}")
export IFDB_KEY=admin PYTHONDONTWRITEBYTECODE=1

not_here() {
  echo "examples/tls: nothing was tried: $*" >&2
  exit $NOT_HERE
}

command -v stunnel >/dev/null || not_here "stunnel isn't on the path (Debian has it as stunnel4)"
command -v openssl >/dev/null || not_here "openssl isn't on the path"
command -v python3 >/dev/null || not_here "python3 isn't on the path"
[ -x "$program" ] || not_here "there is no program $program; ./ifdb build makes it"

work=$(mktemp -d)
server='' tunnel=''
trap 'kill $server $tunnel 2>/dev/null || true; wait; rm -rf "$work"' EXIT

free_port() { python3 -c 'import socket; link = socket.create_server(("127.0.0.1", 0)); print(link.getsockname()[1])'; }

# Waits until a command ends well.
await() { # COMMAND..
  for _ in {1..200}; do
    if "$@" 2>/dev/null; then return; fi
    sleep 0.05
  done
  echo "examples/tls: not within ten seconds: $*" >&2
  cat "$work/tunnelled" >&2
  exit 1
}

is_reached() { (: <"/dev/tcp/127.0.0.1/$1") }

check() { # WHAT GOT WANTED
  if [ "$2" = "$3" ]; then
    passed=$((passed + 1))
    echo "$1: ${2:-nothing}"
  else
    failed=$((failed + 1))
    echo "FAILED: $1: ${2:-nothing}, and not ${3:-nothing}"
  fi
}

# What a client with this certificate reads through the tunnel.
ask() { "$here/ask.py" "$front" "$work/authority.pem" "$1" admin 'SELECT body FROM note' 2>"$work/said" || true; } # CERTIFICATE or -

# What a client is told there that speaks no TLS.
ask_plainly() {
  exec {link}<>"/dev/tcp/127.0.0.1/$front"
  printf "HELLO admin KEY 'admin'\nSELECT body FROM note\n" >&$link
  cat <&$link 2>/dev/null || true
}

"$here/certificates.sh" "$work"
: >"$work/tunnelled"
back=$(free_port)
# The server ends after two connections: one that makes a table, and one through the tunnel. Its summary counts them.
"$program" serve --port "$back" --workers 1 --links 2 >"$work/served" &
server=$!
await grep -q LISTENING "$work/served"
"$here/../../clients/python/ifdb_shell.py" "$back" admin >"$work/set" <<'REQUESTS'
CREATE TABLE note (id INT, body TEXT, PRIMARY KEY (id))
INSERT INTO note VALUES (1, 'it is noted')
REQUESTS

front=$(free_port)
sed "s/7443/$front/; s/7070/$back/" "$here/stunnel.conf" >"$work/stunnel.conf"
(cd "$work" && exec stunnel stunnel.conf) 2>"$work/tunnelled" &
tunnel=$!
await is_reached "$front"

check "without a certificate" "$(ask -)" ""
check "with a certificate by another authority" "$(ask "$work/stranger.pem")" ""
check "without TLS" "$(ask_plainly)" ""
check "with a certificate" "$(ask "$work/client.pem")" "it is noted"
await grep -q '^sessions' "$work/served"
check "the server counts" "$(grep '^sessions' "$work/served")" "sessions 2"
echo "tls: $passed passed, $failed failed"
((failed == 0))
