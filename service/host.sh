#!/bin/bash
# Serves a database for the service ifdb.service, by the words that its environment has (/etc/ifdb/host.conf).
#
#   IFDB_FILE=F IFDB_ADMIN_KEY=A IFDB_PORT=P [IFDB_LOOPS=W] [IFDB_CONNECTIONS=N] [IFDB_LIMIT=B] [IFDB_HELLO=S] [IFDB_IDLE=S] [IFDB_STALL=S]
#       service/host.sh
#
# It runs `ifdb host` by these words (the variable IFDB names another program than /usr/bin/ifdb), writes what that writes, and tells systemd
# once it listens. The exit status is that of the server.
set -uo pipefail

options=(--file "${IFDB_FILE:?}" --admin-key "${IFDB_ADMIN_KEY:?}" --port "${IFDB_PORT:?}")
for word in loops connections limit hello idle stall; do
  variable=IFDB_${word^^}
  if [ -n "${!variable:-}" ]; then options+=("--$word" "${!variable}"); fi
done

server=''
trap 'kill $server 2>/dev/null' EXIT
trap 'exit 143' INT TERM
exec {told}< <(exec "${IFDB:-/usr/bin/ifdb}" host "${options[@]}")
server=$!
while IFS= read -r line <&"$told"; do
  echo "$line"
  if [[ $line == LISTENING* && -n "${NOTIFY_SOCKET:-}" ]]; then systemd-notify --ready; fi
done
wait "$server"
