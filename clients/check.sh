#!/usr/bin/env bash
# Tests what runs outside the kit, over the built program: the client, the shell, each stored dialogue, the clinic, TLS in front of a
# server, recorded runs of the example scripts, journals and databases in files, many connections, the service, ranges of keys beside passes,
# transactions of many writes, backups, and packages.
#
#   clients/check.sh      the variable IFDB names another program than crates/ifdb/out/ifdb
#
# Names what failed, and says at the end how many passed. Exit statuses: 0 all passed, 1 something didn't, 69 nothing was tried: python3
# is missing or older than 3.9, or the program isn't built. What wants stunnel, openssl, pip,
# git, dpkg-deb or systemd's tools is left out where that is missing.
set -euo pipefail

readonly NOT_HERE=69
passed=0 failed=0

not_here() {
  echo "clients/check.sh: nothing was tried: $*" >&2
  exit $NOT_HERE
}

try() {
  local status=0
  "$@" || status=$?
  case $status in
    0) passed=$((passed + 1)) ;;
    "$NOT_HERE") ;; # (it has said what is missing)
    *)
      failed=$((failed + 1))
      echo "clients/check.sh: failed: $*" >&2
      ;;
  esac
}

program=$(realpath -m -- "${IFDB:-$(dirname "${BASH_SOURCE[0]}")/../crates/ifdb/out/ifdb}")
cd "$(dirname "${BASH_SOURCE[0]}")/.."
export IFDB=$program PYTHONDONTWRITEBYTECODE=1

command -v python3 >/dev/null || not_here "python3 isn't on the path"
python3 -c 'import sys; sys.exit(sys.version_info < (3, 9))' || not_here "python3 is older than 3.9"
[ -x "$IFDB" ] || not_here "there is no program $IFDB; ./ifdb build makes it"

try python3 -m unittest discover -s clients/python
# The dialogue of browsers is played by the clinic's test.
mapfile -t dialogues < <(find examples -name '*.dialogue' ! -name web.dialogue | LC_ALL=C sort)
try python3 clients/python/dialogue.py "${dialogues[@]}"
try examples/tls/try.sh
for test in clinic traces kept hosted crowd service ranges many; do try python3 "tests/$test.py"; done
try python3 tests/host_kills.py --kills 3 --clients 4 --life 0.3 --every 25
try python3 tests/compact_kills.py --kills 20 --starts 0
try python3 examples/backup/try.py
try tests/package.sh
echo "clients: $passed passed, $failed failed"
((failed == 0))
