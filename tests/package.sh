#!/usr/bin/env bash
# The packages of a program: what is unpacked from them runs where it is, and the same sources give the same packages.
#
#   tests/package.sh      the variable IFDB names another program than crates/ifdb/out/ifdb
#
# Exit statuses: 0 all was so, 1 something wasn't, 69 nothing was tried: dpkg-deb, git, python3 or the program isn't there, or this is no clone.
set -euo pipefail

readonly NOT_HERE=69
program=$(realpath -m -- "${IFDB:-$(dirname "${BASH_SOURCE[0]}")/../crates/ifdb/out/ifdb}")
cd "$(dirname "${BASH_SOURCE[0]}")/.."
work=$(mktemp -d)
trap 'rm -rf "$work"' EXIT
export PYTHONDONTWRITEBYTECODE=1

failed() {
  echo "package: FAILED: $*"
  exit 1
}

status=0
tools/package "$work/once" "$program" >"$work/made" || status=$?
if ((status == NOT_HERE)); then
  echo "package: nothing was tried" >&2
  exit $NOT_HERE
fi
((status == 0)) || failed "no package was made"
tools/package "$work/twice" "$program" >/dev/null
diff -r "$work/once" "$work/twice" >/dev/null || failed "the same sources gave two packages"

mkdir "$work/deb" "$work/tar"
dpkg-deb -x "$work"/once/*.deb "$work/deb"
tar -xzf "$work"/once/*.tar.gz -C "$work/tar" --strip-components=1
diff -r "$work/deb" "$work/tar" >/dev/null || failed "the two packages differ"
dpkg-deb --info "$work"/once/*.deb conffiles | grep -qx /etc/ifdb/host.conf || failed "settings would be lost at an update"
for there in "$work/deb/usr" "$work/tar/usr"; do
  cmp -s "$program" "$there/bin/ifdb" || failed "the program is another"
  doc=$there/share/doc/ifdb
  "$there/bin/ifdb" run <"$doc/examples/first.script" | cmp -s - examples/first.replies || failed "the program answers otherwise"
  (cd / && python3 "$there/bin/ifdb-shell" --help) | grep -q '^usage: ifdb-shell' || failed "the shell doesn't run"
  grep -q "^program  $(sha256sum <"$program" | cut -d' ' -f1)$" "$doc/PROVED" || failed "PROVED has another sum"
  grep -q "^commit   $(git rev-parse HEAD)" "$doc/PROVED" || failed "PROVED has another commit"
  [ -x "$there/lib/ifdb/host" ] || failed "what the service runs isn't there"
  for section in 1 5; do gzip -t "$there/share/man/man$section/ifdb.$section.gz" || failed "the manual isn't there"; done
done
echo "package: all passed"
