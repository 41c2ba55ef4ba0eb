#!/usr/bin/env bash
# Copies the file of a database, also while it is served, and looks whether the copy is a database.
#
#   examples/backup/backup.sh F FOLDER      the variable IFDB names another program than the ifdb on the path
#
# Makes FOLDER/ifdb-TIME, readable for its owner alone, and writes its name and how many rows it holds. All that was acknowledged before
# the copying began is in it, and of what was done meanwhile a front: each transaction whole or not at all. To look at it, the program
# reads it whole, which takes the memory of its rows. Exit statuses: 0 the copy is there, 1 it isn't.
set -euo pipefail

fail() {
  echo "backup: $*" >&2
  exit 1
}

(($# == 2)) || fail "usage: backup.sh F FOLDER"
program=${IFDB:-$(command -v ifdb)} || fail "there is no ifdb on the path"
file=$1 folder=$2
umask 077
mkdir -p -- "$folder"
copy=$folder/ifdb-$(date -u +%Y%m%dT%H%M%SZ) part=$(mktemp -- "$folder/part.XXXXXX")
trap 'rm -f -- "$part"' EXIT

# The file is read in one go from its begin to whatever is its end then, so a record that was seen to begin is read whole. What takes the
# file's length first and reads behind that, as tar and rsync do, may stop within a record.
cat -- "$file" >"$part" || fail "$file can't be copied"

# The program reads the copy whole, and counts.
status=0
told=$("$program" inspect --file "$part") || status=$?
((status == 0)) || fail "the copy of $file is no database: ifdb ended with status $status"
rows=$(sed -n 's/^rows //p' <<<"$told")
sync -- "$part"
mv -- "$part" "$copy"
sync -- "$folder"
echo "$copy: $rows rows"
