#!/usr/bin/env bash
# Copies what stands before the damaged byte of a journal, or of a database's file, as one: all of its records up to there.
#
#     examples/journal_front.sh FILE BYTE > COPY
#
# BYTE is the number that `ifdb keep` or `ifdb host` told on standard error. The closed gate behind the records ends the copy.
set -euo pipefail
[ $# -eq 2 ] || { sed -n '2,6s/^# \{0,1\}//p' "$0" >&2; exit 64; }
head -c "$2" -- "$1"
printf '\0'
