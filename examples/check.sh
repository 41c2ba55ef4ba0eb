#!/usr/bin/env bash
# Compares the replies to each example script with those that stand beside it.
#
#   examples/check.sh      by the built program; where that isn't of these sources, by a try of them, which takes minutes.
#                          The variable IFDB names another program
#
# Tells how those differ that do, and at the end how many don't. Proves nothing.
set -euo pipefail
program=${IFDB:+$(realpath -m -- "$IFDB")}
cd "$(dirname "${BASH_SOURCE[0]}")/.."
. tools/program.sh
work=$(mktemp -d)
trap 'rm -rf "$work"' EXIT
passed=0 failed=0

# Runs a script by a word of a program, and compares what it writes.
compare() { # PROGRAM WORD SCRIPT
  if "$1" "$2" <"$3" >"$work/replies" && diff "${3%.script}.replies" "$work/replies" >"$work/differs"; then
    passed=$((passed + 1))
  else
    failed=$((failed + 1))
    echo "$3, by $2:"
    head -20 "$work/differs"
  fi
}

# Tries the scripts of a folder by a word of the program, all in one try.
try_all() { # WORD SCRIPT..
  local word=$1 script name
  shift
  mkdir "$work/$word"
  for script; do
    name=$(basename "$script" .script)
    cp "$script" "$work/$word/$name"
    cp "${script%.script}.replies" "$work/$word/$name.stdout"
  done
  if (cd "$CRATE" && rt try --cases "$work/$word" -- "$word") 2>"$work/said"; then
    passed=$((passed + $#))
  else
    failed=$((failed + 1))
    cat "$work/said"
  fi
}

if [ -z "$program" ] && is_built; then program=$PROGRAM; fi
if [ -n "$program" ]; then
  for script in examples/*.script; do compare "$program" run "$script"; done
  for script in examples/closures/*.script; do compare "$program" closures "$script"; done
else
  echo "examples: the program isn't built for these sources, so they are tried"
  try_all run examples/*.script
  try_all closures examples/closures/*.script
fi
echo "examples: $passed passed, $failed failed"
((failed == 0))
