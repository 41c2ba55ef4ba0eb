#!/usr/bin/env bash
# Times the built program on large scripts, and prints how many steps of a kind it does in a second. Run it at the top of the repository.
set -euo pipefail
cd "$(dirname "${BASH_SOURCE[0]}")/.."
work=$(mktemp -d)
trap 'rm -rf "$work"' EXIT
./ifdb build >&2

# Runs the script on standard input, and gives its time in milliseconds. No reply of it may be a refusal.
ran() {
  cat >"$work/script"
  local begin end
  begin=$(date +%s%N)
  ./crates/ifdb/out/ifdb run <"$work/script" >"$work/replies"
  end=$(date +%s%N)
  if grep -m 1 ERR "$work/replies" >&2; then exit 1; fi
  echo $(((end - begin) / 1000000))
}

# Steps of a kind: their name, how many stand in the script, and the times of the script with them and without.
told() {
  local ms=$(($3 - $4))
  echo "$1: $2 in $ms ms, $(($2 * 1000 / (ms > 0 ? ms : 1))) a second"
}

admin() { echo OPEN; echo "1 HELLO admin KEY 'admin'"; }
tags() { seq -f '1 CREATE TAG t%.0f' 1 "$1"; }
principals() { seq -f "1 CREATE PRINCIPAL p%.0f KEY 'k'" 1 "$1"; }
hellos() { seq 1 "$1" | awk '{ print "OPEN"; print $1 + 1 " HELLO p" $1 " KEY '"'k'"'" }'; }
grants() { seq 1 "$1" | awk '{ print "1 GRANT t" $1 " TO p" $1 }'; }
labels() { seq -f '1 SET LABEL (t%.0f)' 1 "$1"; }

for n in 10000 20000; do
  base=$(admin | ran)
  of_tags=$({ admin; tags $n; } | ran)
  of_principals=$({ admin; principals $n; } | ran)
  of_both=$({ admin; tags $n; principals $n; } | ran)
  told "CREATE TAG" $n "$of_tags" "$base"
  told "CREATE PRINCIPAL" $n "$of_principals" "$base"
  told "HELLO of one of $n principals" $n "$({ admin; principals $n; hellos $n; } | ran)" "$of_principals"
  told "GRANT of one of $n tags" $n "$({ admin; tags $n; principals $n; grants $n; } | ran)" "$of_both"
  told "SET LABEL to one of $n tags" $n "$({ admin; tags $n; labels $n; } | ran)" "$of_tags"
done

# Each principal grants the tag on to the next one, and the last one gives it up.
chain() {
  admin
  echo '1 CREATE TAG t0'
  principals "$1"
  hellos "$1"
  echo '1 GRANT t0 TO p1'
  seq 2 "$1" | awk '{ print $1 " GRANT t0 TO p" $1 }'
  echo "$(($1 + 1)) SET LABEL (t0)"
  echo "$(($1 + 1)) SET LABEL ()"
}
told "a chain of grants, and its last principal gives the tag up" 1000 "$(chain 1000 | ran)" "$({ admin; principals 1000; hellos 1000; } | ran)"

table() { echo '1 CREATE TABLE note (id INT, PRIMARY KEY (id))'; }
inserts() { seq -f '1 INSERT INTO note VALUES (%.0f)' 1 "$1"; }
of_table=$({ admin; table; } | ran)
for n in 10000 20000; do
  told "INSERT of rising keys" $n "$({ admin; table; inserts $n; } | ran)" "$of_table"
  told "INSERT of keys in no order" $n "$({ admin; table; inserts $n | sort -R --random-source=<(yes); } | ran)" "$of_table"
done
hidden() { admin; table; echo '1 CREATE TAG a'; echo '1 SET LABEL (a)'; inserts 10000; echo '1 SET LABEL ()'; }
told "SELECT over 10,000 hidden rows" 1000 "$({ hidden; yes '1 SELECT id FROM note' | head -n 1000; } | ran)" "$(hidden | ran)"

# Lines of all kinds; each key is inserted once, and the table that is read is empty.
mixed() {
  seq 1 "$(($1 / 6))" | awk '{
    print "1 SET LABEL (a)"; print "1 INSERT INTO note VALUES (" $1 ")"; print "1 SHOW LABEL"
    print "1 SET LABEL ()"; print "1 SELECT id FROM empty"; print "1 show  label;" }'
}
prepared() { admin; table; echo '1 CREATE TABLE empty (id INT, PRIMARY KEY (id))'; echo '1 CREATE TAG a'; }
told "lines of all kinds" 300000 "$({ prepared; mixed 300000; } | ran)" "$(prepared | ran)"
