# Where the built program is, and whether it was built for these sources. Scripts read it at the top of the repository.

readonly CRATE=$PWD/crates/ifdb
readonly PROGRAM=$CRATE/out/ifdb BUILT_FOR=$CRATE/out/built_for

# What the built program depends on: the kit, and what is proved and compiled of each crate.
sources_sum() {
  {
    rt version
    cat HANDLES crates.txt
    find crates -path '*/out' -prune -o -type f \( -name '*.rt' -o -name '*.antt' \) -print0 | LC_ALL=C sort -z | xargs -0 sha256sum
  } | sha256sum
}

is_built() { [ -x "$PROGRAM" ] && [ "$(cat "$BUILT_FOR" 2>/dev/null)" = "$(sources_sum)" ]; }
