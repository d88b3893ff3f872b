#!/usr/bin/env bash
# A slot number, a description, a handle, a tag and a bare number cannot stand for one another where they reach the words: each
# such call is refused by its type, before any proof, and the right call is not. Run it in the repository's top folder, best once
# `./tilgurap build` has proved the crates: what is not proved yet is proved first.
set -euo pipefail
top=$(mktemp -d)
trap 'rm -rf "$top"' EXIT

# a repository of its own: these crates, those below them and a crate of wrong calls
named="slot_load slot_store hold_words handle_words ids slot"
below=" $named "
while true; do
    more=$(awk -v below="$below" -F '[: ]+' 'index(below, " " $1 " ") && !/^#/ {
        for (k = 2; k <= NF; k++) if ($k != "" && !index(below, " " $k " ") && !($k in seen)) { seen[$k] = 1; printf "%s ", $k }
    }' crates.txt)
    [ -n "$more" ] || break
    below+=$more
done
for crate in $below; do
    mkdir -p "$top/crates/$crate/out"
    for part in src specs proofs out/rlib; do
        [ ! -d "crates/$crate/$part" ] || cp -R "crates/$crate/$part" "$top/crates/$crate/$part"
    done
    grep "^$crate:" crates.txt
done > "$top/crates.txt"
echo "wrong: $named" >> "$top/crates.txt"

file=$top/crates/wrong/src/lib.rt
mkdir -p "$top/crates/wrong/src"
calls=0
begin() {
    printf 'use %s;\n' ids::SlotNo ids::Description ids::Handle ids::Tag slot::Slot > "$file"
    : > "$top/expected"
    line=5
}
# Are the types that the crate's calls refuse those expected, and no others?
are_refused() {
    (cd "$top/crates/wrong" && rt check --jobs 1) > "$top/log" 2>&1 || true
    # what rt itself says is of the crates below
    grep -v '^rt: ' "$top/log" | sed 's|^.*\(lib\.rt:[0-9]*\):[0-9]*:|\1:|' > "$top/refused" || true
    if ! diff "$top/expected" "$top/refused"; then
        cat "$file" >&2
        grep '^rt: ' "$top/log" | tail -n 5 >&2
        echo "the types that these calls refuse are not those expected" >&2
        exit 1
    fi
}
begin
while read -r wanted call; do
    for kind in SlotNo Description Handle Tag u64; do
        line=$((line + 1))
        printf 'pub fn f%d(s: &mut [u64; 2060], x: %s, v: Slot, k: Handle, d: Description) { %s; }\n' "$line" "$kind" "$call" >> "$file"
        [ "$kind" = "$wanted" ] || printf 'lib.rt:%d: error[mismatched-types]: expected `%s`, found `%s`\n' "$line" "$wanted" "$kind" >> "$top/expected"
    done
    # a check shows 20 errors at most
    calls=$((calls + 1))
    if [ $((calls % 4)) = 0 ]; then
        are_refused
        begin
    fi
done << 'CALLS'
SlotNo slot_load::load(s, x)
SlotNo slot_store::put(s, x, v)
SlotNo slot_store::vacate(s, x)
Handle handle_words::held_at(s, x)
Handle handle_words::set_handle(s, x, 1)
Handle handle_words::put_into(s, x, d)
Description handle_words::put_into(s, k, x)
Description hold_words::holds_of(s, x)
Description hold_words::raise(s, x)
Description hold_words::lower(s, x)
Description hold_words::raise_outside(s, x)
Description hold_words::lower_outside(s, x)
CALLS
[ "$line" = 5 ] || are_refused
