#!/usr/bin/env bash
# Where the layer and the Rust differ (docs/DIFFERENCES.md): runs each tests/differences/NAME.script on both and compares what they
# print with NAME.layer and NAME.rust. `#! differs` stands before each event whose two lines have to differ, and at the end where
# the two states have to; all other lines have to be equal: tests/differences.py looks at that. A script that says `# edit: EDIT`
# is run on an oracle with EDIT.edit: the oracle's own code is changed, in a copy, and none of the kernel's.
# The layer's side needs the library and cargo (see ./tilgurap), the Rust's side REDOX_SRC, cargo and slab: in the gate, which has
# no originals, the layer runs and the Rust's lines are the stored ones. What is missing is said and its side skipped.
#
#     bash tests/differences.sh [--store] [NAME ...]
#
# --store writes what both sides print now instead of comparing with it.
set -euo pipefail
cd "$(dirname "$0")/.."
folder=tests/differences
store=
[ "${1:-}" != --store ] || { store=1; shift; }
named=("$@")
if [ $# -eq 0 ]; then
    for script in "$folder"/*.script; do
        set -- "$@" "$(basename "$script" .script)"
    done
fi
for name in "$@"; do
    [ -f "$folder/$name.script" ] || { echo "there is no $folder/$name.script" >&2; exit 2; }
done
work=$(mktemp -d)
trap 'rm -rf "$work"' EXIT
wrong=0

missing=()
missing_of() { # SIDE WHY
    echo "skipped: the $1's side, since $2"
    missing+=("$1")
}
library=${TILGURAP_LIB:-target/staticlib}/libtilgurap.a
slab=${CRATES_DIR:-/usr/share/cargo/registry}
if ! command -v cargo > /dev/null; then
    missing_of layer "there is no cargo"
elif [ ! -f "$library" ]; then
    missing_of layer "$library is not built"
fi
if ! command -v cargo > /dev/null; then
    missing_of Rust "there is no cargo"
elif [ -z "${REDOX_SRC:-}" ] || [ ! -d "$REDOX_SRC/src" ] || [ ! -d "$REDOX_SRC/syscall" ]; then
    missing_of Rust "REDOX_SRC does not name the folder of the kernel's sources"
elif [ -z "$(find "$slab" -maxdepth 1 -name 'slab-0.4.*' 2> /dev/null)" ]; then
    missing_of Rust "slab 0.4 is not in $slab"
fi
can() {
    [[ " ${missing[*]-} " != *" $1 "* ]]
}

# The edit that a script asks for, or none.
edit_of() {
    sed -n 's/^# edit: //p' "$folder/$1.script"
}

# Puts an edit into the copy of the oracle; each old text has to be there once.
apply() {
    python3 - "$work/rust/oracle" "$1" << 'END'
import pathlib
import sys

folder, edit = pathlib.Path(sys.argv[1]), pathlib.Path(sys.argv[2])
for line in edit.read_text(encoding="utf-8").splitlines():
    word, _, rest = line.partition(": ")
    if word == "file":
        file = folder / rest
    elif word == "old":
        old = rest
    elif word == "new":
        text = file.read_text(encoding="utf-8")
        if text.count(old) != 1:
            sys.exit(f"{edit}: `{old}` is {text.count(old)} times in {file.name}")
        file.write_text(text.replace(old, rest), encoding="utf-8")
END
}

# Makes the copy of the oracle the one with this edit.
edited=
make_oracle() {
    if [ ! -d "$work/rust" ]; then
        mkdir "$work/rust"
        tar -C rust --exclude=target -cf - oracle script | tar -C "$work/rust" -xf -
    elif [ -n "$edited" ]; then
        sed -n 's/^file: //p' "$folder/$edited.edit" | while read -r file; do
            cp "rust/oracle/$file" "$work/rust/oracle/$file"
        done
    fi
    edited=$1
    [ -z "$1" ] || apply "$folder/$1.edit"
    sh "$work/rust/oracle/build.sh" build --quiet --bin oracle 2> "$work/log" || {
        cat "$work/log" >&2
        echo "the oracle with the edit '$1' was not built" >&2
        exit 1
    }
}

run_rust() {
    local status=0
    "$work/rust/oracle/target/debug/oracle" "$folder/$1.script" > "$work/rust.out" 2> "$work/rust.err" || status=$?
    # what the oracle says when it ends by a panic, which a checked build may
    [ "$status" -eq 0 ] || sed -n '/panicked at/{n;s/^/panic: /;p}' "$work/rust.err" >> "$work/rust.out"
    [ -s "$work/rust.out" ] || cat "$work/rust.err" >&2
}

run_layer() {
    ./tilgurap replay "$folder/$1.script" > "$work/layer.out"
}

# What a side printed, beside what is stored.
compare() { # NAME SIDE
    if [ -n "$store" ]; then
        cp "$work/$2.out" "$folder/$1.$2"
    elif ! diff -u --label "$1.$2" --label "printed now" "$folder/$1.$2" "$work/$2.out"; then
        wrong=$((wrong + 1))
    fi
}

run=(0 0)
if can layer; then
    for name in "$@"; do
        run_layer "$name"
        compare "$name" layer
        run[0]=$((run[0] + 1))
    done
fi
if can Rust; then
    unset CARGO_TARGET_DIR
    for edit in $(for name in "$@"; do echo "edit:$(edit_of "$name")"; done | sort -u); do
        make_oracle "${edit#edit:}"
        for name in "$@"; do
            [ "$(edit_of "$name")" = "${edit#edit:}" ] || continue
            run_rust "$name"
            compare "$name" rust
            run[1]=$((run[1] + 1))
        done
    done
fi

# The stored lines differ where the script says so and nowhere else; without names, the document is held against them as well.
python3 tests/differences.py ${named[@]+"${named[@]}"} || wrong=$((wrong + 1))
echo "$# scripts: ${run[0]} run on the layer, ${run[1]} on the Rust, $wrong wrong"
[ "$wrong" -eq 0 ]
