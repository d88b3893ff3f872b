#!/usr/bin/env bash
# Fails where a public function of a crate has a `requires`. Run it in the repository's top folder.
set -euo pipefail
found=$(git ls-files 'crates/*.rt' | while read -r file; do
    awk -v file="$file" '
        /^[[:space:]]*pub (extern "C" )?fn / { at = NR; name = $0; open = 1 }
        open && /^[[:space:]]*requires/ { print file ":" at ": " name; open = 0 }
        open && /^[[:space:]]*\{/ { open = 0 }
    ' "$file"
done)
if [ -n "$found" ]; then
    printf 'a public function has a requires:\n%s\n' "$found" >&2
    exit 1
fi
