#!/usr/bin/env bash
# Fails where a crate but ids makes a slot number, a description or a handle from a number: by its constructor, under another
# name, by its field or by a store to its field. Run it in the repository's top folder.
set -euo pipefail
kind='(SlotNo|Description|Handle)'
made="\\b$kind *\\(|\\b$kind +as\\b|\\btype .*\\b$kind\\b|[{,] *0 *:|^ *0 *:|\\.0 *([-+*/%&|^]|<<|>>)?=([^=]|\$)|&mut [a-z_.]*\\.0\\b"
found=$(git ls-files 'crates/*.rt' | while read -r file; do
    crate=${file#crates/}
    [ "${crate%%/*}" = ids ] && continue
    sed -E 's://.*$::; /^ *(ghost|requires|ensures)/s/.*//' "$file" | grep -nE "$made" | sed "s|^|$file:|" || true
done)
if [ -n "$found" ]; then
    printf 'only crate ids makes a slot number, a description or a handle from a number:\n%s\n' "$found" >&2
    exit 1
fi
