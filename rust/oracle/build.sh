#!/bin/sh
# Runs cargo on this package without a network: build.sh [COMMAND ...], `build --release` alone; with --manifest-path, on one
# that stands on it.
# REDOX_SRC names the folder of the kernel's sources, CRATES_DIR the one that holds slab.
set -eu
dir=${CRATES_DIR:-/usr/share/cargo/registry}
if [ -z "$(find "$dir" -maxdepth 1 -name 'slab-0.4.*' 2>/dev/null)" ]; then
    echo "slab 0.4 is not in $dir: install librust-slab-dev, or set CRATES_DIR to a folder that holds it" >&2
    exit 1
fi
dir=$(cd "$dir" && pwd)
if [ -d "${REDOX_SRC:-}" ]; then
    REDOX_SRC=$(cd "$REDOX_SRC" && pwd)
    export REDOX_SRC
fi
[ $# -gt 0 ] || set -- build --release
command=$1
shift
cd "$(dirname "$0")"
exec cargo "$command" --offline \
    --config 'source.crates-io.replace-with="local"' \
    --config "source.local.directory=\"$dir\"" \
    "$@"
