#!/usr/bin/env bash
# The header for hosts in C compiles by itself, as C99, C11 and C++17; examples/host.c, compiled without a warning and linked with
# the static library, tells the story in examples/host.expected. The same host fails where its driver answers every entry, and
# stops at once where the header's interface is not the library's. tests/c_calls.c calls every exported function and finds what
# the header says of it. Each compiler that is there is asked; what is skipped says so.
set -euo pipefail
cd "$(dirname "$0")/.."

warnings=(-Wall -Wextra -Wpedantic -Werror)
c_warnings=("${warnings[@]}" -Wconversion -Wshadow -Wstrict-prototypes -Wmissing-prototypes -Wcast-qual -Wundef)
library=${TILGURAP_LIB:-target/staticlib}/libtilgurap.a
made=$(mktemp -d)
trap 'rm -rf "$made"' EXIT

fail() {
    echo "c_host: $*" >&2
    exit 1
}

# Twice, and behind the one standard header whose macro an argument might be named like.
printf '#include "tilgurap.h"\n#include "tilgurap.h"\n' > "$made/alone.c"
printf '#include <errno.h>\n#include "tilgurap.h"\n' > "$made/behind.c"
header_compiles() { # LANGUAGE STANDARD COMPILER FLAG..
    for file in alone behind; do
        "$3" -x "$1" "-std=$2" "${@:4}" -I include -fsyntax-only "$made/$file.c" || fail "$3: the header is not $2"
    done
}

# Compiles a program against the header in a folder and runs it: its output and its status.
run_program() { # FILE COMPILER FOLDER FLAG..
    "$2" -std=c11 "${c_warnings[@]}" -I "$3" "${@:4}" -c "$1" -o "$made/program.o" || fail "$2: $1 does not compile"
    "$2" "$made/program.o" "$library" -o "$made/program" || fail "$2: $1 is not linked"
    status=0
    "$made/program" > "$made/told" || status=$?
}

asked=0
for compiler in gcc clang; do
    if ! command -v "$compiler" > /dev/null; then
        echo "skipped: the header and the host in C by $compiler, which is not there"
        continue
    fi
    asked=$((asked + 1))
    header_compiles c c99 "$compiler" "${c_warnings[@]}"
    header_compiles c c11 "$compiler" "${c_warnings[@]}"

    if [ ! -f "$library" ]; then
        echo "skipped: the host in C by $compiler, since $library is not built"
        continue
    fi
    run_program examples/host.c "$compiler" include
    [ "$status" = 0 ] || fail "$compiler: the host ends with $status"
    diff examples/host.expected "$made/told" || fail "$compiler: the host tells another story"

    run_program examples/host.c "$compiler" include -DANSWER_EVERYTHING
    [ "$status" = 1 ] || fail "$compiler: a driver that answers every entry ends with $status"
    [ "$(grep -c 'DID NOT GET ITS OWN REPLY' "$made/told")" = 2 ] || fail "$compiler: the accident is not told"

    mkdir -p "$made/other"
    sed 's/^#define TILGURAP_ABI .*/#define TILGURAP_ABI 1000/' include/tilgurap.h > "$made/other/tilgurap.h"
    run_program examples/host.c "$compiler" "$made/other"
    [ "$status" = 2 ] || fail "$compiler: a host for another interface ends with $status"
    [ "$(wc -l < "$made/told")" = 1 ] || fail "$compiler: a host for another interface goes on"

    run_program tests/c_calls.c "$compiler" include
    [ "$status" = 0 ] || fail "$compiler: the functions called from C: $(cat "$made/told")"
    called=$(nm "$made/program.o" | awk '$1 == "U" && $2 ~ /^tilgurap_/ { print $2 }' | sort)
    exported=$(nm "$library" 2> /dev/null | awk '$2 == "T" && $3 ~ /^tilgurap_/ { print $3 }' | sort)
    diff <(echo "$exported") <(echo "$called") || fail "$compiler: a function that is exported is not called from C"
    cat "$made/told"
done
for compiler in g++ clang++; do
    if ! command -v "$compiler" > /dev/null; then
        echo "skipped: the header as C++ by $compiler, which is not there"
        continue
    fi
    asked=$((asked + 1))
    header_compiles c++ c++17 "$compiler" "${warnings[@]}"
done
echo "the header and the host in C: asked $asked of 4 compilers"
