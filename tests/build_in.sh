#!/usr/bin/env bash
# A program that uses rust/tilgurap as a git dependency is built and run against the static library; a library that is missing,
# none, old, of another interface or for another machine stops its build and says what to do. Needs cargo, git, cc and ar, and the
# library (target/staticlib, or the folder that TILGURAP_LIB names).
set -euo pipefail
cd "$(dirname "$0")/.."
library=$(cd "${TILGURAP_LIB:-target/staticlib}" && pwd)
for tool in cargo git cc ar; do
    command -v "$tool" > /dev/null || { echo "skipped: tests/build_in.sh, since there is no $tool"; exit 0; }
done
work=$(mktemp -d)
trap 'rm -rf "$work"' EXIT

# the crates as a repository of their own, and a program that depends on it
mkdir -p "$work/repository/rust" "$work/user/src"
tar -C rust --exclude=target --exclude=Cargo.lock -cf - tilgurap script generate | tar -C "$work/repository/rust" -xf -
git -C "$work/repository" init -q
git -C "$work/repository" add -A
git -C "$work/repository" -c user.name=test -c user.email=test -c commit.gpgsign=false commit -qm "for a test"
cat > "$work/user/Cargo.toml" << END
[package]
name = "user"
version = "0.1.0"
edition = "2024"
[dependencies]
tilgurap = { git = "file://$work/repository" }
[workspace]
END
cat > "$work/user/src/main.rs" << 'END'
use tilgurap::{Caller, Layer, SchemeNumber};

fn main() {
    let mut layer = Layer::new(SchemeNumber(7));
    println!("{:?}", layer.reserve(Caller(1)));
}
END

failed=0
run() { # FOLDER: what cargo and the program say
    # nothing of the caller's own cargo: another home, another target
    (cd "$work/user" && env ${1:+TILGURAP_LIB="$1"} CARGO_HOME="$work/home" CARGO_TARGET_DIR="$work/target" cargo run --quiet 2>&1) || true
}
says() { # NAME FOLDER WORDS...
    local said name=$1
    said=$(run "$2")
    shift 2
    for words in "$@"; do
        if ! grep -qF -- "$words" <<< "$said"; then
            echo "build_in: $name: not said: $words; but:"
            echo "$said"
            failed=1
        fi
    done
}
stub() { # FOLDER SOURCE [COMPILER...]: a static library of one C function
    mkdir -p "$work/$1"
    echo "$2" > "$work/$1/stub.c"
    "${@:3}" -c "$work/$1/stub.c" -o "$work/$1/stub.o" && ar rcs "$work/$1/libtilgurap.a" "$work/$1/stub.o"
}

unset TILGURAP_LIB
todo='run `./tilgurap build` at its top, and set TILGURAP_LIB to the absolute path'
says "no library" "" "the library is missing" "$todo"
mkdir "$work/empty" "$work/text"
says "an empty folder" "$work/empty" "$work/empty/libtilgurap.a" "TILGURAP_LIB names its folder" "the library is missing" "$todo"
echo text > "$work/text/libtilgurap.a"
says "a text" "$work/text" "this is no static library" "$todo"
stub old "int tilgurap_open(void) { return 0; }" cc
says "an old library" "$work/old" "the library is an old one" "$todo"
stub other "unsigned long long tilgurap_abi(void) { return 999; }" cc
says "another interface" "$work/other" "its interface is number 999" "$todo"
if command -v clang > /dev/null && stub foreign "unsigned long long tilgurap_abi(void) { return 1; }" clang --target=aarch64-linux-gnu 2> "$work/log"; then
    says "another machine" "$work/foreign" "the library is for another machine" "$todo"
else
    echo "skipped: a library for another machine, since no clang makes one"
fi
says "the library" "$library" "Ok(Tag(0))"
# and a library that is taken away later
says "taken away" "$work/empty" "the library is missing"
[ "$failed" -eq 0 ] && echo "build_in: a git dependency is built, and a library that is missing or not the right one stops it"
exit "$failed"
