#!/usr/bin/env bash
# Formatting, lints, documentation and tests of the Rust in rust/, where cargo is there, and of what is built in: C, a git dependency,
# the command, README. What calls the layer is linked with its static library (`./tilgurap build`, some minutes): where none is
# built, as in a clean checkout, it is skipped. The oracle is built from the kernel's sources, in the folder that REDOX_SRC names, and
# slab: without them it is skipped. What is skipped says so.
set -euo pipefail
cd "$(dirname "$0")/../rust"

if ! command -v cargo > /dev/null; then
    echo "skipped: rust/, since there is no cargo"
    exit 0
fi
for package in script generate reasons tilgurap driver oracle record compare; do
    (cd "$package" && cargo fmt --check)
done

lint() {
    (cd "$1" && cargo clippy --quiet --offline --all-targets "${@:2}" -- --deny warnings)
}
document() {
    (cd "$1" && RUSTDOCFLAGS='--deny warnings' cargo doc --quiet --offline --no-deps "${@:2}")
}
run_tests() {
    (cd "$1" && cargo test --quiet --offline "${@:2}")
}
everything() {
    lint "$@"
    document "$@"
    run_tests "$@"
}

# The host's crate, from Rust and from C.
host() {
    everything tilgurap --all-features
    lint tilgurap
    run_tests tilgurap
    # every step on a million arrays of words
    run_tests tilgurap --release --test any_words
    # as a git dependency, with the right library and with wrong ones
    bash ../tests/build_in.sh
    bash ../tests/c_host.sh
}

# The command as a new user meets it, what README shows of it, and every difference that docs/DIFFERENCES.md lists, on the Rust's
# side too where its sources are there.
command_line() {
    everything driver
    everything reasons
    python3 ../tests/first_contact.py
    bash ../tests/readme.sh
    bash ../tests/differences.sh
}

library=${TILGURAP_LIB:-../target/staticlib}/libtilgurap.a
if [ -f "$library" ]; then
    # at the same time, each in folders of its own; what the second says comes after the first
    said=$(mktemp)
    trap 'rm -f "$said"' EXIT
    (set -e; command_line) > "$said" 2>&1 &
    second=$!
    everything script
    everything generate
    host
    wait "$second" && passed=true || passed=false
    cat "$said"
    $passed
else
    everything script
    everything generate
    echo "skipped: rust/tilgurap, rust/driver, rust/reasons and rust/compare, and what is built in, since $library is not built"
    bash ../tests/differences.sh
fi

if [ -z "${REDOX_SRC:-}" ]; then
    echo "skipped: lints and tests of rust/oracle, rust/record and rust/compare, since REDOX_SRC is not set"
    exit 0
fi
for package in oracle record compare; do
    sh oracle/build.sh clippy --quiet --all-targets --manifest-path "../$package/Cargo.toml" -- --deny warnings
    RUSTDOCFLAGS='--deny warnings' sh oracle/build.sh doc --quiet --no-deps --manifest-path "../$package/Cargo.toml"
done
sh oracle/build.sh test --quiet --workspace
sh oracle/build.sh test --quiet --manifest-path ../record/Cargo.toml
if [ -f "$library" ]; then
    # a test looks for slips in many runs
    sh oracle/build.sh test --quiet --release --manifest-path ../compare/Cargo.toml
fi
