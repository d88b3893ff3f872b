#!/usr/bin/env bash
# No proof rests on a flag's value: changes every flag bit in its constant and in its definition, all at once, in a copy of the
# repository, and proves every crate there as it stands. It takes as long as the gate's proofs and is no part of it; what a program
# prints is not looked at, since the values stand in it.
set -euo pipefail
cd "$(dirname "$0")/.."
copy=$(mktemp -d)
trap 'rm -rf "$copy"' EXIT
git ls-files -z | xargs -0 cp --parents -t "$copy"
git -C "$copy" init -q

# change FILE OLD NEW: one line, which has to stand there once
change() {
    if [ "$(grep -cxF -- "$2" "$copy/$1")" != 1 ]; then
        echo "$1: not there once: $2" >&2
        exit 1
    fi
    python3 - "$copy/$1" "$2" "$3" << 'END'
import sys
path, old, new = sys.argv[1:]
lines = open(path).read().split("\n")
open(path, "w").write("\n".join(new if line == old else line for line in lines))
END
}

src=crates/flag/src/lib.rt
specs=crates/flag/specs/Flags.antt
change $src "const EVENT_READ: u64 = 1;" "const EVENT_READ: u64 = 32;"
change $src "const EVENT_WRITE: u64 = 2;" "const EVENT_WRITE: u64 = 64;"
change $src "const EVENT_HUP: u64 = 4;" "const EVENT_HUP: u64 = 128;"
change $src "const EVENT_ERR: u64 = 8;" "const EVENT_ERR: u64 = 256;"
change $src "const EVENT_NVAL: u64 = 16;" "const EVENT_NVAL: u64 = 512;"
change $specs "event_read = 1" "event_read = 32"
change $specs "event_hup = 4" "event_hup = 128"
change $specs "event_flags = event_read + 2 + event_hup + 8 + 16" "event_flags = event_read + 64 + event_hup + 256 + 512"
change $src "const FOBTAIN_MANUAL_FD: u64 = 1;" "const FOBTAIN_MANUAL_FD: u64 = 16;"
change $src "const FOBTAIN_EXCLUSIVE: u64 = 2;" "const FOBTAIN_EXCLUSIVE: u64 = 32;"
change $src "const FOBTAIN_UPPER_TBL: u64 = 4;" "const FOBTAIN_UPPER_TBL: u64 = 64;"
change $src "const FOBTAIN_CLOEXEC: u64 = 8;" "const FOBTAIN_CLOEXEC: u64 = 128;"
change $specs "fobtain_fd_flags = 1 + 2 + 4 + 8" "fobtain_fd_flags = 16 + 32 + 64 + 128"
change $src "const NEW_FD_POSITIONED: u64 = 1;" "const NEW_FD_POSITIONED: u64 = 8;"
change $specs "new_fd_flags = 1" "new_fd_flags = 8"
change $src "const FD_EXCLUSIVE: u64 = 0x1000;" "const FD_EXCLUSIVE: u64 = 0x20;"
change $specs "fd_exclusive = 0x1000" "fd_exclusive = 0x20"
change $src "const FD_UPPER: u64 = 0x4000;" "const FD_UPPER: u64 = 0x80;"
change $specs "fd_upper = 0x4000" "fd_upper = 0x80"
change $src "const SEND_FD_EXCLUSIVE: u64 = 1;" "const SEND_FD_EXCLUSIVE: u64 = 64;"
change $specs "send_fd_exclusive = 1" "send_fd_exclusive = 64"
change $src "const RECV_FD_UPPER_TBL: u64 = 2;" "const RECV_FD_UPPER_TBL: u64 = 16;"
change $specs "recv_fd_upper_tbl = 2" "recv_fd_upper_tbl = 16"
change $src "const SQE_ONEWAY: u8 = 1;" "const SQE_ONEWAY: u8 = 4;"
change $specs "sqe_oneway = 1" "sqe_oneway = 4"
change $src "const SQE_MULTIPLE_IDS: u8 = 2;" "const SQE_MULTIPLE_IDS: u8 = 16;"
change $specs "sqe_multiple_ids = 2" "sqe_multiple_ids = 16"

if ! (cd "$copy" && rt all check) > "$copy/log" 2>&1; then
    grep -E "error|not proved|: failed" "$copy/log" | grep -v "library error" | tail -20
    echo "with every flag bit changed something is NOT proved" >&2
    exit 1
fi
tail -1 "$copy/log"
echo "with every flag bit changed every proof stands"
