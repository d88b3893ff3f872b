#!/usr/bin/env python3
"""Wrong definitions of the layer against the claims themselves: each is an edit of crates/events/must-fail, or one below of a
lower crate, in definition and code alike, which that crate still proves. For each the claim that it breaks is proved FALSE of it,
by a run in which the two sides of the claim's equation differ. So no other proof could save it, which a refused must-fail edit
alone does not show.

    tests/wrong_layers.py [NAME..]

Takes some seconds for each; no part of the gate. Needs rt; the crates below `events` are proved first if they are not.
"""
import pathlib
import re
import shutil
import subprocess
import sys
import tempfile

TOP = pathlib.Path(__file__).resolve().parent.parent

CALL = "on (call 1 6 (args6 0 0 0 0 0 0) 0 0 1 [])"
# two calls; a write of two entries, to tag 1 and to tag 0: read 17 bytes apart, the second has kind 7
TWO = f"{CALL} ∷ {CALL} ∷ []"
ENTRIES = "on (write 108 ((0 ∷ 0 ∷ 0 ∷ 0 ∷ 1 ∷ replicate 11 0) ++ (0 ∷ 7 ∷ replicate 14 0)))"
# the second entry is of no kind
STOPPED = "on (write 108 ((0 ∷ 0 ∷ 0 ∷ 0 ∷ 1 ∷ replicate 11 0) ++ (6 ∷ replicate 15 0)))"


def REPLY(result):
    """A regular reply to tag 0 with these eight bytes for a result."""
    return f"on (write 54 (replicate 8 0 ++ ({result})))"


# name, claim, events before, the event (of Spelled: the line), its clause, what is taken of both sides, the wrong layer's, the claimed
WRONG = [
    ("idle_layer", "Exactly", "[]", "on (reserve 1)", "answer", "code", "5001", "0"),
    ("wake_answers_ok", "Exactly", f"{CALL} ∷ []", "on (wake 0 1 0 0 0)", "answer", "code", "0", "5001"),
    ("entries_17_apart", "Exactly", TWO, ENTRIES, "answer", "code", "16", "32"),
    ("first_entry_only", "Exactly", TWO, ENTRIES, "answer", "code", "16", "32"),
    ("ended_skips_map_requests", "Exactly", "on (fmap 1 5 1 0 0 0 1) ∷ host_ended 1 ∷ []", "on (supply 0 0 0 1)",
     "answer", "code", "0", "1003"),
    ("cancel_with_argument", "Demand3", f"{CALL} ∷ []", "on (wake 0 1 0 0 0)", "queue", "(λ (l : List ℕ). get_or l 72 0)", "1", "0"),
    ("every_event_205", "Exactly", "[]", "on (reserve 1)", "answer", "code", "1205", "0"),
    ("read_would_wait", "Exactly", f"{CALL} ∷ []", "on (read 64 0)", "answer", "code", "5000", "64"),
    ("no_wake_effect", "Exactly", f"{CALL} ∷ []", "on (write 54 (replicate 16 0))", "effects", "length", "0", "3"),
    ("submit_answers_0", "Exactly", "on (reserve 1) ∷ on (reserve 1) ∷ []", "on (submit 1 1 6 0 (args6 0 0 0 0 0 0) 1 [])",
     "answer", "code", "0", "1"),
    ("no_root_effect", "Exactly", "[]", CALL, "effects", "length", "0", "3"),
    ("second_cancel", "Demand3", f"{CALL} ∷ on (wake 0 1 0 0 0) ∷ []", "on (wake 0 1 0 0 0)", "queue", "length", "192", "128"),
    ("never_hands_over", "Demand3", f"{CALL} ∷ on (write 54 (replicate 16 0)) ∷ []", "on (wake 0 1 0 0 0)", "hand", "bit", "0", "1"),
    ("cancel_for_killed", "Demand3", f"{CALL} ∷ []", "on (wake 0 1 1 0 0)", "queue", "length", "128", "64"),
    ("eintr_reply_returns", "Exactly", f"{CALL} ∷ on (wake 0 1 0 0 0) ∷ {REPLY('131 ∷ 255 ∷ 255 ∷ 255 ∷ replicate 4 0')} ∷ []",
     "on (wake 0 1 0 0 0)", "answer", "code", "1201", "6504"),
    ("ended_reply_kept", "Exactly", f"{CALL} ∷ host_ended 1 ∷ {REPLY('replicate 8 0')} ∷ []", "on (reserve 2)", "answer", "code", "1", "0"),
    ("entry_not_counted", "Exactly", TWO, STOPPED, "answer", "code", "0", "16"),
    ("refused_entry_counted", "Exactly", TWO, STOPPED, "answer", "code", "32", "16"),
    ("esrch_leaves_slot", "Exactly", "on (fmap 1 5 1 0 0 0 1) ∷ host_ended 1 ∷ on (supply 0 0 0 1) ∷ []", "on (supply 0 0 0 1)",
     "answer", "code", "1003", "1022"),
    ("full_without_looking", "Exactly", "[]", "on (reserve 1)", "answer", "code", "1202", "0"),
    ("hands_another_reply", "Exactly", f"{CALL} ∷ {REPLY('9 ∷ replicate 7 0')} ∷ []", "on (wake 0 1 0 0 0)", "answer", "code", "6000", "6009"),
    ("hands_to_any_caller", "Exactly", f"{CALL} ∷ {REPLY('replicate 8 0')} ∷ []", "on (wake 0 2 0 0 0)", "answer", "code", "6000", "1201"),
    ("hands_to_returned", "Exactly", f"{CALL} ∷ on (wake 0 1 1 0 0) ∷ {REPLY('replicate 8 0')} ∷ []", "on (wake 0 1 0 0 0)",
     "answer", "code", "6000", "1201"),
    ("map_request_served", "Exactly", "on (fmap 1 5 1 0 0 0 1) ∷ []", REPLY("replicate 8 0"), "answer", "code", "16", "1022"),
    ("placeholder_served", "Exactly", "on (reserve 1) ∷ []", REPLY("replicate 8 0"), "answer", "code", "16", "1077"),
    ("responded_served_again", "Exactly", f"{CALL} ∷ {REPLY('replicate 8 0')} ∷ []", REPLY("replicate 8 0"), "answer", "code", "16", "1022"),
    ("obtain_vacant_77", "Exactly", "[]", "on (write 54 ((3 ∷ 0 ∷ 0 ∷ 0 ∷ 5 ∷ []) ++ replicate 11 0))", "answer", "code", "1077", "1022"),
    ("submit_to_ended", "Exactly", "on (reserve 1) ∷ host_ended 1 ∷ []", "on (submit 0 1 6 0 (args6 0 0 0 0 0 0) 1 [])",
     "answer", "code", "0", "1201"),
    ("unknown_kind_22", "Exactly", "[]", "on (stdfs 1 1 (0 ∷ []) 0 0 (9 ∷ 0 ∷ 0 ∷ []))", "answer", "code", "1022", "1095"),
    ("waiting_slot_given_out", "Exactly", f"{CALL} ∷ []", "on (reserve 2)", "answer", "code", "0", "1"),
    ("call_with_tag_0", "Spelled", "[]", "x.queued.call 0 (args6 0 0 0 0 0 0) 0 0 0 1", "queued", "(λ (l : List ℕ). get_or l 0 0)", "0", "0x1_0000_0000"),
    ("one_reading_for_all", "Spelled", "[]", "x.readings.success vacant_slot 9 0 false", "readings", "worth", "0", "9"),
    ("fresh_without_scheme", "Spelled", "[]", "(x.started 7 []).number", "started", "(λ (n : ℕ). n)", "0", "7"),
    ("odd_length_after_202", "Exactly", "replicate 64 (on (reserve 1))", "on (fdread 1 0 23 0 [] 0 0 0)", "answer", "code", "1202", "1022"),
    # byte 16 of the entry is the first of its argument 1
    ("all_flags_sent", "Spelled", "[]", "x.calls.kfdwrite (fresh_world 7 (replicate 1024 0)) 1 0 4 [] 0 0 0 []", "calls",
     "(λ (o : Outcome). get_or (unread_in o.world) 16 0)", "4", "0"),
    ("many_counted_as_eio", "Spelled", "[]", "x.fronts.kfdread.many []", "fronts", "code", "1005", "0"),
    ("list_read_as_word", "Spelled", "[]", "x.fronts.kfdwrite.many []", "fronts", "code", "0", "1005"),
    ("killed_wake_vacates", "Exactly", f"{CALL} ∷ on (wake 0 1 1 0 0) ∷ []", "on (reserve 2)", "answer", "code", "0", "1"),
]

ABANDONED = ("specs/Status.antt", "is_abandoned v = v.ended || v.returned")
CODE = "src/lib.rt"
# name, crate, pairs of its files, claim, events before, the status word whose bit 0 is looked at, the wrong layer's, the claimed
BELOW = [
    ("a returned call is outstanding", "status", [(*ABANDONED, "is_abandoned v = v.ended || v.ended"), (CODE, "v.returned", "v.ended")],
     "Statuses", f"{CALL} ∷ on (wake 0 1 1 0 0) ∷ []", "Outstanding", "1", "0"),
    ("an ended caller's call is outstanding", "status", [(*ABANDONED, "is_abandoned v = v.returned || v.returned"), (CODE, "v.ended ||", "v.returned ||")],
     "Statuses", f"{CALL} ∷ host_ended 1 ∷ []", "Outstanding", "1", "0"),
    ("a cancelled call is an orphan", "status", [(*ABANDONED, "is_abandoned v = v.ended || v.canceling"), (CODE, "v.returned", "v.canceling")],
     "Statuses", f"{CALL} ∷ on (wake 0 1 0 0 0) ∷ []", "Orphans", "1", "0"),
    ("map requests are told as Placeholders", "status",
     [("specs/Status.antt", "passes Placeholder v = eqb v.state 1", "passes Placeholder v = eqb v.state 4"),
      (CODE, "Status::Placeholder => v.state == 1", "Status::Placeholder => v.state == 4")],
     "Statuses", "on (reserve 1) ∷ []", "Placeholder", "0", "1"),
]

REFUTED = """-- {claim} does not hold of this layer.
use Prim.Native.Nat.{{ℕ, ◌+◌}}
use mathlib.Core.Path.{{◌≡◌, refl, ap}}
use mathlib.Core.Bool.{{Bool, false, cond}}
use mathlib.Core.List.{{List, [], ◌∷◌, ◌++◌}}
use native.Mathlib.Omega.{{arith}}
use lib.ListN.{{length, get_or, replicate, length-replicate}}
use Rattle.slot.specs.Slots.{{vacant_slot}}
use Rattle.status.specs.declared.Status.TheVariants.{{Placeholder, Outstanding, Orphans}}
use Rattle.wait_queue.specs.Queue.{{words_from}}
use Rattle.events.specs.World.{{fresh_world, unread_in}}
use Rattle.events.specs.Outcome.{{Response, success, error, descriptor, many, Answer, on_answer, Outcome}}
use Rattle.events.specs.Submit.{{args6}}
use Rattle.events.specs.Event.{{reserve, submit, call, fdread, stdfs, fmap, wake, read, write, supply, Event, host_ended, on, step}}
use Rattle.events.specs.Run.{{Run, begin, next, run_from, run, Steps, fresh, then}}
use Rattle.events.specs.{claim}.{{{claim}}}

abbrev worth : Response → ℕ
worth (success w x b) = w
worth (error e x b) = 500 + e
worth (descriptor d) = d
worth (many ds) = 0

abbrev code : Answer → ℕ
code a = on_answer a (λ v. v) (λ k. 1000 + k) 5000 5001 (λ r. 6000 + worth r)

abbrev bit : Bool → ℕ
bit b = cond b 1 0

steps_from : (es : List Event) (r : Run) → Steps r → Steps (run_from r es)
steps_from [] r s = s
steps_from (e ∷ es) r s = steps_from es (next r e) (then r e (step r.world e) s refl)

abbrev before : List Event
before = {before}

pub refuted : {claim} → ⊥
unfolding words_from
refuted x =
    let s = steps_from before (begin 7 (replicate 1024 0)) (fresh 7 (replicate 1024 0) (length-replicate {{A = ℕ}} 1024 0)) in
    let z : ◌≡◌ {{A = ℕ}} {wrong} {claimed} = ap {measure} ({clause}) in
    omega arith
"""


def pairs_of(edit):
    """The pairs of a must-fail edit: file, old text, new text."""
    pairs, file, old = [], None, None
    for line in edit.read_text().splitlines():
        if line.startswith("file: "):
            file = line[6:]
        elif line.startswith("old: "):
            old = line[5:]
        elif line.startswith("new: "):
            pairs.append((file, old, line[5:]))
    return pairs


def apply(name, pairs, crate):
    for file, old, new in pairs:
        text = (crate / file).read_text()
        if text.count(old) != 1:
            sys.exit(f"{name}: stands {text.count(old)} times: {old}")
        (crate / file).write_text(text.replace(old, new))


def is_false(copy, claim, before, said, measure, wrong, claimed):
    """Is the claim proved false of the layer in this copy? And what the check says."""
    events = copy / "crates/events"
    shutil.rmtree(events / "proofs")
    (events / "proofs").mkdir()
    (events / "proofs/Lib.antt").write_text("pub mod Refuted\n")
    # the examples cite the definitions as they should be, and no claim rests on them
    lib = events / "specs/Lib.antt"
    lib.write_text(lib.read_text().replace("pub mod Examples\n", ""))
    (events / "specs/Examples.antt").unlink()
    (events / "proofs/Refuted.antt").write_text(
        REFUTED.format(claim=claim, before=before, wrong=wrong, claimed=claimed, measure=measure, clause=said))
    run = subprocess.run(["rt", "check"], cwd=events, capture_output=True, text=True)
    return run.returncode == 0, run.stdout + run.stderr


# the claim of the run over the events before
AT = "x (run_from (begin 7 (replicate 1024 0)) before) s"


def cases():
    """Name, crate, pairs of its files, and what is_false takes."""
    for name, claim, before, event, clause, measure, wrong, claimed in WRONG:
        said = {
            "Exactly": f"(({AT}).rest ({event})).effects" if clause == "effects" else f"({AT}).answer ({event})",
            "Demand3": f"(({AT}).turn ({event})).{clause}",
            "Spelled": event,
        }[claim]
        pairs = pairs_of(TOP / f"crates/events/must-fail/{name}.edit")
        yield name, "events", pairs, (claim, before, said, measure, wrong, claimed)
    for name, crate, pairs, claim, before, clause, wrong, claimed in BELOW:
        yield name, crate, pairs, (claim, before, f"({AT} {clause}).bits 0 (omega arith)", "(λ (n : ℕ). n)", wrong, claimed)


def main():
    names = sys.argv[1:]
    all_cases = list(cases())
    unknown = set(names) - {case[0] for case in all_cases}
    if unknown:
        sys.exit(f"no such wrong layer: {', '.join(sorted(unknown))}")
    subprocess.run(["rt", "all", "check"], cwd=TOP / "crates/events", check=True, stdout=subprocess.DEVNULL)
    # the libraries that this built, and not what it kept for the next check
    own = shutil.ignore_patterns("incremental")
    failed = 0
    with tempfile.TemporaryDirectory() as folder:
        copy = pathlib.Path(folder)
        lines = {line.split(":")[0]: line for line in (TOP / "crates.txt").read_text().splitlines() if re.match(r"\w+:", line)}
        wanted = ["events"]
        for part in wanted:
            wanted += [below for below in lines[part].split(":")[1].split() if below in lines and below not in wanted]
        (copy / "crates.txt").write_text("".join(f"{lines[part]}\n" for part in wanted))
        for part in wanted:
            shutil.copytree(TOP / "crates" / part, copy / "crates" / part, ignore=own)
        for name, crate, pairs, case in all_cases:
            if names and name not in names:
                continue
            for part in {"events", crate}:
                shutil.rmtree(copy / "crates" / part)
                shutil.copytree(TOP / "crates" / part, copy / "crates" / part, ignore=own)
            apply(name, pairs, copy / "crates" / crate)
            claim, _, said, _, wrong, claimed = case
            shown, log = is_false(copy, *case)
            if shown:
                print(f"{name}: {claim} is false of it ({said.replace(AT, '..')}: {wrong}, where {claimed} is claimed)")
            else:
                failed += 1
                print(f"{name}: NOT shown false of {claim}")
                print("\n".join(l for l in log.splitlines() if re.search(r"error|Refuted", l))[:3000])
            if crate != "events":
                shutil.rmtree(copy / "crates" / crate)
                shutil.copytree(TOP / "crates" / crate, copy / "crates" / crate, ignore=own)
    print(f"{failed} not shown")
    sys.exit(failed != 0)


if __name__ == "__main__":
    main()
