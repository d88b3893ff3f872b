#!/usr/bin/env python3
"""What a new user meets: ./tilgurap as it is called from a shell, here and on copies of this checkout. It needs the built
library (`./tilgurap build`), the program listing (`./tilgurap list FILE`) and cargo; no network, no kernel's sources, no
terminal. What is skipped says so.

    python3 tests/first_contact.py
"""
import json
import os
import pathlib
import pty
import re
import select
import shutil
import signal
import subprocess
import tempfile
import time
import unittest

TOP = pathlib.Path(__file__).resolve().parent.parent
LIBRARY = "target/staticlib/libtilgurap.a"
LISTING = "target/bin/listing"
ENTRIES = TOP / "crates/listing/stdin"
ACCIDENT = TOP / "examples/accident.script"
# what the user has set does not matter here
OWN = ["TILGURAP_LIB", "CARGO_TARGET_DIR", "CARGO_BUILD_TARGET"]
ENVIRONMENT = {name: value for name, value in os.environ.items() if name not in OWN}
EVERY_KIND = """scheme 18446744073709551615 # the greatest number
open 3
call 100 6 1 2 3 4 5 0 0 0 100 1 3
ended 100
write 54 00000000000000000000000000000000
open 1
copy 1

open 2
put 2 63 # the last handle
ended 4294967295
reserve 9
submit 0 9 34 255 18446744073709551615 2 3 4 5 6 18446744073709551614 1 1
call 100 6 1 2 3 4 5 0 0 0 100 0
generic 9 9 2 20 21 4096 5 0
stdfs 9 9 1 20 4096 5 3 1 0 0
fmap 9 20 1 0 0 0 9
close 20
detach 20 9
read 164 0
wake 1 100 0 5 2
wake 1 100 1 4096 3
status
write 108 00000000010000000700000000000000050000000200000007000000ffffffff
wake 2 9 0 0 0
move 2 1 3 1 1
obtain 2 0 3
write 54 01000000030000003f00000000000000
wake 3 9 0 0 0
supply 4 0 4096 1
write 54 02000000010000000900000000000000
read 8192 262144
read 64 0
drop 2
drop 63
open 6
put 6 7
open 7
call 8 6 1 2 3 4 5 0 0 0 8 1 7
wake 4 8 1 8192 4
call 8 6 1 2 3 4 5 0 0 0 8 1 1
open 4
fdwrite 9 20 18446744073709551615 2 3 4 5 6 9 1 4
fdread 9 20 16 16384 0 5 6 9
fdread 9 20 23 0 3 1 2 3 5 6 9
front fdwrite regular ok 18446744073709551615 0 0
front fdread regular err 28 255 1 # an error passes
front fdread fd 18446744073709551615
front fdread many 2 3 4
front fdread many 0
ended 9
status # a killed call's orphan, and three of caller 9's
"""


def run(*args, top=TOP, text=True, **options):
    options = {"env": ENVIRONMENT, "text": text, "timeout": 60, **options}
    if "input" not in options:
        options["stdin"] = subprocess.DEVNULL
    return subprocess.run([str(top / "tilgurap"), *args], capture_output="stdout" not in options, **options)


def copy(folder, built=True):
    """What ./tilgurap uses, with the times of the files kept, as a checkout of its own. Of the crates one is enough."""
    top = pathlib.Path(folder) / "a checkout"
    for name in ["crates/tilgurap", "rust/driver", "rust/script", "rust/tilgurap"]:
        shutil.copytree(TOP / name, top / name, ignore=shutil.ignore_patterns("target", "out"))
    files = ["tilgurap", "crates.txt", "docs/CHECK-TIMES.md"]
    for name in [*files, LIBRARY, LISTING, "rust/driver/target/release/driver"] if built else files:
        (top / name).parent.mkdir(parents=True, exist_ok=True)
        shutil.copy2(TOP / name, top / name)
    return top


def at_terminal(argv, typed=b"", until=b"", env=ENVIRONMENT):
    """Runs a program at a terminal, types once it has shown `until`; its status and all that it showed."""
    child, terminal = pty.fork()
    if child == 0:
        # as at a terminal, also where these tests were started in the background
        signal.signal(signal.SIGINT, signal.SIG_DFL)
        os.execve(argv[0], argv, env)
    shown, deadline = b"", time.time() + 30
    while time.time() < deadline:
        if select.select([terminal], [], [], 0.1)[0]:
            try:
                read = os.read(terminal, 65536)
            except OSError:
                break
            if not read:
                break
            shown += read
        if typed and until in shown:
            os.write(terminal, typed)
            typed = b""
    else:
        os.kill(child, signal.SIGKILL)
    status = os.waitstatus_to_exitcode(os.waitpid(child, 0)[1])
    os.close(terminal)
    return status, shown.decode()


def line_of_event(event):
    """The script's line that an object says."""
    words = []
    for name, value in event.items():
        if name in ("fds", "metadata", "descriptions"):
            words += [len(value), *value]
        elif name == "arguments":
            words += value
        elif name == "reply":
            words += reply_words(value)
        else:
            words.append(value if value != "" else "-")
    return " ".join(map(str, words))


def reply_words(reply):
    if reply["kind"] == "regular":
        result = ["ok", reply["ok"]] if "ok" in reply else ["err", reply["err"]]
        return ["regular", *result, reply["extra0"], int(reply["notice"])]
    if reply["kind"] == "fd":
        return ["fd", reply["description"]]
    return ["many", len(reply["descriptions"]), *reply["descriptions"]]


EFFECTS = {
    "wake": (1, "caller", "tag"),
    "unmap": (2, "base", "count"),
    "close": (3, "description", None),
    "event": (4, "number", "flags"),
    "readable": (5, "scheme", "flags"),
}


def line_of_answer(told):
    """The plain line that an event's object says."""
    answer = told["answer"]
    words = [answer["kind"]]
    if "number" in answer:
        words.append(answer["number"])
    if "reply" in answer:
        words += reply_words(answer["reply"])
    if "status" in answer:
        words += status_words(answer["status"])
    for effect in told["effects"]:
        kind, a, b = EFFECTS[effect["kind"]]
        words += [";", "E", kind, effect[a], effect[b] if b else 0]
    if told["bytes"]:
        words += [";", "B", told["bytes"]]
    return " ".join(map(str, words))


def line_of_state(state):
    """The plain line that the state's object says."""
    slots, holds, outside, handles = ["v"] * 64, [0] * 64, [0] * 64, ["-"] * 64
    for slot in state["slots"]:
        slots[slot["tag"]] = slot["state"][0].lower()
    for one in state["descriptions"]:
        holds[one["description"]], outside[one["description"]] = one["holds"], one["outside"]
    for one in state["handles"]:
        handles[one["handle"]] = one["description"]
    words = ["state slots", "".join(slots), "queue", len(state["queue"]), "holds", *holds, "outside", *outside]
    words += ["handles", *handles, "status"]
    return " ".join(map(str, words + status_words(state["status"])))


def status_words(status):
    """The ten numbers that the status words' object says."""
    words = []
    for name in ["Placeholder", "Outstanding", "Responded", "Fmap", "Orphans"]:
        words += [int(status[name]["bits"], 16), status[name]["count"]]
    assert len(status) == 5, status
    return words


def setUpModule():
    """What is older than its sources is built anew, but for the first build, which takes minutes."""
    for name in [LIBRARY, LISTING]:
        if not (TOP / name).exists():
            raise unittest.SkipTest(f"{name} is not built")
    for args in [["replay", ACCIDENT], ["list", ENTRIES]]:
        done = run(*map(str, args), timeout=900)
        assert done.returncode == 0, done.stderr


class Json(unittest.TestCase):
    def objects(self, *args):
        done = run(*args)
        self.assertEqual((done.returncode, done.stderr), (0, ""), args)
        found = [json.loads(line) for line in done.stdout.splitlines()]
        start = found.pop(0)
        self.assertEqual((start.pop("type"), start.pop("format"), start.pop("command")), ("start", 2, args[0]))
        return start, found

    def replayed(self, path):
        text = path.read_text()
        lines = text.split("\n")
        plain = run("replay", str(path)).stdout.splitlines()
        start, found = self.objects("replay", "--json", str(path))
        scheme = next(line for line in lines if line.startswith("scheme "))
        self.assertEqual(f"scheme {start['scheme']}", scheme.split(" #")[0])
        *events, state = found
        self.assertEqual(state["type"], "state")
        self.assertEqual([line_of_answer(told) for told in events] + [line_of_state(state)], plain, path)
        self.assertEqual([told["number"] for told in events], list(range(1, len(events) + 1)))
        for told in events:
            self.assertEqual(told["type"], "event")
            self.assertEqual(line_of_event(told["event"]), lines[told["line"] - 1].split(" #")[0], path)
        said = [line for line in lines if line.strip() and not line.startswith("#")]
        self.assertEqual(len(events), len(said) - 1)

        _, [status] = self.objects("status", "--json", str(path))
        self.assertEqual(status, state)
        self.shown(state, run("status", str(path)).stdout)

    def shown(self, state, table):
        """All that the table shows is in the state's object."""
        for slot in state["slots"]:
            notes = [name for name in ("cancelling", "returned") if slot[name]] + ["caller ended"] * slot["ended"]
            if slot["span"]["count"]:
                notes.append("pages to unmap: {count} from {base}".format(**slot["span"]))
            if slot["descriptions"]:
                notes.append("descriptions " + ", ".join(map(str, slot["descriptions"])))
            row = f"  {slot['tag']:>3}  {slot['state']:<11} {slot['caller']:>11}"
            [found] = [line[len(row):].strip() for line in table.splitlines() if line.startswith(row)]
            told, _, reply = found.partition("reply: ")
            self.assertEqual(told.rstrip("; "), "; ".join(notes), row)
            self.assertEqual(slot["reply"] is not None, bool(reply), row)
            if reply and "ok" in slot["reply"]:
                self.assertTrue(reply.startswith(f"success with {slot['reply']['ok']}"), row)
        rows = ""
        for one in state["queue"]:
            arguments = " ".join(map(str, one["arguments"]))
            rows += f"  {one['name']:<11} {one['tag']:>4}  {one['flags']:>5}  {one['pid']:>10}  {arguments}\n"
        self.assertIn(rows + "handles", table)

    def test_replay_and_status(self):
        scripts = sorted((TOP / "examples").glob("*.script"))
        self.assertTrue(scripts)
        with tempfile.TemporaryDirectory() as folder:
            every = pathlib.Path(folder) / "every.script"
            every.write_text(EVERY_KIND)
            for path in [every, *scripts]:
                self.replayed(path)
            # each kind of event, answer and effect was seen
            _, [*events, state] = self.objects("replay", "--json", str(every))
            self.assertEqual(len({told["event"]["name"] for told in events}), 23)
            self.assertEqual({told["answer"]["kind"] for told in events}, {"ok", "no", "wait", "blocked", "reply", "status"})
            self.assertEqual({effect["kind"] for told in events for effect in told["effects"]}, set(EFFECTS))
            self.assertIn(4, [slot["span"]["count"] for slot in state["slots"]])

    def test_a_mistake_prints_nothing(self):
        done = run("replay", "--json", input="scheme 7\nopen 1\nshut 1\n")
        self.assertEqual((done.returncode, done.stdout), (2, ""))
        self.assertIn("line 3: unknown event `shut`", done.stderr)

    def test_list(self):
        names, *lines, left = run("list", str(ENTRIES)).stdout.splitlines()
        start, [*entries, end] = self.objects("list", "--json", str(ENTRIES))
        self.assertEqual(start, {})
        self.assertEqual([" ".join(str(one[name]) for name in names.split()) for one in entries], lines)
        self.assertEqual({one["type"] for one in entries}, {"entry"})
        self.assertEqual((f"left {end['left']}", end["type"], end["cut"]), (left, "end", False))


class List(unittest.TestCase):
    def test_pipes(self):
        wanted = run("list", str(ENTRIES)).stdout
        self.assertTrue(wanted.startswith("entry ") and wanted.endswith("left 3\n"))
        for name in ["-", "/dev/stdin"]:
            # two writes, so that a reader of the first alone would show
            reader, writer = os.pipe()
            child = subprocess.Popen([str(TOP / "tilgurap"), "list", name], stdin=reader, stdout=subprocess.PIPE, text=True)
            os.close(reader)
            os.write(writer, ENTRIES.read_bytes()[:20])
            time.sleep(0.2)
            os.write(writer, ENTRIES.read_bytes()[20:])
            os.close(writer)
            self.assertEqual(child.communicate(timeout=20)[0], wanted)
        with tempfile.TemporaryDirectory() as folder:
            fifo = os.path.join(folder, "fifo")
            os.mkfifo(fifo)
            child = subprocess.Popen([str(TOP / "tilgurap"), "list", fifo], stdout=subprocess.PIPE, text=True)
            with open(fifo, "wb") as writer:
                writer.write(ENTRIES.read_bytes())
            self.assertEqual(child.communicate(timeout=20)[0], wanted)

    def test_endless(self):
        done = run("list", "/dev/zero")
        self.assertEqual(done.returncode, 0)
        self.assertEqual(len(done.stdout.splitlines()), 4096 + 2)
        self.assertEqual(done.stderr, "tilgurap: /dev/zero has more than 65536 bytes, of which the first 65536 are listed\n")
        self.assertEqual(json.loads(run("list", "--json", "/dev/zero").stdout.splitlines()[-1])["cut"], True)
        whole = run("list", "-", text=False, input=bytes(65536))
        self.assertEqual((len(whole.stdout.splitlines()), whole.stderr), (4096 + 2, b""))


class Output(unittest.TestCase):
    COMMANDS = [["replay", ACCIDENT], ["replay", "--explain", ACCIDENT], ["replay", "--json", ACCIDENT], ["status", ACCIDENT],
                ["list", ENTRIES], ["list", "--json", ENTRIES], ["help"], ["build"], ["version"]]

    def test_lost(self):
        for command in self.COMMANDS:
            command = list(map(str, command))
            with open("/dev/full", "w") as full:
                done = run(*command, stdout=full, stderr=subprocess.PIPE)
            self.assertEqual(done.returncode, 1, command)
            self.assertIn("standard output: No space left", done.stderr, command)
            closed = ["sh", "-c", '"$0" "$@" >&-', str(TOP / "tilgurap"), *command]
            done = subprocess.run(closed, stderr=subprocess.PIPE, text=True, env=ENVIRONMENT)
            self.assertEqual((done.returncode, done.stderr), (1, "tilgurap: standard output is closed\n"), command)

    def test_a_closed_pipe(self):
        for command in self.COMMANDS:
            reader, writer = os.pipe()
            os.close(reader)
            done = run(*map(str, command), stdout=writer, stderr=subprocess.PIPE)
            os.close(writer)
            self.assertEqual((done.returncode, done.stderr), (1, ""), command)


class Built(unittest.TestCase):
    """What is built, where, and when."""

    def setUp(self):
        folder = tempfile.TemporaryDirectory()
        self.addCleanup(folder.cleanup)
        self.folder = pathlib.Path(folder.name)
        self.wanted = run("replay", str(ACCIDENT)).stdout

    def works(self, top, **options):
        done = run("replay", str(ACCIDENT), top=top, **options)
        self.assertEqual((done.returncode, done.stdout), (0, self.wanted), done.stderr)
        return done.stderr

    def test_the_driver_elsewhere_and_never_a_stale_one(self):
        top = copy(self.folder)
        driver = top / "rust/driver/target/release/driver"
        driver.write_text("#!/bin/sh\necho stale\n")
        elsewhere = self.folder / "else where"
        self.works(top, env={**ENVIRONMENT, "CARGO_TARGET_DIR": str(elsewhere)})
        self.works(top, env={**ENVIRONMENT, "CARGO_TARGET_DIR": os.path.relpath(elsewhere, self.folder)}, cwd=self.folder)
        self.assertTrue((elsewhere / "release/driver").exists())
        (top / ".cargo").mkdir()
        (top / ".cargo/config.toml").write_text(f"[build]\ntarget-dir = {json.dumps(str(elsewhere))}\n")
        self.works(top)
        with open(top / "rust/driver/src/main.rs", "a") as source:
            source.write("no Rust\n")
        done = run("replay", str(ACCIDENT), top=top)
        self.assertEqual((done.returncode, done.stdout), (2, ""))
        self.assertTrue(done.stderr.endswith("tilgurap: rust/driver was not built: what cargo says stands above\n"), done.stderr)

    def read_only(self, top, *args):
        """Runs it in a checkout that nobody can write."""
        command = [str(top / "tilgurap"), *args]
        if os.getuid() != 0:
            subprocess.run(["chmod", "-R", "a-w", top], check=True)
            self.addCleanup(subprocess.run, ["chmod", "-R", "u+w", top])
        else:
            mount = 'mount --bind "$0" "$0" && mount -o remount,ro,bind "$0" && exec "$@"'
            if subprocess.run(["unshare", "-m", "sh", "-c", mount, top, "true"], capture_output=True).returncode != 0:
                self.skipTest("root cannot mount here, and would not mind the modes")
            command = ["unshare", "-m", "sh", "-c", mount, top, *command]
        return subprocess.run(command, capture_output=True, text=True, env=ENVIRONMENT, stdin=subprocess.DEVNULL, timeout=60)

    def test_a_checkout_that_is_built_and_cannot_be_written(self):
        top = copy(self.folder)
        for args in [["replay", ACCIDENT], ["status", ACCIDENT], ["list", ENTRIES], ["list", "--json", ENTRIES]]:
            args = list(map(str, args))
            done = self.read_only(top, *args)
            self.assertEqual((done.returncode, done.stdout, done.stderr), (0, run(*args).stdout, ""), args)
        done = self.read_only(top, "--version")
        self.assertEqual((done.returncode, done.stderr), (0, ""))
        self.assertNotIn("not built", done.stdout)

    def test_a_checkout_that_is_not_built_and_cannot_be_written(self):
        top = copy(self.folder, built=False)
        for args, name in [(["replay"], "libtilgurap.a"), (["list", "-"], "listing")]:
            done = self.read_only(top, *args)
            self.assertEqual((done.returncode, done.stdout), (2, ""))
            said = f"{name} is not built, or older than the crates, and {top}/target cannot be written: copy the repository"
            self.assertIn(said, done.stderr)

    def test_version(self):
        manifest = (TOP / "rust/tilgurap/Cargo.toml").read_text()
        number = re.search(r'^version = "(.*)"$', manifest, re.M)[1]
        for word in ["version", "--version", "-V"]:
            done = run(word)
            self.assertEqual((done.returncode, done.stderr), (0, ""))
            first, library, *others = done.stdout.splitlines()
            self.assertEqual(first, f"tilgurap {number}")
            self.assertRegex(library, r"^library: ABI [0-9]+, .*libtilgurap\.a$")
            self.assertEqual([line.split(":")[0] for line in others], ["listing", "driver", "toolchain"])
        top = copy(self.folder, built=False)
        before = sorted(top.rglob("*"))
        done = run("version", top=top, env={**ENVIRONMENT, "PATH": "/usr/bin:/bin"})
        self.assertEqual(done.returncode, 0)
        self.assertIn("listing: not built\ndriver: not built\n", done.stdout)
        self.assertRegex(done.stdout, r"library: ABI [0-9]+, not built\n")
        self.assertEqual(sorted(top.rglob("*")), before)


def crates_below(wanted):
    """The crates that one stands on, each behind those that it stands on itself."""
    below = {}
    for line in (TOP / "crates.txt").read_text().splitlines():
        name, colon, names = line.split("#")[0].partition(":")
        if colon:
            # a kind may stand behind the name
            below[name.split()[0]] = names.split()
    found = []

    def visit(crate):
        for name in below[crate]:
            if name in below and name not in found:
                visit(name)
                found.append(name)

    visit(wanted)
    return found


# It proves a crate in no time, and builds by taking what is built: `rt all check` and `rt lib`, in the folder of crate tilgurap.
STAND_IN = f"""#!/bin/sh
top=../..
stay() {{ sleep 30 & echo $! > "$top/stays"; wait; }}
case $1 in
    all)
        for name in {' '.join(crates_below("tilgurap"))} tilgurap; do
            mkdir -p "$top/crates/$name/out/rlib"
            if [ -e "$top/wait at $name" ]; then sleep 1.2; fi
            if [ -e "$top/stay at $name" ]; then stay; fi
            if [ -e "$top/change at $name" ]; then rm "$top/change at $name"; touch "$top/crates.txt"; fi
            echo "== $name"
            if [ -e "$top/fail at $name" ]; then
                echo "fn $name: not proved"
                printf '%s\\n' "== summary" "$name: failed (1)" "run: not run, since $name failed"
                exit 1
            fi
            echo "fn $name: proved"
            echo "logic=proved functions=1"
        done ;;
    lib)
        echo half > out/libtilgurap.a
        if [ -e "$top/stay at the library" ]; then stay; fi
        cp "{TOP / LIBRARY}" out/libtilgurap.a ;;
esac
"""


def goes_on(process):
    """Is it running? One that has ended and that nobody waits for is not."""
    try:
        return pathlib.Path(f"/proc/{process}/stat").read_text().rsplit(") ", 1)[1][0] != "Z"
    except FileNotFoundError:
        return False


class FirstBuild(unittest.TestCase):
    """The first build, with a stand-in for rt."""

    def setUp(self):
        folder = tempfile.TemporaryDirectory()
        self.addCleanup(folder.cleanup)
        self.top = copy(folder.name, built=False)
        tools = pathlib.Path(folder.name) / "bin"
        tools.mkdir()
        (tools / "rt").write_text(STAND_IN)
        (tools / "rt").chmod(0o755)
        # the driver is not what is tried: cargo says that it built it
        (tools / "cargo").write_text("""#!/bin/sh
echo '{"executable":"/bin/driver"}' | sed "s|/bin|${0%/*}|"
""")
        (tools / "driver").write_text("#!/bin/sh\necho it runs\n")
        for name in ["cargo", "driver"]:
            (tools / name).chmod(0o755)
        self.env = {**ENVIRONMENT, "PATH": f"{tools}:{ENVIRONMENT['PATH']}"}
        self.log = self.top / "target/log/build.log"
        self.count = 1 + len(crates_below("tilgurap"))

    def test_without_a_terminal_a_few_lines(self):
        done = run("replay", top=self.top, env=self.env)
        self.assertEqual((done.returncode, done.stdout), (0, "it runs\n"))
        self.assertRegex(done.stderr, rf"\Atilgurap: libtilgurap\.a is proved and built first, {self.count} crates with .*\n"
                                      r"tilgurap: libtilgurap\.a is built, in .*\ntilgurap: building rust/driver\n\Z")
        self.assertEqual(self.log.read_text().count("logic=proved "), self.count)
        again = run("replay", top=self.top, env=self.env)
        self.assertEqual((again.stdout, again.stderr), ("it runs\n", "tilgurap: building rust/driver\n"))
        done = run("build", top=self.top, env=self.env)
        self.assertEqual((done.returncode, done.stdout, done.stderr), (0, f"{self.top / LIBRARY}\n", ""))

    def test_at_a_terminal_a_line_that_moves(self):
        (self.top / "wait at events").touch()
        (self.top / "wait at run").touch()
        status, shown = at_terminal([str(self.top / "tilgurap"), "replay", str(ACCIDENT)], env=self.env)
        self.assertEqual(status, 0, shown)
        self.assertRegex(shown, rf"\rtilgurap: [0-9]+ of {self.count} crates proved, [0-9] s.*; now events")
        self.assertRegex(shown, rf"\rtilgurap: [0-9]+ of {self.count} crates proved, [0-9] s, less than a minute left; now run")
        self.assertRegex(shown, r"\rtilgurap: libtilgurap\.a is built, in ")
        self.assertNotIn("fn events: proved", shown)
        # start, the line that moves, end, building the driver, what it says
        self.assertLessEqual(shown.count("\n"), 5)

    def test_a_crate_that_is_not_proved(self):
        (self.top / "fail at table").touch()
        done = run("replay", top=self.top, env=self.env)
        self.assertEqual((done.returncode, done.stdout), (2, ""))
        self.assertRegex(done.stderr, r"\ntable: failed \(1\)\ntilgurap: `rt all check --jobs [0-9]+` failed in crates/tilgurap, ")
        self.assertTrue(done.stderr.endswith(f", its words are in {self.log}\n"), done.stderr)
        self.assertFalse((self.top / LIBRARY).exists())

    def test_crates_that_change_meanwhile(self):
        (self.top / "change at table").touch()
        done = run("replay", top=self.top, env=self.env)
        self.assertEqual((done.returncode, done.stdout), (2, ""))
        self.assertTrue(done.stderr.endswith("tilgurap: the crates were changed while they were proved: start it again\n"))
        again = run("replay", top=self.top, env=self.env)
        self.assertEqual((again.returncode, again.stdout), (0, "it runs\n"))
        self.assertIn("tilgurap: libtilgurap.a is built, in ", again.stderr)

    def test_an_interrupted_build_goes_on(self):
        stays = self.top / "stay at table"
        stays.touch()
        status, shown = at_terminal([str(self.top / "tilgurap"), "replay"], typed=b"\x03", until=b"; now table", env=self.env)
        self.assertEqual(status, 130, shown)
        self.assertIn("tilgurap: interrupted after ", shown)
        stays.unlink()
        self.assertEqual(run("replay", top=self.top, env=self.env).stdout, "it runs\n")

    def test_an_ended_build_leaves_no_prover_and_no_half_library(self):
        (self.top / "stay at the library").touch()
        stays = self.top / "stays"
        child = subprocess.Popen([str(self.top / "tilgurap"), "replay"], env=self.env, stderr=subprocess.PIPE, text=True)
        deadline = time.time() + 20
        while not (stays.exists() and stays.read_text()) and time.time() < deadline:
            time.sleep(0.05)
        self.assertTrue((self.top / "crates/tilgurap/out/libtilgurap.a").exists())
        child.terminate()
        self.assertIn("tilgurap: interrupted after ", child.communicate(timeout=20)[1])
        self.assertEqual(child.returncode, 143)
        self.assertFalse(goes_on(stays.read_text().strip()))
        self.assertFalse((self.top / LIBRARY).exists())


class Terminal(unittest.TestCase):
    def test_it_says_what_it_waits_for(self):
        typed = b"scheme 7\nopen 1\n\x04"
        status, shown = at_terminal([str(TOP / "tilgurap"), "replay"], typed=typed, until=b"Ctrl-D")
        self.assertEqual(status, 0, shown)
        said = "tilgurap: reading an event script from the terminal: end it with Ctrl-D, see ./tilgurap help script\r\n"
        self.assertIn(said, shown)
        self.assertIn("ok 0\r\nstate slots ", shown)
        status, shown = at_terminal([str(TOP / "tilgurap"), "list", "-"], typed=b"\x04", until=b"Ctrl-D")
        self.assertEqual(status, 0, shown)
        self.assertIn("tilgurap: reading completion entries from the terminal: end them with Ctrl-D\r\n", shown)


if __name__ == "__main__":
    unittest.main()
