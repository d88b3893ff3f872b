//! What `--explain` says of each event and each refusal, and what `status` shows.

mod common;

use common::{run, text};

fn explained(script: &str) -> String {
    let output = run(&["replay", "--explain"], script.as_bytes());
    assert_eq!(output.status.code(), Some(0), "{script}");
    text(&output.stdout).to_owned()
}

/// The sentence about the last event.
fn sentence(events: &str) -> String {
    let last = events.lines().last().expect("an event");
    let told = explained(&format!("scheme 7\n{events}\n"));
    let (_, after) = told.rsplit_once(&format!("\n{last}\n")).expect("its line");
    let sentence = after.lines().nth(1).expect("its sentence");
    sentence.trim_start().to_owned()
}

const CALL: &str = "call 100 6 1 2 3 4 5 0 0 0 100 0\nread 64 0\n";

#[test]
fn events_that_are_accepted() {
    for (events, wanted) in [
        ("open 3", "The host opens description 3; accepted."),
        (
            "open 3\ncopy 3",
            "The host copies a hold of description 3; accepted.",
        ),
        (
            "open 3\ndrop 3",
            "The host drops a hold of description 3; accepted.",
        ),
        (
            "open 3\nput 3 5",
            "The host puts description 3 into the driver's handle 5; accepted.",
        ),
        (
            "ended 9",
            "The host reports that caller 9 has ended; noted.",
        ),
        (
            "reserve 9",
            "Caller 9 reserves a slot; accepted, tag 0 is its own.",
        ),
        (
            "reserve 9\nopen 1\nsubmit 0 9 34 0 1 2 3 4 5 6 9 1 1",
            "Caller 9 submits tag 0 with opcode 34 (Detach) and sends description 1 along; accepted, tag 0; effect: the queue of scheme 7 has something to read.",
        ),
        (
            "generic 9 9 2 20 21 4096 5 0",
            "Caller 9 makes a call of the driver's own about files 20, 21; accepted, tag 0; effect: the queue of scheme 7 has something to read.",
        ),
        (
            "stdfs 9 9 1 20 4096 5 3 1 0 0",
            "Caller 9 makes a standard file system call about file 20; accepted, tag 0; effect: the queue of scheme 7 has something to read.",
        ),
        (
            "fmap 9 20 1 0 0 0 9",
            "Caller 9 asks for a mapping of file 20, 1 page; accepted, tag 0; effect: the queue of scheme 7 has something to read.",
        ),
        (
            "close 20",
            "The driver is to be told that file 20 was closed; accepted; effect: the queue of scheme 7 has something to read, with HUP.",
        ),
        (
            "detach 20 9",
            "The driver is to be told that process 9 detached file 20; accepted; effect: the queue of scheme 7 has something to read.",
        ),
        (
            "read 1 0",
            "The driver reads up to 1 byte; the queue is empty, the driver would wait.",
        ),
        (
            "close 20\nclose 21\nread 100 0",
            "The driver reads up to 100 bytes; it gets 100 bytes: CloseMsg with tag 0, and 36 bytes of an entry that comes again.",
        ),
        (
            "write 54 0200000001000000210000000000000000",
            "The driver writes one entry (event 1 of file 33) and 1 byte over; taken, 16 bytes; effect: pass on event 1 of the driver's file 33.",
        ),
        (
            "write 0 -",
            "The driver writes no whole entry; taken, 0 bytes.",
        ),
        (
            "open 3\nopen 4\nfdwrite 9 20 4096 0 0 0 9 2 3 4",
            "Caller 9 sends descriptions 3, 4 to file 20, exclusively; accepted, tag 0; effect: the queue of scheme 7 has something to read.",
        ),
        (
            "fdwrite 9 20 16384 0 0 0 9 0",
            "Caller 9 sends no description to file 20; accepted, tag 0; effect: the queue of scheme 7 has something to read.",
        ),
        (
            "fdread 9 20 16 4096 0 0 0 9",
            "Caller 9 asks file 20 for descriptions, into 16 bytes; accepted, tag 0; effect: the queue of scheme 7 has something to read.",
        ),
        (
            "fdread 9 20 0 20480 0 0 0 9",
            "Caller 9 asks file 20 for descriptions, into 0 bytes, for the upper file table; accepted, tag 0; effect: the queue of scheme 7 has something to read.",
        ),
        (
            "front fdwrite regular ok 9 0 0",
            "A call by fdwrite reads its reply, success with 9; it returns 9.",
        ),
        (
            "front fdread many 2 3 4",
            "A call by fdread reads its reply, descriptions 3, 4; it returns 2, how many came.",
        ),
        (
            "call 9 6 0 0 0 0 0 0 0 0 0 0\ncall 9 6 0 0 0 0 0 0 0 0 0 0\ncall 8 6 0 0 0 0 0 0 0 0 0 0\nended 9\nstatus",
            "The status words are asked for; Placeholder none; Outstanding tag 2; Responded none; Fmap none; Orphans tags 0, 1.",
        ),
    ] {
        assert_eq!(sentence(events), wanted, "{events}");
    }
}

/// No event is refused here: an error is what the call returns.
#[test]
fn replies_that_are_read_as_errors() {
    for (events, wanted) in [
        (
            "front fdread regular err 4 0 0",
            "A call by fdread reads its reply, error EINTR (4); it returns with EINTR (4): so the driver replied.",
        ),
        (
            "front fdwrite regular err 500 0 0",
            "A call by fdwrite reads its reply, error 500; it returns with 500: so the driver replied.",
        ),
        (
            "front fdread regular ok 2 0 0",
            "A call by fdread reads its reply, success with 2; it returns with EIO (5): it takes a list of descriptions or an error.",
        ),
        (
            "front fdread fd 3",
            "A call by fdread reads its reply, description 3; it returns with EIO (5): it takes a list of descriptions or an error; what the reply holds is the host's to drop.",
        ),
        (
            "front fdwrite many 2 3 4",
            "A call by fdwrite reads its reply, descriptions 3, 4; it returns with EIO (5): it takes a word or an error; what the reply holds is the host's to drop.",
        ),
    ] {
        assert_eq!(sentence(events), wanted, "{events}");
    }
}

#[test]
fn calls_that_wait() {
    for (events, wanted) in [
        (
            "wake 0 100 1 5 2\nwrite 54 000000000000000083ffffffffffffff",
            "The driver writes one entry (error ECANCELED (125) for tag 0); taken, 16 bytes; effects: wake caller 100, the call with tag 0 has its reply; unmap pages from 5 on, 2 of them.",
        ),
        (
            "open 3\nmove 2 1 0 1 3",
            "The driver gives tag 0 1 description; accepted, 1 description.",
        ),
        (
            "open 3\nmove 2 1 0 1 3\nobtain 2 0 0",
            "The driver takes tag 0's descriptions; accepted, 1 description.",
        ),
        (
            "open 3\nput 3 5\nwrite 54 01000000000000000500000000000000\nwake 0 100 0 0 0",
            "Caller 100 is woken and asks for tag 0; it is handed its reply: description 3.",
        ),
        (
            "open 3\nmove 2 1 0 1 3\nwrite 54 04000000000000000000000000000000\nwake 0 100 0 0 0",
            "Caller 100 is woken and asks for tag 0; it is handed its reply: descriptions 3.",
        ),
        (
            "write 54 05010000000000000000000000000000\nwake 0 100 0 0 0",
            "Caller 100 is woken and asks for tag 0; it is handed its reply: success with 0, extra0 1, asks to be told on detach.",
        ),
        (
            "write 108 0000000000000000000000000000000000000000090000000000000000000000",
            "The driver writes 2 entries (success with 0 for tag 0; success with 0 for tag 9); 16 bytes are taken, entry 2 of 2 is turned down: no call or map request has tag 9; effect: wake caller 100, the call with tag 0 has its reply.",
        ),
    ] {
        assert_eq!(sentence(&format!("{CALL}{events}")), wanted, "{events}");
    }
}

/// The end of the sentence, from the number on.
#[test]
fn refusals_say_why() {
    let full = format!("open 3\n{}copy 3", "copy 3\n".repeat(65_534));
    for (events, wanted) in [
        ("open 64", "205: description 64 is over 63."),
        ("open 3\nopen 3", "205: it is open already."),
        ("copy 64", "205: description 64 is over 63."),
        ("drop 3", "205: description 3 is not open."),
        (
            "open 3\nput 3 0\ndrop 3",
            "205: the host has no hold of description 3.",
        ),
        ("open 3\nput 3 64", "205: handle 64 is over 63."),
        (
            "open 3\nopen 4\nput 3 0\nput 4 0",
            "205: handle 0 is in use.",
        ),
        (&full, "207: the description has 65,535 holds."),
        (
            "call 1 2 0 0 0 0 0 0 0 0 0 0",
            "205: opcode 2 does not exist, they are 3 to 34.",
        ),
        (
            "open 3\ncall 1 6 0 0 0 0 0 0 0 0 0 2 3 3",
            "205: the host has too few holds of description 3 to send it.",
        ),
        (
            &format!(
                "open 3\n{}call 1 6 0 0 0 0 0 0 0 0 0 17{}",
                "copy 3\n".repeat(16),
                " 3".repeat(17)
            ),
            "206: more than 16 descriptions are sent along.",
        ),
        (
            "open 3\nfdwrite 1 9 0 0 0 0 1 2 3 3",
            "205: the host has too few holds of description 3 to send it.",
        ),
        (
            "fdwrite 1 9 0 0 0 0 1 1 64",
            "205: description 64 is over 63.",
        ),
        (
            &format!(
                "open 3\n{}fdwrite 1 9 0 0 0 0 1 17{}",
                "copy 3\n".repeat(16),
                " 3".repeat(17)
            ),
            "206: more than 16 descriptions are sent along.",
        ),
        (
            "fdread 1 9 23 0 0 0 0 1",
            "22: its length, 23, is no multiple of 8.",
        ),
        (
            &format!("{}fdread 1 9 24 0 0 0 0 1", "close 1\n".repeat(128)),
            "203: the queue is full.",
        ),
        (
            "submit 5 2 6 0 0 0 0 0 0 0 0 0",
            "201: no call or map request has tag 5.",
        ),
        (
            "reserve 1\nsubmit 0 2 6 0 0 0 0 0 0 0 0 0",
            "201: tag 0 is caller 1's.",
        ),
        (
            "reserve 1\nended 1\nsubmit 0 1 6 0 0 0 0 0 0 0 0 0",
            "201: caller 1 has ended.",
        ),
        (
            "call 1 6 0 0 0 0 0 0 0 0 0 0\nsubmit 0 1 6 0 0 0 0 0 0 0 0 0",
            "201: the call with tag 0 waits for its reply.",
        ),
        (
            &format!("{}close 1", "close 1\n".repeat(128)),
            "203: the queue is full.",
        ),
        ("generic 1 1 0 0 0 0", "22: it takes one or two files."),
        (
            "stdfs 1 1 1 20 0 0 2 1 0",
            "22: it takes three words of metadata.",
        ),
        (
            "stdfs 1 1 3 20 21 22 0 0 3 1 0 0",
            "22: it takes one or two files.",
        ),
        (
            "stdfs 1 1 1 20 0 0 3 9 0 0",
            "95: no such standard file system call.",
        ),
        ("wake 0 1 2 0 0", "205: killed is 2, it has to be 0 or 1."),
        ("wake 64 1 0 0 0", "77: no call or map request has tag 64."),
        (
            "reserve 1\nwake 0 1 0 0 0",
            "77: tag 0 is reserved and not submitted.",
        ),
        (
            "fmap 1 1 1 0 0 0 0\nwake 0 1 0 0 0",
            "77: tag 0 is a map request.",
        ),
        (
            "call 1 6 0 0 0 0 0 0 0 0 0 0\nwake 0 1 1 0 0\nwake 0 1 0 0 0",
            "201: the call with tag 0 has returned already.",
        ),
        (
            "read 63 262144",
            "22: the queue is empty, and a whole entry has 64 bytes.",
        ),
        ("read 64 262144", "11: the queue is empty."),
        (
            "write 53 00000000000000000000000000000000",
            "204: 54 words have to be lent for the effects of each whole entry.",
        ),
        (
            "write 54 06000000000000000000000000000000",
            "22: kind 6 does not exist.",
        ),
        (
            "write 54 02000000200000000000000000000000",
            "22: event 32 does not exist.",
        ),
        (
            "write 54 03100000000000000000000000000000",
            "22: it has flags that do not exist.",
        ),
        (
            "write 54 01000000000000000500000000000000",
            "22: the driver's handle 5 is empty.",
        ),
        (
            "call 1 6 0 0 0 0 0 0 0 0 0 0\nwrite 54 03000000000000000000000000000000",
            "2: the call with tag 0 lists no description.",
        ),
        (
            "write 54 03000000000000000000000000000000",
            "22: no call or map request has tag 0.",
        ),
        (
            "reserve 1\nwrite 54 00000000000000000000000000000000",
            "77: tag 0 is reserved and not submitted.",
        ),
        (
            "move 1 1 0",
            "22: its metadata have to be two words, 1 and the tag.",
        ),
        (
            "obtain 2 1 0",
            "22: its metadata have to be two words, 0 and the tag.",
        ),
        (
            "reserve 1\nobtain 2 0 0",
            "2: tag 0 is reserved and not submitted.",
        ),
        (
            "open 3\nmove 2 1 9 1 4",
            "205: the host has too few holds of description 4 to send it.",
        ),
        (
            "supply 0 1 4096 1",
            "22: it takes one page, with offset and base on a page's border.",
        ),
        ("supply 0 0 4096 1", "22: no call or map request has tag 0."),
        (
            "reserve 1\nsupply 0 0 4096 1",
            "77: tag 0 is reserved and not submitted.",
        ),
        (
            "fmap 1 1 1 0 0 0 0\nended 1\nsupply 0 0 4096 1",
            "3: the caller has ended; the slot is vacant again.",
        ),
    ] {
        let (_, found) = (sentence(events).split_once("; refused with "))
            .map(|(asked, why)| (asked.to_owned(), why.to_owned()))
            .unwrap_or_else(|| panic!("not refused: {events}"));
        assert_eq!(found, wanted, "{events}");
    }
}

#[test]
fn comments_stand_where_they_stood() {
    let told = explained("# first\nscheme 7\n# an open\n# description\nopen 3\n# last");
    let wanted = "# first
scheme 7
  A fresh layer: every slot vacant, all else empty.

# an open
# description
open 3
  ok 0
  The host opens description 3; accepted.

# last
At the end:
";
    assert!(told.starts_with(wanted), "{told}");
}

const HELD: &str = "scheme 7
open 1
copy 1
open 2
put 2 63
reserve 4294967295
call 100 6 1 2 3 4 5 0 1 2 100 1 1
fmap 101 9 1 0 0 0 101
call 102 28 0 0 0 0 0 0 0 0 102 0
write 54 000000000300000083ffffffffffffff
wake 1 100 1 5 2
ended 101
";

#[test]
fn what_a_layer_holds() {
    let output = run(&["status"], HELD.as_bytes());
    let wanted = "status        slots  word (bit N is tag N)
  Placeholder     1  0x0000000000000001
  Outstanding     0  0x0000000000000000
  Responded       1  0x0000000000000008
  Fmap            1  0x0000000000000004
  Orphans         1  0x0000000000000002
slots: 60 vacant, the others:
  tag  state            caller  notes
    0  Placeholder  4294967295
    1  Waiting             100  cancelling; returned; pages to unmap: 2 from 5; descriptions 1
    2  Fmap                101  caller ended
    3  Responded           102  reply: error ECANCELED (125)
queue: 3 of 128 entries, first to be read first:
  opcode       tag  flags         pid  arguments
  Write          1      0         100  1 2 3 4 5 8589934593
  RequestMmap    2      0         101  9 0 1 0 0 0
  Call           3      0         102  0 0 0 0 0 0
handles in use:
  handle  description
      63            2
open descriptions:
  description  holds  of them outside
            1      2                1
            2      1                0
";
    assert_eq!(text(&output.stdout), wanted);
    assert_eq!(output.status.code(), Some(0));
    assert!(explained(HELD).ends_with(&format!("At the end:\n{wanted}")));
    let fresh = run(&["status"], b"scheme 7\n");
    assert!(text(&fresh.stdout).ends_with(
        "slots: all 64 vacant\nqueue: empty\nhandles: all 64 empty\ndescriptions: none open\n"
    ));
}

/// A comment stands where the script has it: above its event, behind it, below the last one.
#[test]
fn comments_behind_events_and_blank_lines() {
    let script =
        "# first\n\n# second\n\nscheme 7 # the plant's\r\n\nopen 3   # the valve\n# last\n\n";
    let told = explained(script);
    let head = "# first\n\n# second\nscheme 7 # the plant's\n  A fresh layer: every slot vacant, all else empty.\n\n\
                open 3 # the valve\n  ok 0\n  The host opens description 3; accepted.\n\n# last\nAt the end:\n";
    assert!(told.starts_with(head), "{told}");
}
