//! Slips put into the layer by hand, one at a time: does the comparison find each, and make its
//! script short? A slip changes what the layer is asked, what it answers or the state that it
//! leaves, around the proved code; the proved code itself stays as it is.

mod common;

use common::{After, Before, Changed, NOT_AFTER, NOT_BEFORE};
use compare::beside::difference;
use compare::counts::Counts;
use compare::runs;
use script::{Answer, Event, Line, Phase};
use tilgurap::numbers::Layer;
use tilgurap::numbers::parts::Slot;

#[derive(Clone, Copy)]
struct Slip {
    name: &'static str,
    before: Before,
    after: After,
    /// The script that shows it has at most so many events.
    most: usize,
}

fn change_slot(layer: &mut Layer, tag: u64, change: impl FnOnce(&mut Slot)) {
    layer.change_parts(|state| change(&mut state.table.slots[tag as usize]));
}

fn occupied(layer: &Layer) -> usize {
    let slots = layer.state().slots;
    slots.iter().filter(|p| **p != Phase::Vacant).count()
}

/// Events that show a slip; a list of 16 needs its holds, a limit what fills it. A mark that parts the Waiting slots shows
/// in the status words at once.
const AT_ONCE: usize = 3;
const FEW: usize = 7;
const A_LIST: usize = 24;
const ALL_SLOTS: usize = 66;
const ALL_QUEUE: usize = 140;

const SLIPS: [Slip; 26] = [
    Slip {
        name: "a killed wake vacates the slot",
        before: NOT_BEFORE,
        after: |_, layer, event, line| {
            if let (Event::Wake { tag, .. }, Answer::No(4)) = (event, &line.answer) {
                layer.change_parts(|state| {
                    let table = &mut state.table;
                    table.slots[*tag as usize].state = 0;
                    table.next[*tag as usize] = table.head;
                    table.head = *tag;
                });
            }
        },
        most: FEW,
    },
    Slip {
        name: "a reply to a Responded slot is accepted",
        before: |layer, event| {
            if let Event::Write { .. } = event {
                layer.change_parts(|state| {
                    for slot in &mut state.table.slots {
                        slot.state = if slot.state == 3 { 2 } else { slot.state };
                    }
                });
            }
            None
        },
        after: |before, layer, event, _| {
            // those that had no reply now are Responded again
            if let Event::Write { .. } = event {
                layer.change_parts(|state| {
                    let slots = state.table.slots.iter_mut();
                    for (now, was) in slots.zip(before.parts().table.slots) {
                        if was.state == 3 && now.state == 2 {
                            *now = was;
                        }
                    }
                });
            }
        },
        most: FEW,
    },
    Slip {
        name: "the slot vacated first is given out first",
        before: NOT_BEFORE,
        after: |before, layer, _, _| {
            let old = before.parts().table.head;
            layer.change_parts(|state| {
                let table = &mut state.table;
                // a slot came to the front of one that had been vacated before
                let (first, second) = (table.head as usize, old as usize);
                if table.head != old && first < 64 && second < 64 && table.next[first] == old {
                    table.next[first] = table.next[second];
                    table.next[second] = first as u64;
                    table.head = old;
                }
            });
        },
        most: FEW,
    },
    Slip {
        name: "the last byte of a second entry read is another",
        before: NOT_BEFORE,
        after: |_, _, event, line| {
            if let Event::Read { .. } = event
                && line.bytes.len() >= 128
            {
                line.bytes[127] ^= 1;
            }
        },
        most: FEW,
    },
    Slip {
        name: "no unmap where closes follow",
        before: NOT_BEFORE,
        after: |_, _, _, line| {
            if line.effects.iter().any(|effect| effect.kind == 3) {
                line.effects.retain(|effect| effect.kind != 2);
            }
        },
        most: FEW,
    },
    Slip {
        name: "closes before the wake",
        before: NOT_BEFORE,
        after: |_, _, _, line| line.effects.sort_by_key(|effect| effect.kind != 3),
        most: FEW,
    },
    Slip {
        name: "a move of 16 counts 15",
        before: NOT_BEFORE,
        after: |_, _, event, line| {
            if let (Event::Move { .. }, Answer::Ok(16)) = (event, &line.answer) {
                line.answer = Answer::Ok(15);
            }
        },
        most: A_LIST,
    },
    Slip {
        name: "the third of a list is lost",
        before: NOT_BEFORE,
        after: |_, layer, event, line| {
            if let (Event::Call { list, .. }, Answer::Ok(tag)) = (event, &line.answer)
                && list.len() == 3
            {
                change_slot(layer, *tag, |slot| slot.fds.len = 2);
            }
        },
        most: FEW,
    },
    Slip {
        name: "EINTR of a call that nobody cancels stays EINTR",
        before: NOT_BEFORE,
        after: |before, layer, event, _| {
            if let Event::Write { bytes, .. } = event {
                for entry in bytes.chunks_exact(16) {
                    let tag = u64::from(entry[4]);
                    if tag < 64
                        && matches!(entry[0] % 8, 0 | 5)
                        && entry[8..12] == [0xfc, 0xff, 0xff, 0xff]
                        && before.state().slots[tag as usize] == Phase::Waiting
                        && layer.parts().table.slots[tag as usize].reply.word == 5
                    {
                        change_slot(layer, tag, |slot| slot.reply.word = 4);
                    }
                }
            }
        },
        most: FEW,
    },
    Slip {
        name: "202 one slot early",
        before: |layer, event| match event {
            Event::Reserve { .. } if occupied(layer) == 63 => Some(Line::answer(Answer::No(202))),
            _ => None,
        },
        after: NOT_AFTER,
        most: ALL_SLOTS,
    },
    Slip {
        name: "203 one entry early",
        before: |layer, event| match event {
            Event::Detach { .. } if layer.state().queue == 127 => {
                Some(Line::answer(Answer::No(203)))
            }
            _ => None,
        },
        after: NOT_AFTER,
        most: ALL_QUEUE,
    },
    Slip {
        name: "a Cancel for each wake",
        before: NOT_BEFORE,
        after: |_, layer, event, line| {
            if let (Event::Wake { tag, .. }, Answer::Blocked) = (event, &line.answer) {
                change_slot(layer, *tag, |slot| slot.canceling = false);
            }
        },
        most: FEW,
    },
    Slip {
        name: "an ended caller's later slots are not marked",
        before: NOT_BEFORE,
        after: |_, layer, event, _| {
            if let Event::Ended { c } = event {
                layer.change_parts(|state| {
                    let slots = state.table.slots.iter_mut();
                    let own = slots.filter(|slot| slot.state != 0 && slot.caller == *c);
                    own.skip(1).for_each(|slot| slot.ended = false);
                });
            }
        },
        most: FEW,
    },
    Slip {
        name: "the first page of a span is lost",
        before: NOT_BEFORE,
        after: |_, layer, event, line| {
            if let (Event::Wake { tag, .. }, Answer::No(4)) = (event, &line.answer) {
                change_slot(layer, *tag, |slot| slot.span.base = 0);
            }
        },
        most: FEW,
    },
    Slip {
        name: "a word too few is lent and taken",
        before: |layer, event| match event {
            Event::Write { words, bytes } if words + 1 == 54 * (bytes.len() as u64 / 16) => {
                Some(layer.write_line(&mut vec![0; *words as usize + 1], bytes))
            }
            _ => None,
        },
        after: NOT_AFTER,
        most: FEW,
    },
    Slip {
        name: "205 where 206 belongs",
        before: NOT_BEFORE,
        after: |_, _, _, line| {
            if line.answer == Answer::No(206) {
                line.answer = Answer::No(205);
            }
        },
        most: A_LIST,
    },
    Slip {
        name: "a wake that is not its caller's says EBADFD",
        before: NOT_BEFORE,
        after: |_, _, event, line| {
            if let (Event::Wake { .. }, Answer::No(201)) = (event, &line.answer) {
                line.answer = Answer::No(77);
            }
        },
        most: FEW,
    },
    Slip {
        name: "a refused submit takes its list",
        before: NOT_BEFORE,
        after: |_, layer, event, line| {
            if let (Event::Submit { list, .. }, Answer::No(201)) = (event, &line.answer)
                && let Some(d) = list.first()
            {
                layer.drop_one(*d);
            }
        },
        most: FEW,
    },
    Slip {
        name: "fdwrite passes its flags on as they are",
        before: |layer, event| match event {
            Event::Fdwrite { call, list } => {
                let first = call.meta.first().copied().unwrap_or(0);
                Some(layer.step(&Event::Call {
                    c: call.c,
                    op: 12,
                    args: [call.number, call.flags, first, list.len() as u64, 0, 0],
                    uid: call.uid,
                    gid: call.gid,
                    pid: call.pid,
                    list: list.clone(),
                }))
            }
            _ => None,
        },
        after: NOT_AFTER,
        most: FEW,
    },
    Slip {
        name: "fdwrite looks at the bit beside its own",
        before: |layer, event| match event {
            Event::Fdwrite { call, list } if call.flags >> 12 & 3 == 2 => {
                let (mut call, list) = (call.clone(), list.clone());
                call.flags |= 1 << 12;
                Some(layer.step(&Event::Fdwrite { call, list }))
            }
            _ => None,
        },
        after: NOT_AFTER,
        most: FEW,
    },
    Slip {
        name: "fdread sends its length in bytes",
        before: |layer, event| match event {
            Event::Fdread { call, len } if len % 8 == 0 => {
                let (call, len) = (call.clone(), len.wrapping_mul(8));
                Some(layer.step(&Event::Fdread { call, len }))
            }
            _ => None,
        },
        after: NOT_AFTER,
        most: FEW,
    },
    Slip {
        name: "fdread sends one word of metadata",
        before: |layer, event| match event {
            Event::Fdread { call, len } if call.meta.len() > 1 => {
                let (mut call, len) = (call.clone(), *len);
                call.meta.truncate(1);
                Some(layer.step(&Event::Fdread { call, len }))
            }
            _ => None,
        },
        after: NOT_AFTER,
        most: FEW,
    },
    Slip {
        name: "202 before an fdread's 22",
        before: NOT_BEFORE,
        after: |before, _, event, line| {
            if let (Event::Fdread { .. }, Answer::No(22)) = (event, &line.answer)
                && occupied(before) == 64
            {
                line.answer = Answer::No(202);
            }
        },
        most: ALL_SLOTS,
    },
    Slip {
        name: "the last of what fdwrite sends is held outside, too",
        before: NOT_BEFORE,
        after: |_, layer, event, line| {
            if let (Event::Fdwrite { list, .. }, Answer::Ok(_)) = (event, &line.answer)
                && let Some(d) = list.last()
            {
                layer.change_parts(|state| {
                    let holds = &mut state.table.holds;
                    holds.holds[*d as usize] += 1;
                    holds.outside[*d as usize] += 1;
                });
            }
        },
        most: FEW,
    },
    Slip {
        name: "a call that waits is not told that its caller has ended",
        before: NOT_BEFORE,
        after: |_, layer, event, _| {
            if let Event::Ended { .. } = event {
                layer.change_parts(|state| {
                    let slots = state.table.slots.iter_mut();
                    slots
                        .filter(|slot| slot.state == 2)
                        .for_each(|slot| slot.ended = false);
                });
            }
        },
        most: AT_ONCE,
    },
    Slip {
        name: "a killed call is not marked as returned",
        before: NOT_BEFORE,
        after: |_, layer, event, line| {
            if let (Event::Wake { tag, .. }, Answer::No(4)) = (event, &line.answer) {
                change_slot(layer, *tag, |slot| slot.returned = false);
            }
        },
        most: AT_ONCE,
    },
];

#[test]
fn each_slip_is_found_and_its_script_is_short() {
    let mut long = Vec::new();
    for slip in SLIPS {
        let fresh = |scheme| Changed::new(scheme, slip.before, slip.after);
        let counts = &mut Counts::default();
        let found =
            (0..400).find_map(|seed| runs::compare(seed, 400, &fresh, reasons::ALL, counts).err());
        let Some(found) = found else {
            panic!("{}: not found in {} events", slip.name, counts.compared);
        };
        println!(
            "{}: seed {}, event {}\n{}{}\n",
            slip.name, found.seed, found.place, found.script, found.what
        );
        assert!(
            difference(&found.script, &fresh, reasons::ALL).is_some(),
            "{}",
            slip.name
        );
        assert_eq!(
            difference(&found.script, &Layer::new, reasons::ALL),
            None,
            "{}",
            slip.name
        );
        if found.script.events.len() > slip.most {
            long.push((slip.name, found.script.to_string()));
        }
    }
    assert!(long.is_empty(), "{long:?}");
}

/// The same runs with no slip.
#[test]
fn without_a_slip_there_is_no_difference() {
    let counts = &mut Counts::default();
    for seed in 0..40 {
        let found = runs::compare(seed, 400, &Layer::new, reasons::ALL, counts).err();
        assert!(found.is_none(), "seed {seed}");
    }
    assert!(100 * counts.compared > 70 * (counts.compared + counts.skipped));
    assert!(counts.shown.of("occupied_handle") > 0);
}
