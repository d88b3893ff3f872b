//! A script with a difference, made short: events left out, then numbers and lists made plain, as
//! long as there is a difference.

use script::{Event, FdCall, Payload, Script};

const ENTRY: usize = 16;
const EFFECT_WORDS: u64 = 54;
/// Renumbering tries many scripts: it waits until they are short.
const RENUMBERED_MOST: usize = 90;

/// Events with less in them.
fn plainer(event: &Event) -> Vec<Event> {
    let mut plainer = Vec::new();
    let payload = |payload: &Payload, of: fn(Payload) -> Event| {
        let all = Payload {
            pid: 0,
            fds: payload.fds.iter().map(|_| 0).collect(),
            base: 0,
            len: 0,
            meta: payload.meta.iter().map(|word| word & 0xff).collect(),
            ..*payload
        };
        of(all)
    };
    match event {
        Event::Submit {
            tag, c, op, list, ..
        } => {
            let with = |list: Vec<u64>| Event::Submit {
                tag: *tag,
                c: *c,
                op: *op,
                fl: 0,
                args: [0; 6],
                pid: 0,
                list,
            };
            plainer.extend(shorter(list).into_iter().map(with));
            plainer.push(with(list.clone()));
        }
        Event::Call { c, op, list, .. } => {
            let with = |list: Vec<u64>| Event::Call {
                c: *c,
                op: *op,
                args: [0; 6],
                uid: 0,
                gid: 0,
                pid: 0,
                list,
            };
            plainer.extend(shorter(list).into_iter().map(with));
            plainer.push(with(list.clone()));
        }
        Event::Fdwrite { call, list } => {
            let with = |call: FdCall, list: &[u64]| Event::Fdwrite {
                call,
                list: list.to_vec(),
            };
            plainer.extend(
                shorter(list)
                    .iter()
                    .map(|list| with(plain_call(call), list)),
            );
            plainer.extend(plainer_calls(call).into_iter().map(|call| with(call, list)));
        }
        Event::Fdread { call, len } => {
            let with = |call: FdCall, len: u64| Event::Fdread { call, len };
            // no word, one, or a part of one
            plainer.extend([0, 8, len % 8].map(|len| with(plain_call(call), len)));
            plainer.extend(plainer_calls(call).into_iter().map(|call| with(call, *len)));
        }
        Event::Generic(p) => plainer.push(payload(p, Event::Generic)),
        Event::Stdfs(p) => plainer.push(payload(p, Event::Stdfs)),
        Event::Fmap { c, .. } => plainer.push(Event::Fmap {
            c: *c,
            id: 0,
            pages: 0,
            flags: 0,
            uid: 0,
            gid: 0,
            pid: 0,
        }),
        Event::Close { .. } => plainer.push(Event::Close { id: 0 }),
        Event::Detach { .. } => plainer.push(Event::Detach { id: 0, pid: 0 }),
        Event::Wake { tag, c, killed, .. } => {
            plainer.extend([(0, 0), (1, 1)].map(|(base, count)| Event::Wake {
                tag: *tag,
                c: *c,
                killed: *killed,
                base,
                count,
            }))
        }
        Event::Read { flags, .. } => {
            plainer.extend([64, 8_192].map(|len| Event::Read { len, flags: *flags }))
        }
        Event::Write { words, bytes } => {
            let entries = bytes.len() / ENTRY;
            let enough = *words >= EFFECT_WORDS * entries as u64;
            for place in 0..entries {
                let mut bytes = bytes.clone();
                bytes.drain(ENTRY * place..ENTRY * (place + 1));
                let words = match enough {
                    true => EFFECT_WORDS * (entries as u64 - 1),
                    false => *words,
                };
                plainer.push(Event::Write { words, bytes });
            }
            for place in 0..entries {
                // extra bytes, then those of the result
                for part in [1..4, 8..16, 9..16] {
                    let mut bytes = bytes.clone();
                    bytes[ENTRY * place..][part].fill(0);
                    let words = *words;
                    plainer.push(Event::Write { words, bytes });
                }
            }
            let bytes = bytes[..ENTRY * entries].to_vec();
            if enough {
                let words = EFFECT_WORDS * entries as u64;
                plainer.push(Event::Write { words, bytes });
            }
        }
        Event::Move { meta, list } => {
            let with = |list: Vec<u64>| Event::Move {
                meta: meta.clone(),
                list,
            };
            plainer.extend(shorter(list).into_iter().map(with));
        }
        _ => {}
    }
    // each turn makes the text less, so that there is a last one
    let less = |event: &Event| {
        let text = event.to_string();
        (text.len(), text)
    };
    plainer.retain(|other| less(other) < less(event));
    plainer
}

/// The words with less of them or in them.
fn plain_words(words: &[u64]) -> Vec<Vec<u64>> {
    let mut plain = shorter(words);
    plain.extend([0, 1].map(|most| words.iter().map(|word| *word.min(&most)).collect()));
    plain
}

/// Of an fdwrite's or fdread's fields what may matter to it.
fn plain_call(call: &FdCall) -> FdCall {
    FdCall {
        number: 0,
        uid: 0,
        gid: 0,
        pid: 0,
        ..call.clone()
    }
}

/// The same with plainer metadata, with plainer flags, and as it is.
fn plainer_calls(call: &FdCall) -> Vec<FdCall> {
    let with_meta = |meta| FdCall {
        meta,
        ..plain_call(call)
    };
    let with_flags = |flags| FdCall {
        flags,
        ..plain_call(call)
    };
    let mut calls: Vec<FdCall> = plain_words(&call.meta).into_iter().map(with_meta).collect();
    calls.extend(plain_flags().map(with_flags));
    calls.push(plain_call(call));
    calls
}

/// No flag of a call, or one of those that have to do with descriptors.
fn plain_flags() -> impl Iterator<Item = u64> {
    [0].into_iter().chain((11..16).map(|bit| 1 << bit))
}

/// The list without one of its words, or with none.
fn shorter(list: &[u64]) -> Vec<Vec<u64>> {
    let without = |place: usize| {
        let mut list = list.to_vec();
        list.remove(place);
        list
    };
    match list.len() {
        0 => Vec::new(),
        len => [Vec::new()]
            .into_iter()
            .chain((0..len).map(without))
            .collect(),
    }
}

/// The event with other tags.
fn with_tags(event: &Event, of: &dyn Fn(u64) -> u64) -> Event {
    let mut event = event.clone();
    match &mut event {
        Event::Submit { tag, .. } | Event::Wake { tag, .. } | Event::Supply { tag, .. } => {
            *tag = of(*tag);
        }
        Event::Move { meta, .. } | Event::Obtain { meta } => {
            meta.iter_mut()
                .skip(1)
                .take(1)
                .for_each(|tag| *tag = of(*tag));
        }
        Event::Write { bytes, .. } => {
            for entry in bytes.chunks_exact_mut(ENTRY) {
                let field: &mut [u8; 4] = (&mut entry[4..8]).try_into().expect("four bytes");
                *field = (of(u64::from(u32::from_le_bytes(*field))) as u32).to_le_bytes();
            }
        }
        _ => {}
    }
    event
}

/// Leaves out an event that gave a tag out: those that were given out later become one less.
fn renumbered(script: &mut Script, differs: &dyn Fn(&Script) -> bool) -> bool {
    let mut changed = false;
    for place in (0..script.events.len()).rev() {
        let event = &script.events[place];
        let gives = event.caller_of_tag().is_some() && !matches!(event, Event::Submit { .. });
        if !gives || script.events.len() > RENUMBERED_MOST {
            continue;
        }
        let less = (0..64).find_map(|given| {
            let mut less = script.clone();
            less.events.remove(place);
            for event in &mut less.events[place..] {
                let of = |tag| {
                    if (given + 1..64).contains(&tag) {
                        tag - 1
                    } else {
                        tag
                    }
                };
                *event = with_tags(event, &of);
            }
            differs(&less).then_some(less)
        });
        if let Some(less) = less {
            *script = less;
            changed = true;
        }
    }
    changed
}

/// Leaves out as many events as it can, the last ones first, many at a time and then one by one.
fn left_out(script: &mut Script, differs: &dyn Fn(&Script) -> bool) -> bool {
    let mut changed = false;
    let mut size = script.events.len().div_ceil(2).max(1);
    loop {
        let mut end = script.events.len();
        while end > 0 {
            let start = end.saturating_sub(size);
            let mut less = script.clone();
            less.events.drain(start..end);
            if differs(&less) {
                *script = less;
                changed = true;
            }
            end = start;
        }
        if size == 1 {
            return changed;
        }
        size = size.div_ceil(2);
    }
}

fn made_plain(script: &mut Script, differs: &dyn Fn(&Script) -> bool) -> bool {
    let mut changed = false;
    let mut place = 0;
    while place < script.events.len() {
        let mut others = plainer(&script.events[place]).into_iter();
        let found = others.find_map(|event| {
            let mut other = script.clone();
            other.events[place] = event;
            differs(&other).then_some(other)
        });
        match found {
            Some(other) => {
                *script = other;
                changed = true;
            }
            None => place += 1,
        }
    }
    changed
}

/// A short script that differs too.
pub fn shrink(mut script: Script, differs: &dyn Fn(&Script) -> bool) -> Script {
    let plain = Script {
        scheme: 7,
        ..script.clone()
    };
    if differs(&plain) {
        script = plain;
    }
    while left_out(&mut script, differs)
        | made_plain(&mut script, differs)
        | renumbered(&mut script, differs)
    {}
    script
}
