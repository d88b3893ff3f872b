//! What a step is lent, each part between fences that nobody may change.

use script::{Event, Payload};

use crate::ffi::{self, AnswerWords, Args, QueueWords, Tag, WakeWords, Words};

/// Elements on both sides of what is lent.
const FENCE: usize = 64;

const WORDS: usize = 2_060;
const QUEUE_WORDS: usize = 1_024;
const STATUS_WORDS: usize = 10;
/// Room for the longest that is drawn.
const LIST: usize = 24;
const BYTES: usize = 80;
const EFFECT_WORDS: usize = 200;
const OUT: usize = 8_400;

/// A part that is lent, and the same as it has to stay.
struct Fenced<T> {
    now: Vec<T>,
    kept: Vec<T>,
}

impl<T: Copy + PartialEq> Fenced<T> {
    fn new(most: usize, of: impl Fn(usize) -> T) -> Self {
        let now: Vec<T> = (0..most + 2 * FENCE).map(of).collect();
        let kept = now.clone();
        Fenced { now, kept }
    }

    fn pointer(&mut self) -> *mut T {
        self.now.as_mut_ptr().wrapping_add(FENCE)
    }

    /// Lends these to be read.
    fn lend(&mut self, values: &[T]) -> (*const T, usize) {
        for side in [&mut self.now, &mut self.kept] {
            side[FENCE..FENCE + values.len()].copy_from_slice(values);
        }
        (self.pointer(), values.len())
    }

    /// All but the first `used` that are lent stand as they were.
    fn keeps_beyond(&self, used: usize) -> bool {
        self.now[..FENCE] == self.kept[..FENCE]
            && self.now.get(FENCE + used..) == self.kept.get(FENCE + used..)
    }

    /// The first `used` become what they were.
    fn mend(&mut self, used: usize) {
        let used = FENCE..FENCE + used;
        self.now[used.clone()].copy_from_slice(&self.kept[used]);
    }
}

impl Fenced<u64> {
    fn words(most: usize) -> Self {
        Fenced::new(most, |place| 0xa5a5_5a5a_c3c3_3c3c ^ place as u64)
    }
}

impl Fenced<u8> {
    fn bytes(most: usize) -> Self {
        Fenced::new(most, |place| 0xa5 ^ place as u8)
    }
}

pub struct Lent {
    words: Fenced<u64>,
    fds: Fenced<u64>,
    metadata: Fenced<u64>,
    bytes: Fenced<u8>,
    effects: Fenced<u64>,
    out: Fenced<u8>,
    status: Fenced<u64>,
    queue: Fenced<u64>,
}

fn array(words: &[u64]) -> &Words {
    words[FENCE..].first_chunk().expect("so many words")
}

fn so(is_so: bool, what: &str) -> Result<(), String> {
    is_so.then_some(()).ok_or_else(|| what.to_owned())
}

impl Lent {
    pub fn new() -> Lent {
        Lent {
            words: Fenced::words(WORDS),
            fds: Fenced::words(LIST),
            metadata: Fenced::words(LIST),
            bytes: Fenced::bytes(BYTES),
            effects: Fenced::words(EFFECT_WORDS),
            out: Fenced::bytes(OUT),
            status: Fenced::words(STATUS_WORDS),
            queue: Fenced::words(QUEUE_WORDS),
        }
    }

    /// The words that the next step is lent.
    pub fn before(&self) -> &Words {
        array(&self.words.kept)
    }

    /// The words after the last step.
    pub fn after(&self) -> &Words {
        array(&self.words.now)
    }

    /// The next step is lent these.
    pub fn set(&mut self, words: &Words) {
        self.words.lend(words);
    }

    /// The words become what they were before the step.
    pub fn restore(&mut self) {
        self.words.mend(WORDS);
    }

    fn lent(&mut self) -> *mut Words {
        self.words.pointer().cast()
    }

    fn generic(&mut self, payload: &Payload, is_std: bool) -> AnswerWords {
        let function = if is_std {
            ffi::tilgurap_translate_std_fs_call
        } else {
            ffi::tilgurap_call_generic
        };
        let (words, Payload { c, pid, .. }) = (self.lent(), payload);
        let (fds, fds_len) = self.fds.lend(&payload.fds);
        let (meta, meta_len) = self.metadata.lend(&payload.meta);
        let (base, len) = (payload.base, payload.len);
        // SAFETY: each pointer goes with its length.
        unsafe { function(words, fds, fds_len, meta, meta_len, *c, *pid, base, len).answer }
    }

    /// What Rust reads without a check: a reply's kind and the length of its list.
    fn woken(woken: WakeWords) -> Result<AnswerWords, String> {
        so(woken.reply.kind < 4, "the reply is of no kind")?;
        so(woken.fds.len <= 16, "the reply's list is too long")?;
        Ok(woken.answer)
    }

    fn read(&mut self, len: usize, flags: u32) -> Result<AnswerWords, String> {
        let (words, out) = (self.lent(), self.out.pointer());
        // SAFETY: the pointer goes with its length.
        let answer = unsafe { ffi::tilgurap_read(words, out, len, flags) };
        let stored = if answer.kind == 0 {
            answer.value as usize
        } else {
            0
        };
        so(stored <= len, "more was read than was lent")?;
        so(self.out.keeps_beyond(stored), "bytes beyond those read")?;
        self.out.mend(stored);
        Ok(answer)
    }

    fn write(&mut self, room: usize, bytes: &[u8]) -> Result<AnswerWords, String> {
        let (words, effects) = (self.lent(), self.effects.pointer());
        let (from, len) = self.bytes.lend(bytes);
        // SAFETY: each pointer goes with its length.
        let done = unsafe { ffi::tilgurap_write(words, effects, room, from, len) };
        so(done.words <= room, "more effects than were lent room")?;
        so(done.words % 3 == 0, "a part of an effect")?;
        let kept = self.effects.keeps_beyond(done.words);
        so(kept, "words beyond those of effects")?;
        self.effects.mend(done.words);
        Ok(done.answer)
    }

    /// Puts an event to the words; the message says what it has stored where it was lent nothing.
    pub fn put(&mut self, event: &Event) -> Result<AnswerWords, String> {
        let words = self.lent();
        // SAFETY: the words are there, and each pointer goes with its length.
        let answer = unsafe {
            match event {
                Event::Open { d } => ffi::tilgurap_open(words, *d).answer,
                Event::Copy { d } => ffi::tilgurap_copy(words, *d).answer,
                Event::Drop { d } => ffi::tilgurap_drop(words, *d).answer,
                Event::Put { d, h } => ffi::tilgurap_put(words, *d, *h).answer,
                Event::Ended { c } => ffi::tilgurap_ended(words, *c).answer,
                Event::Reserve { c } => ffi::tilgurap_next_id(words, *c).answer,
                Event::Submit {
                    tag,
                    c,
                    op,
                    fl,
                    args,
                    pid,
                    list,
                } => {
                    let (tag, args) = (Tag(*tag), Args(*args));
                    let (fds, len) = self.fds.lend(list);
                    ffi::tilgurap_submit(words, fds, len, tag, *c, *op, *fl, args, *pid).answer
                }
                Event::Call {
                    c,
                    op,
                    args,
                    uid,
                    gid,
                    pid,
                    list,
                } => {
                    let args = Args(*args);
                    let (fds, len) = self.fds.lend(list);
                    ffi::tilgurap_call(words, fds, len, *c, *op, args, *uid, *gid, *pid).answer
                }
                Event::Generic(payload) => self.generic(payload, false),
                Event::Stdfs(payload) => self.generic(payload, true),
                Event::Fmap {
                    c,
                    id,
                    pages,
                    flags,
                    uid,
                    gid,
                    pid,
                } => {
                    ffi::tilgurap_request_fmap(words, *c, *id, *pages, *flags, *uid, *gid, *pid)
                        .answer
                }
                Event::Close { id } => ffi::tilgurap_close(words, *id).answer,
                Event::Detach { id, pid } => ffi::tilgurap_detach(words, *id, *pid).answer,
                Event::Wake {
                    tag,
                    c,
                    killed,
                    base,
                    count,
                } => {
                    let tag = Tag(*tag);
                    Lent::woken(ffi::tilgurap_wake(words, tag, *c, *killed, *base, *count))?
                }
                Event::Read { len, flags } => self.read(*len as usize, *flags)?,
                Event::Write { words, bytes } => self.write(*words as usize, bytes)?,
                Event::Move { meta, list } => {
                    let (metadata, metadata_len) = self.metadata.lend(meta);
                    let (fds, len) = self.fds.lend(list);
                    ffi::tilgurap_call_fdwrite(words, metadata, metadata_len, fds, len).answer
                }
                Event::Obtain { meta } => {
                    let (metadata, len) = self.metadata.lend(meta);
                    ffi::tilgurap_call_fdread(words, metadata, len).answer
                }
                Event::Supply {
                    tag,
                    offset,
                    base,
                    count,
                } => ffi::tilgurap_provide_mmap(words, Tag(*tag), *offset, *base, *count).answer,
                Event::Fdwrite { call, list } => {
                    let (fds, fds_len) = self.fds.lend(list);
                    let (meta, len) = self.metadata.lend(&call.meta);
                    ffi::tilgurap_kfdwrite(
                        words,
                        fds,
                        fds_len,
                        meta,
                        len,
                        call.c,
                        call.number,
                        call.flags,
                        call.uid,
                        call.gid,
                        call.pid,
                    )
                    .answer
                }
                Event::Fdread { call, len: payload } => {
                    let (meta, len) = self.metadata.lend(&call.meta);
                    ffi::tilgurap_kfdread(
                        words,
                        meta,
                        len,
                        call.c,
                        call.number,
                        *payload,
                        call.flags,
                        call.uid,
                        call.gid,
                        call.pid,
                    )
                    .answer
                }
                Event::Front { .. } => unreachable!("it is lent no words"),
                Event::Status => unreachable!("it changes no words"),
            }
        };
        let around = self.words.keeps_beyond(WORDS);
        so(around, "stored around the state's words")?;
        so(self.fds.keeps_beyond(0), "the list or what is around it")?;
        let metadata = self.metadata.keeps_beyond(0);
        so(metadata, "the metadata or what is around them")?;
        let bytes = self.bytes.keeps_beyond(0);
        so(bytes, "the written bytes or what is around them")?;
        Ok(answer)
    }

    /// The words looked at as a status and as a struct, and stored again from that.
    pub fn look(&mut self) -> Result<(), String> {
        let (words, queue) = (self.lent(), self.queue.pointer().cast::<QueueWords>());
        let status = self.status.pointer().cast::<[u64; STATUS_WORDS]>();
        // SAFETY: the arrays are there, those of the queue and the status to be written.
        let (state, status) = unsafe {
            ffi::tilgurap_status(words, status);
            (ffi::tilgurap_plain(words, queue), *status)
        };
        so(self.words.keeps_beyond(0), "the words are only looked at")?;
        so(
            self.status.keeps_beyond(STATUS_WORDS),
            "stored around the status",
        )?;
        let around = self.queue.keeps_beyond(QUEUE_WORDS);
        so(around, "stored around the queue's words")?;
        let is_abandoned = |slot: &ffi::Slot| slot.ended || slot.returned;
        let tests: [&dyn Fn(&ffi::Slot) -> bool; STATUS_WORDS / 2] = [
            &|slot| slot.state == 1,
            &|slot| slot.state == 2 && !is_abandoned(slot),
            &|slot| slot.state == 3,
            &|slot| slot.state == 4,
            &|slot| slot.state == 2 && is_abandoned(slot),
        ];
        for (told, passes) in status.chunks_exact(2).zip(tests) {
            let slots = (0..64).filter(|tag| passes(&state.table.slots[*tag]));
            let word = slots.fold(0_u64, |word, tag| word | 1 << tag);
            let counted = [word, u64::from(word.count_ones())];
            so(told == counted, "the status is not the slots'")?;
        }

        // SAFETY: the words are there to be written, the queue's to be read and then to be written.
        unsafe {
            ffi::tilgurap_packed(state, queue, words);
            let packed = *words;
            // where each word was another before, each is stored again
            *words = packed.map(|word| !word);
            ffi::tilgurap_packed(state, queue, words);
            so(*words == packed, "packed, and not every word is stored")?;
            let queued = *queue;
            let again = ffi::tilgurap_plain(words, queue);
            let same = again == state && *queue == queued;
            so(same, "packed and read again the state is another")?;
        }
        let around = self.words.keeps_beyond(WORDS);
        so(around, "stored around the state's words")?;
        self.restore();
        self.status.mend(STATUS_WORDS);
        self.queue.mend(QUEUE_WORDS);
        Ok(())
    }
}
