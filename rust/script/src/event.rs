//! The events, each with its line of text.

use std::fmt::{self, Display, Formatter};

use crate::fields::{Fields, hex};
use crate::output::Reply;

/// What `generic` and `stdfs` carry: the fds, the captured payload's address and length, the
/// metadata words.
#[derive(Clone, Debug, PartialEq, Eq)]
pub struct Payload {
    pub c: u32,
    pub pid: u64,
    pub fds: Vec<u64>,
    pub base: u64,
    pub len: u64,
    pub meta: Vec<u64>,
}

/// What `fdwrite` and `fdread` carry beside a list or a length: the file's number, the call's flags,
/// the metadata words, and who asks.
#[derive(Clone, Debug, PartialEq, Eq)]
pub struct FdCall {
    pub c: u32,
    pub number: u64,
    pub flags: u64,
    pub meta: Vec<u64>,
    pub uid: u32,
    pub gid: u32,
    pub pid: u64,
}

/// The calls whose reading of a reply the line `front` asks for.
#[derive(Clone, Copy, Debug, PartialEq, Eq)]
pub enum Form {
    Fdwrite,
    Fdread,
}

impl Form {
    /// Its word on a line.
    pub fn name(self) -> &'static str {
        match self {
            Form::Fdwrite => "fdwrite",
            Form::Fdread => "fdread",
        }
    }
}

/// One event. `d` is a description, `h` a handle, `c` a caller, `list` a list of descriptions.
#[derive(Clone, Debug, PartialEq, Eq)]
pub enum Event {
    Open {
        d: u64,
    },
    Copy {
        d: u64,
    },
    Drop {
        d: u64,
    },
    Put {
        d: u64,
        h: u64,
    },
    Ended {
        c: u32,
    },
    Reserve {
        c: u32,
    },
    Submit {
        tag: u64,
        c: u32,
        op: u64,
        fl: u8,
        args: [u64; 6],
        pid: u64,
        list: Vec<u64>,
    },
    Call {
        c: u32,
        op: u64,
        args: [u64; 6],
        uid: u32,
        gid: u32,
        pid: u64,
        list: Vec<u64>,
    },
    Generic(Payload),
    Stdfs(Payload),
    Fmap {
        c: u32,
        id: u64,
        pages: u64,
        flags: u64,
        uid: u32,
        gid: u32,
        pid: u64,
    },
    Close {
        id: u64,
    },
    Detach {
        id: u64,
        pid: u64,
    },
    Wake {
        tag: u64,
        c: u32,
        killed: u64,
        base: u64,
        count: u64,
    },
    Read {
        len: u64,
        flags: u32,
    },
    Write {
        words: u64,
        bytes: Vec<u8>,
    },
    Move {
        meta: Vec<u64>,
        list: Vec<u64>,
    },
    Obtain {
        meta: Vec<u64>,
    },
    Supply {
        tag: u64,
        offset: u64,
        base: u64,
        count: u64,
    },
    Fdwrite {
        call: FdCall,
        list: Vec<u64>,
    },
    Fdread {
        call: FdCall,
        len: u64,
    },
    /// How a call of that form reads a reply: a question that has no state, and no event of a run.
    Front {
        form: Form,
        reply: Reply,
    },
    /// The status words as they are: a question that leaves the state alone, and no event of a run.
    Status,
}

fn form(f: &mut Fields) -> Result<Form, String> {
    let word = f.word("FORM")?;
    [Form::Fdwrite, Form::Fdread]
        .into_iter()
        .find(|form| form.name() == word)
        .ok_or_else(|| format!("field FORM: `{word}` is not `fdwrite` or `fdread`"))
}

/// A reply that a wake can hand over: a longer list is none.
fn handed_over(f: &mut Fields) -> Result<Reply, String> {
    match Reply::parse(f)? {
        Reply::Many(list) if list.len() > Reply::MOST => Err(format!(
            "field K: {} is over {}, the most that a reply hands over",
            list.len(),
            Reply::MOST
        )),
        reply => Ok(reply),
    }
}

fn payload(f: &mut Fields) -> Result<Payload, String> {
    Ok(Payload {
        c: f.u32("C")?,
        pid: f.u64("PID")?,
        fds: f.list("NF", "F")?,
        base: f.u64("BASE")?,
        len: f.u64("LEN")?,
        meta: f.list("NM", "M")?,
    })
}

/// The fields that `fdwrite` and `fdread` share; what one of them has behind the number is read there.
fn fd_call<T>(
    f: &mut Fields,
    behind_number: impl FnOnce(&mut Fields) -> Result<T, String>,
) -> Result<(FdCall, T), String> {
    let (c, number) = (f.u32("C")?, f.u64("NUMBER")?);
    let behind = behind_number(f)?;
    let call = FdCall {
        c,
        number,
        flags: f.u64("FLAGS")?,
        meta: f.list("NM", "M")?,
        uid: f.u32("UID")?,
        gid: f.u32("GID")?,
        pid: f.u64("PID")?,
    };
    Ok((call, behind))
}

impl Event {
    /// The event that a line says; the message says what is wrong with it.
    pub fn parse(line: &str) -> Result<Event, String> {
        let f = &mut Fields::new(line);
        let event = match f.word("EVENT")? {
            "open" => Event::Open { d: f.u64("D")? },
            "copy" => Event::Copy { d: f.u64("D")? },
            "drop" => Event::Drop { d: f.u64("D")? },
            "put" => Event::Put {
                d: f.u64("D")?,
                h: f.u64("H")?,
            },
            "ended" => Event::Ended { c: f.u32("C")? },
            "reserve" => Event::Reserve { c: f.u32("C")? },
            "submit" => Event::Submit {
                tag: f.u64("TAG")?,
                c: f.u32("C")?,
                op: f.u64("OP")?,
                fl: f.u8("FL")?,
                args: f.array("A")?,
                pid: f.u64("PID")?,
                list: f.list("L", "D")?,
            },
            "call" => Event::Call {
                c: f.u32("C")?,
                op: f.u64("OP")?,
                args: f.array("A")?,
                uid: f.u32("UID")?,
                gid: f.u32("GID")?,
                pid: f.u64("PID")?,
                list: f.list("L", "D")?,
            },
            "generic" => Event::Generic(payload(f)?),
            "stdfs" => Event::Stdfs(payload(f)?),
            "fmap" => Event::Fmap {
                c: f.u32("C")?,
                id: f.u64("ID")?,
                pages: f.u64("PAGES")?,
                flags: f.u64("MAPFLAGS")?,
                uid: f.u32("UID")?,
                gid: f.u32("GID")?,
                pid: f.u64("PID")?,
            },
            "close" => Event::Close { id: f.u64("ID")? },
            "detach" => Event::Detach {
                id: f.u64("ID")?,
                pid: f.u64("PID")?,
            },
            "wake" => Event::Wake {
                tag: f.u64("TAG")?,
                c: f.u32("C")?,
                killed: f.u64("KILLED")?,
                base: f.u64("BASE")?,
                count: f.u64("COUNT")?,
            },
            "read" => Event::Read {
                len: f.u64("LEN")?,
                flags: f.u32("FLAGS")?,
            },
            "write" => Event::Write {
                words: f.u64("WORDS")?,
                bytes: f.hex("HEX")?,
            },
            "move" => Event::Move {
                meta: f.list("NM", "M")?,
                list: f.list("L", "D")?,
            },
            "obtain" => Event::Obtain {
                meta: f.list("NM", "M")?,
            },
            "supply" => Event::Supply {
                tag: f.u64("TAG")?,
                offset: f.u64("OFFSET")?,
                base: f.u64("BASE")?,
                count: f.u64("COUNT")?,
            },
            "fdwrite" => Event::Fdwrite {
                call: fd_call(f, |_| Ok(()))?.0,
                list: f.list("L", "D")?,
            },
            "fdread" => {
                let (call, len) = fd_call(f, |f| f.u64("LENGTH"))?;
                Event::Fdread { call, len }
            }
            "front" => Event::Front {
                form: form(f)?,
                reply: handed_over(f)?,
            },
            "status" => Event::Status,
            other => return Err(format!("unknown event `{other}`")),
        };
        f.end()?;
        Ok(event)
    }
}

impl Event {
    /// The word that an event's line begins with.
    pub fn name(&self) -> &'static str {
        match self {
            Event::Open { .. } => "open",
            Event::Copy { .. } => "copy",
            Event::Drop { .. } => "drop",
            Event::Put { .. } => "put",
            Event::Ended { .. } => "ended",
            Event::Reserve { .. } => "reserve",
            Event::Submit { .. } => "submit",
            Event::Call { .. } => "call",
            Event::Generic(_) => "generic",
            Event::Stdfs(_) => "stdfs",
            Event::Fmap { .. } => "fmap",
            Event::Close { .. } => "close",
            Event::Detach { .. } => "detach",
            Event::Wake { .. } => "wake",
            Event::Read { .. } => "read",
            Event::Write { .. } => "write",
            Event::Move { .. } => "move",
            Event::Obtain { .. } => "obtain",
            Event::Supply { .. } => "supply",
            Event::Fdwrite { .. } => "fdwrite",
            Event::Fdread { .. } => "fdread",
            Event::Front { .. } => "front",
            Event::Status => "status",
        }
    }

    /// The caller of an event that answers a tag: it gives a slot out, or makes a call of a reserved one.
    pub fn caller_of_tag(&self) -> Option<u32> {
        match self {
            Event::Reserve { c }
            | Event::Submit { c, .. }
            | Event::Call { c, .. }
            | Event::Fmap { c, .. } => Some(*c),
            Event::Generic(payload) | Event::Stdfs(payload) => Some(payload.c),
            Event::Fdwrite { call, .. } | Event::Fdread { call, .. } => Some(call.c),
            _ => None,
        }
    }

    /// Whether it is an event of a run, which has a record and may change the state.
    pub fn is_of_a_run(&self) -> bool {
        !matches!(self, Event::Front { .. } | Event::Status)
    }

    /// The fields of its line in order, each with the name that docs/JSON.md lists.
    pub fn fields(&self) -> Vec<(&'static str, Value<'_>)> {
        use Value::{Bytes, List, Number, Six, Word};
        let number = |name, number: u32| (name, Number(u64::from(number)));
        match self {
            Event::Open { d } | Event::Copy { d } | Event::Drop { d } => {
                vec![("description", Number(*d))]
            }
            Event::Put { d, h } => vec![("description", Number(*d)), ("handle", Number(*h))],
            Event::Ended { c } | Event::Reserve { c } => vec![number("caller", *c)],
            Event::Submit {
                tag,
                c,
                op,
                fl,
                args,
                pid,
                list,
            } => vec![
                ("tag", Number(*tag)),
                number("caller", *c),
                ("opcode", Number(*op)),
                ("flags", Number(u64::from(*fl))),
                ("arguments", Six(args)),
                ("pid", Number(*pid)),
                ("descriptions", List(list)),
            ],
            Event::Call {
                c,
                op,
                args,
                uid,
                gid,
                pid,
                list,
            } => vec![
                number("caller", *c),
                ("opcode", Number(*op)),
                ("arguments", Six(args)),
                number("uid", *uid),
                number("gid", *gid),
                ("pid", Number(*pid)),
                ("descriptions", List(list)),
            ],
            Event::Generic(payload) | Event::Stdfs(payload) => vec![
                number("caller", payload.c),
                ("pid", Number(payload.pid)),
                ("fds", List(&payload.fds)),
                ("base", Number(payload.base)),
                ("length", Number(payload.len)),
                ("metadata", List(&payload.meta)),
            ],
            Event::Fmap {
                c,
                id,
                pages,
                flags,
                uid,
                gid,
                pid,
            } => vec![
                number("caller", *c),
                ("id", Number(*id)),
                ("pages", Number(*pages)),
                ("flags", Number(*flags)),
                number("uid", *uid),
                number("gid", *gid),
                ("pid", Number(*pid)),
            ],
            Event::Close { id } => vec![("id", Number(*id))],
            Event::Detach { id, pid } => vec![("id", Number(*id)), ("pid", Number(*pid))],
            Event::Wake {
                tag,
                c,
                killed,
                base,
                count,
            } => vec![
                ("tag", Number(*tag)),
                number("caller", *c),
                ("killed", Number(*killed)),
                ("base", Number(*base)),
                ("count", Number(*count)),
            ],
            Event::Read { len, flags } => vec![("length", Number(*len)), number("flags", *flags)],
            Event::Write { words, bytes } => {
                vec![("words", Number(*words)), ("bytes", Bytes(bytes))]
            }
            Event::Move { meta, list } => {
                vec![("metadata", List(meta)), ("descriptions", List(list))]
            }
            Event::Obtain { meta } => vec![("metadata", List(meta))],
            Event::Supply {
                tag,
                offset,
                base,
                count,
            } => vec![
                ("tag", Number(*tag)),
                ("offset", Number(*offset)),
                ("base", Number(*base)),
                ("count", Number(*count)),
            ],
            Event::Fdwrite { call, list } => {
                let mut fields = vec![number("caller", call.c), ("number", Number(call.number))];
                fields.extend(call.said());
                fields.push(("descriptions", List(list)));
                fields
            }
            Event::Fdread { call, len } => {
                let mut fields = vec![number("caller", call.c), ("number", Number(call.number))];
                fields.push(("length", Number(*len)));
                fields.extend(call.said());
                fields
            }
            Event::Front { form, reply } => {
                vec![("form", Word(form.name())), ("reply", Value::Reply(reply))]
            }
            Event::Status => Vec::new(),
        }
    }
}

impl FdCall {
    /// Its fields from the flags on.
    fn said(&self) -> [(&'static str, Value<'_>); 5] {
        [
            ("flags", Value::Number(self.flags)),
            ("metadata", Value::List(&self.meta)),
            ("uid", Value::Number(u64::from(self.uid))),
            ("gid", Value::Number(u64::from(self.gid))),
            ("pid", Value::Number(self.pid)),
        ]
    }
}

/// What a field of an event holds. It prints as on the event's line, each part after a space.
#[derive(Clone, Copy, Debug, PartialEq, Eq)]
pub enum Value<'a> {
    /// One number.
    Number(u64),
    /// The six arguments of a call.
    Six(&'a [u64; 6]),
    /// Numbers behind their count.
    List(&'a [u64]),
    /// Bytes in hex.
    Bytes(&'a [u8]),
    /// A word of the script's.
    Word(&'static str),
    /// A reply as a wake hands it over.
    Reply(&'a Reply),
}

impl Display for Value<'_> {
    fn fmt(&self, f: &mut Formatter) -> fmt::Result {
        let after_a_space = |f: &mut Formatter, numbers: &[u64]| {
            numbers.iter().try_for_each(|number| write!(f, " {number}"))
        };
        match self {
            Value::Number(number) => write!(f, " {number}"),
            Value::Six(arguments) => after_a_space(f, *arguments),
            Value::List(list) => {
                write!(f, " {}", list.len())?;
                after_a_space(f, list)
            }
            Value::Bytes(bytes) => write!(f, " {}", hex(bytes)),
            Value::Word(word) => write!(f, " {word}"),
            Value::Reply(reply) => write!(f, " {reply}"),
        }
    }
}

impl Display for Event {
    fn fmt(&self, f: &mut Formatter) -> fmt::Result {
        write!(f, "{}", self.name())?;
        let mut fields = self.fields().into_iter();
        fields.try_for_each(|(_, value)| write!(f, "{value}"))
    }
}
