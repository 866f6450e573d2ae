//! A script for the kernel, and beside it what another says to each of its requests. The kernel runs the script;
//! every byte of its replies, and every byte of its rooms that no call should write, is held against the other's.
use oracle::text::hex;
use saltbobbin::{
    c,
    script::{Operation, Reply, Request, Script, REPLY_HEAD, REQUEST_HEAD},
};
use std::{fmt, hint::black_box};

/// So many bytes stand before the answers and behind them, and must stay.
const GUARD: usize = 40;

/// The answers have so many bytes behind the replies, which must stay too.
const BEHIND: usize = 40;

/// What one says to a request: the two values or the refusal, and the bytes at the front of the two rooms.
#[derive(Clone, Debug, Default, PartialEq, Eq)]
pub struct Said {
    /// 0, or the refusal's number.
    pub number: u8,
    /// The first value, or what is beside the number.
    pub first: usize,
    pub second: usize,
    pub room: Vec<u8>,
    pub other_room: Vec<u8>,
}

impl Said {
    pub fn value(first: usize) -> Said {
        Said { first, ..Said::default() }
    }

    pub fn refused(number: u8, beside: usize) -> Said {
        Said { number, first: beside, ..Said::default() }
    }

    /// Keys or digests, one behind the other, and their count.
    pub fn list(items: &[[u8; 32]]) -> Said {
        Said { first: items.len(), room: items.concat(), ..Said::default() }
    }

    /// Digests of delegations, then of revocations, with a count for each.
    pub fn lists(delegations: &[[u8; 32]], revocations: &[[u8; 32]]) -> Said {
        let room = [delegations.concat(), revocations.concat()].concat();
        Said { first: delegations.len(), second: revocations.len(), room, ..Said::default() }
    }

    /// A certificate that is held.
    pub fn held(issuer: &[u8], content: &[u8]) -> Said {
        let (room, other_room) = (issuer.to_vec(), content.to_vec());
        Said { number: 0, first: 1, second: content.len(), room, other_room }
    }
}

/// What stands in the answers before the kernel writes them: no two neighbours alike, so that a byte that moved
/// shows.
fn sentinel(at: usize) -> u8 {
    (at as u8).wrapping_mul(37) ^ 0xa5
}

pub fn sentinels(count: usize) -> Vec<u8> {
    (0..count).map(sentinel).collect()
}

/// Two replies that should be the same, or what else went wrong.
#[derive(Clone, Debug)]
pub struct Difference {
    /// Which request it is, from 0, and what it asks.
    pub asked: String,
    pub kernel: String,
    pub other: String,
}

impl fmt::Display for Difference {
    fn fmt(&self, f: &mut fmt::Formatter<'_>) -> fmt::Result {
        let Difference { asked, kernel, other } = self;
        write!(f, "asked: {asked}\n  the kernel: {kernel}\n  the other:  {other}")
    }
}

/// Requests with what another says to each.
#[derive(Default)]
pub struct Dialogue {
    pub script: Script,
    /// The answers as the other has them.
    expected: Vec<u8>,
    /// Where each request begins in the script, and its reply in the answers.
    places: Vec<(usize, usize)>,
}

impl Dialogue {
    pub fn new() -> Dialogue {
        Dialogue::default()
    }

    pub fn len(&self) -> usize {
        self.places.len()
    }

    pub fn is_empty(&self) -> bool {
        self.places.is_empty()
    }

    /// Where each request begins in the script.
    pub fn starts(&self) -> Vec<usize> {
        self.places.iter().map(|(start, _)| *start).collect()
    }

    pub fn say(&mut self, request: &Request<'_>, said: Said) {
        self.places.push((self.script.bytes().len(), self.expected.len()));
        self.script.push(*request).expect("an argument that a request can hold");
        let end = self.expected.len() + request.reply_length();
        let out = &mut self.expected;
        out.push(said.number);
        out.extend((said.first as u32).to_le_bytes());
        out.extend((said.second as u32).to_le_bytes());
        out.extend(&said.room);
        let untouched = end - usize::from(request.other_room);
        assert!(out.len() <= untouched, "the other writes past the first room: {}", shown(request));
        out.extend((out.len()..untouched).map(sentinel));
        out.extend(&said.other_room);
        assert!(out.len() <= end, "the other writes past the second room: {}", shown(request));
        out.resize(end, 0);
    }

    /// Has the kernel run the script, and compares.
    pub fn compare(&self) -> Result<(), Difference> {
        let length = self.expected.len();
        let mut area = vec![0xb5; GUARD];
        area.extend(sentinels(length + BEHIND));
        area.extend([0xb5; GUARD]);
        let ran = c::run(self.script.bytes(), &mut area[GUARD..GUARD + length + BEHIND]);
        black_box(&mut area); // the guards are looked at again, not remembered
        if ran != (c::Ran { number: 0, used: length, beside: 0 }) {
            let other = format!("0, {length} bytes used");
            return Err(Difference { asked: "the whole script".into(), kernel: format!("{ran:?}"), other });
        }
        let (before, rest) = area.split_at(GUARD);
        let (answers, rest) = rest.split_at(length);
        let (behind, guard) = rest.split_at(BEHIND);
        if answers != self.expected {
            return Err(self.first_difference(answers));
        }
        let guarded = [before, guard].concat().iter().all(|byte| *byte == 0xb5);
        if !guarded || behind.iter().enumerate().any(|(i, byte)| *byte != sentinel(length + i)) {
            let (asked, other) = ("the bytes around the replies".into(), "as they were".into());
            return Err(Difference { asked, kernel: "changed".into(), other });
        }
        Ok(())
    }

    fn first_difference(&self, answers: &[u8]) -> Difference {
        let at = (0..answers.len()).find(|i| answers[*i] != self.expected[*i]).expect("a difference");
        let index = self.places.partition_point(|(_, reply)| *reply <= at) - 1;
        let (start, reply) = self.places[index];
        let end = self.places.get(index + 1).map_or(answers.len(), |(_, next)| *next);
        let request = read(&self.script.bytes()[start..]);
        let show = |answers: &[u8]| show_reply(&answers[reply..end], &request, reply);
        let asked = format!("request {index}, {}", shown(&request));
        Difference { asked, kernel: show(answers), other: show(&self.expected) }
    }
}

/// The request at the front of a script.
fn read(script: &[u8]) -> Request<'_> {
    let number = |at: usize| u16::from_le_bytes([script[at], script[at + 1]]);
    let mut rest = &script[REQUEST_HEAD..];
    let arguments = [1, 3, 5].map(|at| {
        let (argument, behind) = rest.split_at(number(at).into());
        rest = behind;
        argument
    });
    Request { operation: script[0], arguments, room: number(7), other_room: script[9] }
}

/// A request in words.
pub fn shown(request: &Request<'_>) -> String {
    let name = Operation::from_byte(request.operation).map_or("none".into(), |what| format!("{what:?}"));
    let arguments = request.arguments.iter().filter(|argument| !argument.is_empty());
    let arguments: Vec<String> = arguments.map(|argument| hex(argument)).collect();
    format!("{name} of [{}], rooms {} and {}", arguments.join(" "), request.room, request.other_room)
}

/// A reply in words. What stands in the first room beyond what was written is left out.
fn show_reply(reply: &[u8], request: &Request<'_>, at: usize) -> String {
    let said = Reply::read(reply, request.room.into());
    let room = at + REPLY_HEAD;
    let kept =
        said.room.iter().enumerate().rev().take_while(|(i, byte)| **byte == sentinel(room + i)).count();
    let written = said.room.len() - kept;
    let (first, second) = (hex(&said.room[..written]), hex(said.other_room));
    format!("{}, {} and {}, rooms [{first}] and [{second}]", said.number, said.first, said.second)
}
