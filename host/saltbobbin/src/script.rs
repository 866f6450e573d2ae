//! Scripts: the whole kernel in one call. A script is requests one behind the other; the kernel starts from the
//! empty set, performs them in turn and gives a reply for each. docs/SCRIPT.md in the repository has the bytes.
//!
//! [`Kernel`](crate::Kernel) is made of this and is what an app wants. Here every request can be put as it
//! comes, with arguments and rooms of any size, so that each refusal can be seen.
//!
//! ```
//! use saltbobbin::{script::{Request, Script}, Refusal};
//!
//! let (s, b) = ([1; 32], [2; 32]);
//! let payload = [&b[..], &s, b"E\0"].concat(); // audience, subject, Edit, no citation
//! let mut script = Script::new();
//! script.push(Request::insert_delegation(&[0xd1; 32], &s, &payload))?;
//! script.push(Request::evaluate())?;
//! script.push(Request::effective_power(&s, &b))?;
//! script.push(Request::subjects(31))?; // one key is listed, in too small a room
//! let replies = script.run()?;
//! let values: Vec<u32> = replies.iter().map(|reply| reply.first).collect();
//! assert_eq!(values, [1, 0, b'E'.into(), 32]);
//! assert_eq!(replies.get(3).refusal(), Some(Refusal::SmallBuffer(32)));
//! # Ok::<(), Refusal>(())
//! ```
use crate::{c, Refusal};

/// The bytes of a request before its arguments.
pub const REQUEST_HEAD: usize = 10;

/// The bytes of a reply before its rooms.
pub const REPLY_HEAD: usize = 9;

/// The longest script.
pub const MOST_SCRIPT: usize = 16_777_216;

/// What a request asks. The numbers are those of docs/SCRIPT.md.
#[derive(Clone, Copy, Debug, PartialEq, Eq, Hash)]
#[repr(u8)]
pub enum Operation {
    /// A new, empty set.
    New = 0,
    /// Takes digest, issuer and payload.
    InsertDelegation = 1,
    /// Takes digest, issuer and revoked digest.
    InsertRevocation = 2,
    /// The questions from `PositivePower` on are about the set as it was at the last one.
    Evaluate = 3,
    /// How many certificates were added.
    Version = 16,
    /// How many are held.
    Len = 17,
    /// Whether none is.
    IsEmpty = 18,
    /// Takes a digest.
    ContainsDelegation = 19,
    /// Takes a digest.
    ContainsRevocation = 20,
    /// Takes a digest; rooms for the issuer and the payload.
    Delegation = 21,
    /// Takes a digest; rooms for the issuer and the revoked digest.
    Revocation = 22,
    /// Room for keys.
    Subjects = 23,
    /// Takes the digest of a delegation; room for digests.
    RevocationsOf = 24,
    /// Takes subject and audience; room for digests.
    DelegationsTo = 25,
    /// Room for digests.
    Certificates = 26,
    /// Takes subject and audience.
    PositivePower = 32,
    /// Takes subject and audience.
    EffectivePower = 33,
    /// Takes a subject; rooms for keys and for power bytes.
    Members = 34,
    /// Takes a digest.
    IsLive = 35,
    /// Takes a digest.
    ConveyedPower = 36,
    /// Takes a digest.
    Standing = 37,
    /// Takes a subject; room for digests.
    Closure = 38,
}

use Operation::*;

impl Operation {
    /// Every operation, by number.
    pub const ALL: [Operation; 22] = [
        New,
        InsertDelegation,
        InsertRevocation,
        Evaluate,
        Version,
        Len,
        IsEmpty,
        ContainsDelegation,
        ContainsRevocation,
        Delegation,
        Revocation,
        Subjects,
        RevocationsOf,
        DelegationsTo,
        Certificates,
        PositivePower,
        EffectivePower,
        Members,
        IsLive,
        ConveyedPower,
        Standing,
        Closure,
    ];

    /// The byte that a request begins with.
    pub const fn byte(self) -> u8 {
        self as u8
    }

    /// The operation that a byte asks for, where it asks for one.
    pub fn from_byte(byte: u8) -> Option<Operation> {
        Operation::ALL.into_iter().find(|operation| operation.byte() == byte)
    }

    /// Whether the answer is about the set as it was at the last `Evaluate`.
    pub const fn is_of_evaluated(self) -> bool {
        self.byte() >= PositivePower.byte()
    }
}

/// A request. Any operation byte, any arguments and any rooms may be put: what is wrong with them is for the
/// kernel to say.
#[derive(Clone, Copy, Debug, PartialEq, Eq, Hash)]
pub struct Request<'a> {
    /// The operation's byte.
    pub operation: u8,
    /// The arguments. Those that the operation does not have are read over.
    pub arguments: [&'a [u8]; 3],
    /// The size of the first room.
    pub room: u16,
    /// The size of the second room.
    pub other_room: u8,
}

impl<'a> Request<'a> {
    const fn of(operation: Operation, arguments: [&'a [u8]; 3], room: u16, other_room: u8) -> Self {
        Request { operation: operation.byte(), arguments, room, other_room }
    }

    /// Empties the set.
    pub const fn fresh() -> Self {
        Request::of(New, [&[]; 3], 0, 0)
    }

    /// Replies 1 if the delegation is added, 0 if it is held already.
    pub const fn insert_delegation(digest: &'a [u8], issuer: &'a [u8], payload: &'a [u8]) -> Self {
        Request::of(InsertDelegation, [digest, issuer, payload], 0, 0)
    }

    /// Replies 1 if the revocation is added, 0 if it is held already.
    pub const fn insert_revocation(digest: &'a [u8], issuer: &'a [u8], revoked: &'a [u8]) -> Self {
        Request::of(InsertRevocation, [digest, issuer, revoked], 0, 0)
    }

    /// Before the requests from [`positive_power`](Request::positive_power) on, and after insertions that they
    /// are to see.
    pub const fn evaluate() -> Self {
        Request::of(Evaluate, [&[]; 3], 0, 0)
    }

    /// How many certificates were added.
    pub const fn version() -> Self {
        Request::of(Version, [&[]; 3], 0, 0)
    }

    /// How many are held.
    pub const fn len() -> Self {
        Request::of(Len, [&[]; 3], 0, 0)
    }

    /// Replies 1 or 0.
    pub const fn is_empty() -> Self {
        Request::of(IsEmpty, [&[]; 3], 0, 0)
    }

    /// Replies 1 or 0.
    pub const fn contains_delegation(digest: &'a [u8]) -> Self {
        Request::of(ContainsDelegation, [digest, &[], &[]], 0, 0)
    }

    /// Replies 1 or 0.
    pub const fn contains_revocation(digest: &'a [u8]) -> Self {
        Request::of(ContainsRevocation, [digest, &[], &[]], 0, 0)
    }

    /// Replies 1 with the issuer and the payload in the rooms, or 0.
    pub const fn delegation(digest: &'a [u8], issuer: u16, payload: u8) -> Self {
        Request::of(Delegation, [digest, &[], &[]], issuer, payload)
    }

    /// Replies 1 with the issuer and the revoked digest in the rooms, or 0.
    pub const fn revocation(digest: &'a [u8], issuer: u16, revoked: u8) -> Self {
        Request::of(Revocation, [digest, &[], &[]], issuer, revoked)
    }

    /// Replies how many keys are in the room.
    pub const fn subjects(room: u16) -> Self {
        Request::of(Subjects, [&[]; 3], room, 0)
    }

    /// Replies how many digests are in the room.
    pub const fn revocations_of(digest: &'a [u8], room: u16) -> Self {
        Request::of(RevocationsOf, [digest, &[], &[]], room, 0)
    }

    /// Replies how many digests are in the room.
    pub const fn delegations_to(subject: &'a [u8], audience: &'a [u8], room: u16) -> Self {
        Request::of(DelegationsTo, [subject, audience, &[]], room, 0)
    }

    /// Replies how many digests of delegations and then of revocations are in the room.
    pub const fn certificates(room: u16) -> Self {
        Request::of(Certificates, [&[]; 3], room, 0)
    }

    /// Replies the power byte, or 0.
    pub const fn positive_power(subject: &'a [u8], audience: &'a [u8]) -> Self {
        Request::of(PositivePower, [subject, audience, &[]], 0, 0)
    }

    /// Replies the power byte, or 0.
    pub const fn effective_power(subject: &'a [u8], audience: &'a [u8]) -> Self {
        Request::of(EffectivePower, [subject, audience, &[]], 0, 0)
    }

    /// Replies how many keys are in the first room, and their power bytes in the second.
    pub const fn members(subject: &'a [u8], keys: u16, powers: u8) -> Self {
        Request::of(Members, [subject, &[], &[]], keys, powers)
    }

    /// Replies 1 or 0.
    pub const fn is_live(digest: &'a [u8]) -> Self {
        Request::of(IsLive, [digest, &[], &[]], 0, 0)
    }

    /// Replies the power byte, or 0.
    pub const fn conveyed_power(digest: &'a [u8]) -> Self {
        Request::of(ConveyedPower, [digest, &[], &[]], 0, 0)
    }

    /// Replies 0 absent, 1 live, 2 revoked, 3 unsupported.
    pub const fn standing(digest: &'a [u8]) -> Self {
        Request::of(Standing, [digest, &[], &[]], 0, 0)
    }

    /// Replies how many digests of delegations and then of revocations are in the room.
    pub const fn closure(subject: &'a [u8], room: u16) -> Self {
        Request::of(Closure, [subject, &[], &[]], room, 0)
    }

    /// The bytes of the request.
    pub fn length(&self) -> usize {
        REQUEST_HEAD + self.arguments.iter().map(|argument| argument.len()).sum::<usize>()
    }

    /// The bytes of its reply.
    pub fn reply_length(&self) -> usize {
        REPLY_HEAD + usize::from(self.room) + usize::from(self.other_room)
    }
}

/// Requests one behind the other, as bytes.
#[derive(Clone, Debug, Default, PartialEq, Eq)]
pub struct Script {
    bytes: Vec<u8>,
    /// The rooms of each request.
    rooms: Vec<(u16, u8)>,
    /// The bytes of all replies.
    answers: usize,
}

impl Script {
    /// Without a request.
    pub fn new() -> Script {
        Script::default()
    }

    /// Puts a request behind the others. An argument of more than 65,535 bytes has no place in a request: it is
    /// refused here, as a bad length.
    pub fn push(&mut self, request: Request<'_>) -> Result<(), Refusal> {
        let mut lengths = [0; 3];
        for (length, argument) in lengths.iter_mut().zip(request.arguments) {
            *length = u16::try_from(argument.len()).map_err(|_| Refusal::BadLength(argument.len()))?;
        }
        self.bytes.push(request.operation);
        lengths.into_iter().chain([request.room]).for_each(|n| self.bytes.extend(n.to_le_bytes()));
        self.bytes.push(request.other_room);
        request.arguments.into_iter().for_each(|argument| self.bytes.extend(argument));
        self.rooms.push((request.room, request.other_room));
        self.answers += request.reply_length();
        Ok(())
    }

    /// The script with this many of its requests, and no other.
    pub(crate) fn cut(&mut self, requests: usize, bytes: usize) {
        self.bytes.truncate(bytes);
        let left = self.rooms.drain(requests..);
        self.answers -= left.map(|(room, other)| reply_length(room, other)).sum::<usize>();
    }

    /// How many requests it has.
    pub fn len(&self) -> usize {
        self.rooms.len()
    }

    /// Whether it has none.
    pub fn is_empty(&self) -> bool {
        self.rooms.is_empty()
    }

    /// What the kernel is handed.
    pub fn bytes(&self) -> &[u8] {
        &self.bytes
    }

    /// The bytes that its replies take.
    pub fn answers_length(&self) -> usize {
        self.answers
    }

    /// The kernel's replies. The rooms begin as zeros. A script that is too long or has an unknown operation is
    /// refused as a whole; a refusal of one request is its reply.
    pub fn run(&self) -> Result<Replies, Refusal> {
        let mut answers = vec![0; self.answers];
        self.run_in(&mut answers)?;
        let mut at = 0;
        let places = self.rooms.iter().map(|&(room, other)| {
            at += reply_length(room, other);
            (at - reply_length(room, other), room, other)
        });
        Ok(Replies { places: places.collect(), answers })
    }

    /// Has the kernel put its replies to the front of `answers`, whose other bytes stay, and answers how many
    /// bytes they take. The first room of a reply begins as it was in `answers`, the second as zeros. On a
    /// refusal of the script every byte stays.
    pub fn run_in(&self, answers: &mut [u8]) -> Result<usize, Refusal> {
        let ran = c::run(&self.bytes, answers);
        match Refusal::from_number(ran.number, ran.beside) {
            None => Ok(ran.used),
            Some(refusal) => Err(refusal),
        }
    }
}

fn reply_length(room: u16, other: u8) -> usize {
    REPLY_HEAD + usize::from(room) + usize::from(other)
}

/// The replies of a script.
#[derive(Clone, Debug, PartialEq, Eq)]
pub struct Replies {
    answers: Vec<u8>,
    /// Where each begins, and its rooms.
    places: Vec<(usize, u16, u8)>,
}

impl Replies {
    /// How many there are: as many as requests.
    pub fn len(&self) -> usize {
        self.places.len()
    }

    /// Whether the script had no request.
    pub fn is_empty(&self) -> bool {
        self.places.is_empty()
    }

    /// The reply to the request with this number, from 0. Panics if there is none.
    pub fn get(&self, index: usize) -> Reply<'_> {
        let (at, room, other) = self.places[index];
        Reply::read(&self.answers[at..][..reply_length(room, other)], room.into())
    }

    /// Every reply.
    pub fn iter(&self) -> impl DoubleEndedIterator<Item = Reply<'_>> + ExactSizeIterator {
        (0..self.len()).map(|index| self.get(index))
    }
}

/// A reply.
#[derive(Clone, Copy, Debug, PartialEq, Eq)]
pub struct Reply<'a> {
    /// 0, or the number of a refusal.
    pub number: u8,
    /// The first value, or on a refusal the value beside its number.
    pub first: u32,
    /// The second value, else 0.
    pub second: u32,
    /// The first room.
    pub room: &'a [u8],
    /// The second room.
    pub other_room: &'a [u8],
}

impl<'a> Reply<'a> {
    /// A reply from all its bytes. Panics if they are under 9 and the first room.
    pub fn read(bytes: &'a [u8], room: usize) -> Reply<'a> {
        let (head, rooms) = bytes.split_at(REPLY_HEAD);
        let value = |at: usize| u32::from_le_bytes(*head[at..].first_chunk().expect("nine bytes"));
        let (room, other_room) = rooms.split_at(room);
        Reply { number: head[0], first: value(1), second: value(5), room, other_room }
    }

    /// The refusal that it is, if it is one.
    pub fn refusal(&self) -> Option<Refusal> {
        Refusal::from_number(self.number, self.first as usize)
    }
}
