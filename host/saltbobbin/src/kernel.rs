//! The kernel as a set of certificates that an app fills and asks.
use crate::{
    delegation::{Digest, Key, CITED_LENGTH, DIGEST_LENGTH, KEY_LENGTH},
    script::{Replies, Reply, Request, Script},
    Power, Refusal,
};

/// The most keys that a set holds.
pub const MOST_KEYS: usize = 64;

/// The most delegations that a set holds.
pub const MOST_DELEGATIONS: usize = 128;

/// The most revocations that a set holds.
pub const MOST_REVOCATIONS: usize = 64;

/// A room for every certificate's digest, for every delegation's, for every revocation's and for every key.
const CERTIFICATES: u16 = DELEGATIONS + REVOCATIONS;
const DELEGATIONS: u16 = (MOST_DELEGATIONS * DIGEST_LENGTH) as u16;
const REVOCATIONS: u16 = (MOST_REVOCATIONS * DIGEST_LENGTH) as u16;
const KEYS: u16 = (MOST_KEYS * KEY_LENGTH) as u16;

/// So many questions go into one run at most: their replies stay under 26 MB, and the script under its limit.
const QUESTIONS: usize = 4096;

/// What a request holds at most. No check of a payload looks behind its 98th byte but for whether there are
/// more, so a longer one is refused in the same way when it is cut here.
const MOST_PAYLOAD: usize = u16::MAX as usize;

/// A set of certificates, and the proved decisions about it.
///
/// ```
/// use saltbobbin::{Delegation, Kernel, Power, Standing};
///
/// let (s, a, b) = ([1; 32], [2; 32], [3; 32]);
/// let payload = |audience, power| {
///     let mut out = [0; 66];
///     Delegation { audience, subject: &s, power, citation: None }.encode(&mut out).map(|_| out)
/// };
/// let mut kernel = Kernel::new();
/// assert_eq!(kernel.insert_delegation(&[10; 32], &s, &payload(&a, Power::Edit)?), Ok(true));
/// assert_eq!(kernel.insert_delegation(&[11; 32], &a, &payload(&b, Power::Admin)?), Ok(true));
/// assert_eq!(kernel.members(&s), [(a, Power::Edit), (b, Power::Edit)]);
/// assert_eq!(kernel.insert_revocation(&[12; 32], &a, &[11; 32]), Ok(true)); // a takes b's back
/// assert_eq!(kernel.members(&s), [(a, Power::Edit)]);
/// assert_eq!(kernel.standing(&[11; 32]), Some(Standing::Revoked));
/// # Ok::<(), saltbobbin::Refusal>(())
/// ```
///
/// The C function behind it keeps nothing between calls. So this keeps the insertions that were added, at most
/// 192, and runs them again for each question and each insertion, with an evaluation where the question needs one:
/// for a full set about half a millisecond and more (docs/PERFORMANCE.md in the repository).
/// [`ask`](Kernel::ask) puts many questions in one run.
///
/// Digests and keys have Rust's types here, so the kernel's refusal of their lengths does not come up, and the
/// rooms are large enough for every answer. An insertion may be refused for its payload
/// ([`UnexpectedEnd`](Refusal::UnexpectedEnd), [`TrailingBytes`](Refusal::TrailingBytes),
/// [`InvalidTag`](Refusal::InvalidTag)), because the digest is held with other content
/// ([`Conflict`](Refusal::Conflict)) or because a table is full; then nothing has changed.
#[derive(Clone, Debug, Default, PartialEq, Eq)]
pub struct Kernel {
    /// Each is an insertion that was added.
    held: Script,
}

/// What is asked of a [`Kernel`].
#[derive(Clone, Copy, Debug, PartialEq, Eq, Hash)]
pub enum Question {
    /// How many certificates were added: an [`Answer::Number`].
    Version,
    /// How many certificates are held: an [`Answer::Number`].
    Len,
    /// Whether none is: an [`Answer::Yes`].
    IsEmpty,
    /// Whether a delegation has this digest: an [`Answer::Yes`].
    ContainsDelegation(Digest),
    /// Whether a revocation has this digest: an [`Answer::Yes`].
    ContainsRevocation(Digest),
    /// Its issuer and payload: an [`Answer::Delegation`].
    Delegation(Digest),
    /// Its issuer and the digest that it revokes: an [`Answer::Revocation`].
    Revocation(Digest),
    /// The subjects of held delegations: an [`Answer::Keys`].
    Subjects,
    /// The held revocations that name this delegation, held or not: an [`Answer::Digests`].
    RevocationsOf(Digest),
    /// The held delegations with this subject, then this audience: an [`Answer::Digests`].
    DelegationsTo(Key, Key),
    /// All that is held: an [`Answer::Certificates`].
    Certificates,
    /// The level over this subject of this audience if no revocation counted: an [`Answer::Power`].
    PositivePower(Key, Key),
    /// The level over this subject of this audience: an [`Answer::Power`].
    EffectivePower(Key, Key),
    /// Who else has a level over this subject: an [`Answer::Members`].
    Members(Key),
    /// Whether this delegation is live: an [`Answer::Yes`].
    IsLive(Digest),
    /// What this delegation conveys: an [`Answer::Power`].
    ConveyedPower(Digest),
    /// Whether this delegation is live, or why it is not: an [`Answer::Standing`].
    Standing(Digest),
    /// What the answers about this subject rest on: an [`Answer::Certificates`].
    Closure(Key),
}

/// What a [`Kernel`] answers. Lists ascend.
#[derive(Clone, Debug, PartialEq, Eq, Hash)]
pub enum Answer {
    /// A count.
    Number(usize),
    /// Yes or no.
    Yes(bool),
    /// Issuer and payload, where the delegation is held.
    Delegation(Option<(Key, Vec<u8>)>),
    /// Issuer and revoked digest, where the revocation is held.
    Revocation(Option<(Key, Digest)>),
    /// Keys.
    Keys(Vec<Key>),
    /// Digests of one kind.
    Digests(Vec<Digest>),
    /// Digests of both kinds.
    Certificates(Certificates),
    /// A level, or none.
    Power(Option<Power>),
    /// Keys with their levels.
    Members(Vec<(Key, Power)>),
    /// Of a held delegation.
    Standing(Option<Standing>),
}

/// Digests of certificates, each list ascending.
#[derive(Clone, Debug, Default, PartialEq, Eq, Hash)]
pub struct Certificates {
    /// Those of delegations.
    pub delegations: Vec<Digest>,
    /// Those of revocations.
    pub revocations: Vec<Digest>,
}

/// How a held delegation stands.
#[derive(Clone, Copy, Debug, PartialEq, Eq, Hash)]
pub enum Standing {
    /// It conveys power.
    Live,
    /// It is dead, and a held revocation names it.
    Revoked,
    /// It is dead, and none does: its issuer has no standing to give.
    Unsupported,
}

impl Question {
    fn request(&self) -> Request<'_> {
        const KEY: u16 = KEY_LENGTH as u16;
        match self {
            Question::Version => Request::version(),
            Question::Len => Request::len(),
            Question::IsEmpty => Request::is_empty(),
            Question::ContainsDelegation(digest) => Request::contains_delegation(digest),
            Question::ContainsRevocation(digest) => Request::contains_revocation(digest),
            Question::Delegation(digest) => Request::delegation(digest, KEY, CITED_LENGTH as u8),
            Question::Revocation(digest) => Request::revocation(digest, KEY, DIGEST_LENGTH as u8),
            Question::Subjects => Request::subjects(KEYS),
            Question::RevocationsOf(digest) => Request::revocations_of(digest, REVOCATIONS),
            Question::DelegationsTo(subject, audience) => {
                Request::delegations_to(subject, audience, DELEGATIONS)
            }
            Question::Certificates => Request::certificates(CERTIFICATES),
            Question::PositivePower(subject, audience) => Request::positive_power(subject, audience),
            Question::EffectivePower(subject, audience) => Request::effective_power(subject, audience),
            Question::Members(subject) => Request::members(subject, KEYS, MOST_KEYS as u8),
            Question::IsLive(digest) => Request::is_live(digest),
            Question::ConveyedPower(digest) => Request::conveyed_power(digest),
            Question::Standing(digest) => Request::standing(digest),
            Question::Closure(subject) => Request::closure(subject, CERTIFICATES),
        }
    }

    fn needs_evaluation(&self) -> bool {
        matches!(
            self,
            Question::PositivePower(..)
                | Question::EffectivePower(..)
                | Question::Members(_)
                | Question::IsLive(_)
                | Question::ConveyedPower(_)
                | Question::Standing(_)
                | Question::Closure(_)
        )
    }

    fn answer(&self, reply: Reply<'_>) -> Answer {
        let held = reply.first == 1;
        match self {
            Question::Version | Question::Len => Answer::Number(reply.first as usize),
            Question::IsEmpty
            | Question::ContainsDelegation(_)
            | Question::ContainsRevocation(_)
            | Question::IsLive(_) => Answer::Yes(reply.first == 1),
            Question::Delegation(_) => {
                let payload = || reply.other_room[..reply.second as usize].to_vec();
                Answer::Delegation(held.then(|| (one(reply.room), payload())))
            }
            Question::Revocation(_) => {
                Answer::Revocation(held.then(|| (one(reply.room), one(reply.other_room))))
            }
            Question::Subjects => Answer::Keys(many(reply.room, reply.first)),
            Question::RevocationsOf(_) | Question::DelegationsTo(..) => {
                Answer::Digests(many(reply.room, reply.first))
            }
            Question::Certificates | Question::Closure(_) => {
                let mut delegations = many(reply.room, reply.first + reply.second);
                let revocations = delegations.split_off(reply.first as usize);
                Answer::Certificates(Certificates { delegations, revocations })
            }
            Question::PositivePower(..) | Question::EffectivePower(..) | Question::ConveyedPower(_) => {
                Answer::Power((reply.first != 0).then(|| level(reply.first as u8)))
            }
            Question::Members(_) => {
                let keys = many(reply.room, reply.first).into_iter();
                Answer::Members(keys.zip(reply.other_room.iter().map(|byte| level(*byte))).collect())
            }
            Question::Standing(_) => Answer::Standing(match reply.first {
                0 => None,
                1 => Some(Standing::Live),
                2 => Some(Standing::Revoked),
                3 => Some(Standing::Unsupported),
                other => panic!("the kernel has no standing {other}"),
            }),
        }
    }
}

/// The first key or digest of a room.
fn one(room: &[u8]) -> [u8; 32] {
    *room.first_chunk().expect("a room for one")
}

/// The first so many keys or digests of a room.
fn many(room: &[u8], count: u32) -> Vec<[u8; 32]> {
    room.chunks_exact(32).take(count as usize).map(one).collect()
}

fn level(byte: u8) -> Power {
    Power::from_byte(byte).expect("the kernel answers the four powers alone")
}

impl Kernel {
    /// The empty set.
    pub fn new() -> Kernel {
        Kernel::default()
    }

    /// Inserts a delegation: whether it was added, or is held already.
    pub fn insert_delegation(
        &mut self,
        digest: &Digest,
        issuer: &Key,
        payload: &[u8],
    ) -> Result<bool, Refusal> {
        let payload = &payload[..payload.len().min(MOST_PAYLOAD)];
        self.insert(Request::insert_delegation(digest, issuer, payload))
    }

    /// Inserts a revocation of the delegation with the digest `revoked`, held or not: whether it was added, or
    /// is held already.
    pub fn insert_revocation(
        &mut self,
        digest: &Digest,
        issuer: &Key,
        revoked: &Digest,
    ) -> Result<bool, Refusal> {
        self.insert(Request::insert_revocation(digest, issuer, revoked))
    }

    fn insert(&mut self, request: Request<'_>) -> Result<bool, Refusal> {
        let (requests, bytes) = (self.held.len(), self.held.bytes().len());
        self.held.push(request)?;
        let replies = run(&self.held);
        let reply = replies.get(requests);
        let added = match reply.refusal() {
            None => Ok(reply.first == 1),
            Some(refusal) => Err(refusal),
        };
        if added != Ok(true) {
            self.held.cut(requests, bytes);
        }
        added
    }

    /// The answers to questions, in their order, from as few runs as may be: one for 4,096 questions.
    ///
    /// ```
    /// use saltbobbin::{Answer, Kernel, Power, Question};
    ///
    /// let key = [7; 32];
    /// let answers = Kernel::new().ask(&[Question::Len, Question::EffectivePower(key, key)]);
    /// assert_eq!(answers, [Answer::Number(0), Answer::Power(Some(Power::Admin))]);
    /// ```
    pub fn ask(&self, questions: &[Question]) -> Vec<Answer> {
        let mut answers = Vec::with_capacity(questions.len());
        for part in questions.chunks(QUESTIONS) {
            let mut script = self.held.clone();
            if part.iter().any(Question::needs_evaluation) {
                push(&mut script, Request::evaluate());
            }
            let first = script.len();
            part.iter().for_each(|question| push(&mut script, question.request()));
            let replies = run(&script);
            answers.extend(part.iter().zip(first..).map(|(question, index)| {
                let reply = replies.get(index);
                assert_eq!(reply.number, 0, "the kernel refuses {question:?}");
                question.answer(reply)
            }));
        }
        answers
    }

    fn one(&self, question: Question) -> Answer {
        self.ask(&[question]).pop().expect("an answer for each question")
    }

    /// How many certificates were added.
    pub fn version(&self) -> usize {
        number(self.one(Question::Version))
    }

    /// How many certificates are held.
    pub fn len(&self) -> usize {
        number(self.one(Question::Len))
    }

    /// Whether no certificate is held.
    pub fn is_empty(&self) -> bool {
        yes(self.one(Question::IsEmpty))
    }

    /// Whether a held delegation has this digest.
    pub fn contains_delegation(&self, digest: &Digest) -> bool {
        yes(self.one(Question::ContainsDelegation(*digest)))
    }

    /// Whether a held revocation has this digest.
    pub fn contains_revocation(&self, digest: &Digest) -> bool {
        yes(self.one(Question::ContainsRevocation(*digest)))
    }

    /// The issuer and the payload of a held delegation.
    pub fn delegation(&self, digest: &Digest) -> Option<(Key, Vec<u8>)> {
        match self.one(Question::Delegation(*digest)) {
            Answer::Delegation(held) => held,
            other => unlike(other),
        }
    }

    /// The issuer of a held revocation, and the digest that it revokes.
    pub fn revocation(&self, digest: &Digest) -> Option<(Key, Digest)> {
        match self.one(Question::Revocation(*digest)) {
            Answer::Revocation(held) => held,
            other => unlike(other),
        }
    }

    /// The subjects of held delegations.
    pub fn subjects(&self) -> Vec<Key> {
        match self.one(Question::Subjects) {
            Answer::Keys(keys) => keys,
            other => unlike(other),
        }
    }

    /// The held revocations that name this delegation, which need not be held.
    pub fn revocations_of(&self, digest: &Digest) -> Vec<Digest> {
        digests(self.one(Question::RevocationsOf(*digest)))
    }

    /// The held delegations with this subject and this audience.
    pub fn delegations_to(&self, subject: &Key, audience: &Key) -> Vec<Digest> {
        digests(self.one(Question::DelegationsTo(*subject, *audience)))
    }

    /// All that is held.
    pub fn certificates(&self) -> Certificates {
        certificates(self.one(Question::Certificates))
    }

    /// The audience's level over the subject if no revocation counted.
    pub fn positive_power(&self, subject: &Key, audience: &Key) -> Option<Power> {
        power(self.one(Question::PositivePower(*subject, *audience)))
    }

    /// The audience's level over the subject. Any key is Admin over itself.
    pub fn effective_power(&self, subject: &Key, audience: &Key) -> Option<Power> {
        power(self.one(Question::EffectivePower(*subject, *audience)))
    }

    /// Who has a level over the subject, and which; the subject itself is left out.
    pub fn members(&self, subject: &Key) -> Vec<(Key, Power)> {
        match self.one(Question::Members(*subject)) {
            Answer::Members(members) => members,
            other => unlike(other),
        }
    }

    /// Whether the delegation is held and live.
    pub fn is_live(&self, digest: &Digest) -> bool {
        yes(self.one(Question::IsLive(*digest)))
    }

    /// The level that a live delegation conveys.
    pub fn conveyed_power(&self, digest: &Digest) -> Option<Power> {
        power(self.one(Question::ConveyedPower(*digest)))
    }

    /// How a held delegation stands.
    pub fn standing(&self, digest: &Digest) -> Option<Standing> {
        match self.one(Question::Standing(*digest)) {
            Answer::Standing(standing) => standing,
            other => unlike(other),
        }
    }

    /// The certificates that all answers about the subject rest on.
    pub fn closure(&self, subject: &Key) -> Certificates {
        certificates(self.one(Question::Closure(*subject)))
    }
}

/// Scripts of this module are whole and short, and their operations known.
fn run(script: &Script) -> Replies {
    script.run().unwrap_or_else(|refusal| panic!("the kernel refuses a whole script: {refusal}"))
}

/// Arguments of questions have 32 bytes each.
fn push(script: &mut Script, request: Request<'_>) {
    script.push(request).expect("short arguments");
}

/// `Question::answer` gives each question its own kind.
fn unlike(answer: Answer) -> ! {
    panic!("an answer of another kind: {answer:?}")
}

fn number(answer: Answer) -> usize {
    match answer {
        Answer::Number(n) => n,
        other => unlike(other),
    }
}

fn yes(answer: Answer) -> bool {
    match answer {
        Answer::Yes(yes) => yes,
        other => unlike(other),
    }
}

fn power(answer: Answer) -> Option<Power> {
    match answer {
        Answer::Power(power) => power,
        other => unlike(other),
    }
}

fn digests(answer: Answer) -> Vec<Digest> {
    match answer {
        Answer::Digests(digests) => digests,
        other => unlike(other),
    }
}

fn certificates(answer: Answer) -> Certificates {
    match answer {
        Answer::Certificates(certificates) => certificates,
        other => unlike(other),
    }
}
