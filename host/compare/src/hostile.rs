//! Scripts of any requests, for all that the published Rust has no answer to: arguments of any length, rooms of any
//! size, identities with other content, full tables. The kernel is held against the plain store. Keys are any bytes.
use crate::{
    dialogue::{Dialogue, Difference},
    plain_store::PlainStore,
    slips::Slip,
};
use oracle::{mistakes::Mistake, published::Bytes, rng::Rng};
use saltbobbin::script::{Operation, Request};

/// How many keys, delegations and revocations a script comes to.
#[derive(Clone, Copy, Debug, PartialEq, Eq)]
pub enum Crowd {
    /// Few identities, so that they meet again and again.
    Few,
    /// All 64 keys first, then all tables, then more of everything.
    KeysThenTables,
    /// Full tables with keys to spare.
    Tables,
    /// Keys run out while the tables have room.
    Keys,
}

impl Crowd {
    pub const ALL: [Crowd; 4] = [Crowd::Few, Crowd::KeysThenTables, Crowd::Tables, Crowd::Keys];
}

/// A request that owns its arguments.
#[derive(Clone, Debug)]
struct Owned {
    operation: u8,
    arguments: [Vec<u8>; 3],
    room: u16,
    other_room: u8,
}

impl Owned {
    fn request(&self) -> Request<'_> {
        let [first, second, third] = &self.arguments;
        let Owned { operation, room, other_room, .. } = *self;
        Request { operation, arguments: [first, second, third], room, other_room }
    }
}

struct Hostile {
    r: Rng,
    plain: PlainStore,
    keys: Vec<Bytes>,
    delegations: Vec<Bytes>,
    revocations: Vec<Bytes>,
    dialogue: Dialogue,
}

/// What a script brought about, to be counted.
#[derive(Clone, Copy, Debug, Default)]
pub struct Brought {
    pub requests: usize,
    /// How often each number was the answer, 0 to 9.
    pub numbers: [usize; 10],
}

/// The script of a seed, with the plain store's answers.
pub fn dialogue(crowd: Crowd, seed: u64, slip: Slip) -> (Dialogue, Brought) {
    let mut r = Rng::new(seed ^ 0x4057_11e5);
    let (keys, digests) = if crowd == Crowd::Few { (5, 6) } else { (72, 140) };
    let base = r.bytes();
    let close = r.chance(50);
    let mut some = |count: usize| -> Vec<Bytes> {
        let one = |i: usize| {
            let mut bytes = if close { base } else { r.bytes() };
            bytes[31] = (i * 37) as u8;
            bytes
        };
        (0..count).map(one).collect()
    };
    let (keys, delegations) = (some(keys), some(digests));
    let mut revocations = some(if crowd == Crowd::Few { 4 } else { 70 });
    // the tables are separate: half of the revocations have digests that delegations have too
    for (revocation, delegation) in revocations.iter_mut().zip(&delegations).step_by(2) {
        *revocation = *delegation;
    }
    let plain = PlainStore::new(Mistake::NoMistake, slip);
    let mut hostile = Hostile { r, plain, keys, delegations, revocations, dialogue: Dialogue::new() };
    let mut brought = Brought::default();
    match crowd {
        Crowd::Few => (0..60).for_each(|_| hostile.any(&mut brought)),
        Crowd::KeysThenTables => {
            hostile.fill(64, 30, 0, &mut brought);
            hostile.fill(64, 128, 64, &mut brought);
            hostile.more(&mut brought);
        }
        Crowd::Tables => {
            let keys = 20 + hostile.r.below(40);
            hostile.fill(keys, 128, 64, &mut brought);
            hostile.more(&mut brought);
        }
        Crowd::Keys => {
            let (delegations, revocations) = (40 + hostile.r.below(70), hostile.r.below(60));
            let keys = 61 + hostile.r.below(4);
            hostile.fill(keys, delegations, revocations, &mut brought);
            hostile.more(&mut brought);
            hostile.more(&mut brought);
        }
    }
    (hostile.dialogue, brought)
}

/// How many requests of which answers agreed, or the first difference.
pub fn compare(crowd: Crowd, seed: u64, slip: Slip) -> Result<Brought, Difference> {
    let (dialogue, brought) = dialogue(crowd, seed, slip);
    dialogue.compare().map(|()| brought)
}

impl Hostile {
    fn put(&mut self, owned: &Owned, brought: &mut Brought) {
        let request = owned.request();
        let said = self.plain.ask(&request);
        brought.requests += 1;
        brought.numbers[usize::from(said.number)] += 1;
        self.dialogue.say(&request, said);
    }

    fn insertion(&mut self, operation: Operation, arguments: [Vec<u8>; 3]) -> Owned {
        // an insertion is lent no room: what it is given has to stay as it is
        let (room, other_room) =
            if self.r.chance(90) { (0, 0) } else { (self.r.below(70), self.r.below(70)) };
        let (room, other_room) = (room as u16, other_room as u8);
        Owned { operation: operation.byte(), arguments, room, other_room }
    }

    fn key(&mut self, among: usize) -> Bytes {
        let key = self.r.below(among.min(self.keys.len()));
        self.keys[key]
    }

    fn payload(&mut self, audience: Bytes, subject: Bytes) -> Vec<u8> {
        let mut out = [audience, subject].concat();
        let cited = self.r.chance(30);
        out.extend([self.r.pick(b"LREA"), cited.into()]);
        if cited {
            out.extend(self.r.bytes());
        }
        out
    }

    /// Right insertions until the store has so many of each, as far as the numbers allow: the first so many keys
    /// all get in.
    fn fill(&mut self, keys: usize, delegations: usize, revocations: usize, brought: &mut Brought) {
        let mut digest = self.plain.counts()[1];
        while self.plain.counts()[1] < delegations && digest < self.delegations.len() {
            // new keys one after the other, then any of them
            let held = self.plain.counts()[0];
            let mut three = [held, held + 1, held + 2].map(|key| self.keys[key.min(keys - 1)]);
            if self.r.chance(20) || held >= keys {
                three = [(); 3].map(|()| self.key(keys));
            }
            let payload = self.payload(three[1], three[2]);
            let arguments = [self.delegations[digest].to_vec(), three[0].to_vec(), payload];
            let owned = self.insertion(Operation::InsertDelegation, arguments);
            self.put(&owned, brought);
            digest += 1;
        }
        let mut digest = self.plain.counts()[2];
        while self.plain.counts()[2] < revocations && digest < self.revocations.len() {
            let (issuer, revoked) = (self.key(keys), self.r.pick(&self.delegations));
            let arguments = [self.revocations[digest].to_vec(), issuer.to_vec(), revoked.to_vec()];
            let owned = self.insertion(Operation::InsertRevocation, arguments);
            self.put(&owned, brought);
            digest += 1;
        }
    }

    /// On a crowded store: one evaluation, and any requests.
    fn more(&mut self, brought: &mut Brought) {
        let evaluate = Owned { operation: Operation::Evaluate.byte(), ..Owned::nothing() };
        self.put(&evaluate, brought);
        (0..60).for_each(|_| self.any(brought));
    }

    /// Any request: an insertion in two of five cases on few keys; on a crowded store no further evaluation, which
    /// takes the plain reading long.
    fn any(&mut self, brought: &mut Brought) {
        let few = self.keys.len() < 10;
        let owned = match self.r.below(100) {
            0..25 => self.any_delegation(),
            25..40 => self.any_revocation(),
            40..46 if few => Owned { operation: Operation::Evaluate.byte(), ..Owned::nothing() },
            46 if few => Owned { operation: Operation::New.byte(), ..Owned::nothing() },
            _ => self.any_question(),
        };
        self.put(&owned, brought);
    }

    fn any_delegation(&mut self) -> Owned {
        let all = self.keys.len();
        let (digest, issuer) = (self.digest(&self.delegations.clone()), self.key(all));
        let (audience, subject) = (self.key(all), self.key(all));
        let audience = if self.r.chance(20) { issuer } else { audience };
        let subject = if self.r.chance(20) { issuer } else { subject };
        let mut payload = self.payload(audience, subject);
        // damage of every kind that the reader tells apart
        match self.r.below(20) {
            0 => payload.truncate(self.r.below(100)),
            1 => payload.push(7),
            2 => payload[64] = self.r.word() as u8,
            3 => payload[65] = self.r.below(4) as u8,
            _ => {}
        }
        let arguments = [self.length(&digest), self.length(&issuer), payload];
        self.insertion(Operation::InsertDelegation, arguments)
    }

    /// One of these; on a crowded store a new one as often, so that its limits are met and not its identities alone.
    fn digest(&mut self, known: &[Bytes]) -> Bytes {
        if self.keys.len() > 10 && self.r.chance(50) {
            self.r.bytes()
        } else {
            self.r.pick(known)
        }
    }

    fn any_revocation(&mut self) -> Owned {
        let all = self.keys.len();
        let (digest, issuer) = (self.digest(&self.revocations.clone()), self.key(all));
        let revoked = self.r.pick(&self.delegations);
        let arguments = [self.length(&digest), self.length(&issuer), self.length(&revoked)];
        self.insertion(Operation::InsertRevocation, arguments)
    }

    /// Mostly the 32 bytes; else fewer or more.
    fn length(&mut self, bytes: &Bytes) -> Vec<u8> {
        let length = match self.r.below(40) {
            0 => 31,
            1 => 33,
            2 => self.r.pick(&[0, 1, 64, 66, 98]),
            3 => self.r.below(600),
            _ => 32,
        };
        bytes.iter().copied().cycle().take(length).collect()
    }

    fn any_question(&mut self) -> Owned {
        let operation = self.r.pick(&Operation::ALL[4..]);
        let arguments = [(); 3].map(|()| {
            let known = match self.r.below(10) {
                0 => self.r.bytes(),
                1..4 => self.r.pick(&self.delegations),
                4 => self.r.pick(&self.revocations),
                _ => self.r.pick(&self.keys),
            };
            self.length(&known)
        });
        let mut owned = Owned { operation: operation.byte(), arguments, room: u16::MAX, other_room: u8::MAX };
        self.sensible(operation, &mut owned);
        // a look at what it needs, in rooms that hold everything
        let needs = self.plain.ask(&owned.request());
        owned.room = self.near(needs.room.len(), usize::from(u16::MAX)) as u16;
        owned.other_room = self.near(needs.other_room.len(), usize::from(u8::MAX)) as u8;
        if self.r.chance(5) {
            (owned.room, owned.other_room) = (0, 0); // which of the two is named
        }
        owned
    }

    /// Two of three times the kind of argument that the operation takes, so that it finds something.
    fn sensible(&mut self, operation: Operation, owned: &mut Owned) {
        if self.r.chance(33) {
            return;
        }
        let subject = self.r.pick(&self.keys);
        let digest = match operation {
            Operation::Revocation | Operation::ContainsRevocation => self.r.pick(&self.revocations),
            Operation::Members | Operation::Closure => subject,
            Operation::PositivePower | Operation::EffectivePower | Operation::DelegationsTo => subject,
            _ => self.r.pick(&self.delegations),
        };
        owned.arguments[0] = self.length(&digest);
        let audience = self.r.pick(&self.keys);
        owned.arguments[1] = self.length(&audience);
        if self.r.chance(70) {
            owned.arguments[2].clear();
        }
    }

    /// Exact, one byte short or more, or anything.
    fn near(&mut self, needed: usize, most: usize) -> usize {
        let room = match self.r.below(16) {
            0..7 => needed,
            7..9 => needed.saturating_sub(1),
            9 => needed.saturating_sub(32),
            10 => 0,
            11 => self.r.below(200),
            12 => needed + 1,
            _ => needed + self.r.below(50),
        };
        room.min(most)
    }
}

impl Owned {
    fn nothing() -> Owned {
        Owned { operation: 0, arguments: [vec![], vec![], vec![]], room: 0, other_room: 0 }
    }
}
