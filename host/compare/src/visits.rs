//! One store of the oracle's recipes, put into a script: its insertions in a shuffled order with repeated ones among
//! them, evaluations in between, and at the end every question of document 01, about held keys and digests and about
//! others. Whoever is compared with the kernel answers the same requests.
use crate::{
    dialogue::{Dialogue, Difference, Said},
    plain_store::PlainStore,
    published_store::{Keys, Published},
    slips::Slip,
};
use oracle::{
    mistakes::Mistake,
    published::{Bytes, Encode, Identifier, Insertion},
    rng::Rng,
    store::{Concrete, Store},
};
use saltbobbin::script::Request;

/// Whom the kernel is compared with.
pub enum Other<'a> {
    Published(Published<'a>),
    Plain(PlainStore),
}

/// Whom to compare with, before a store is there.
#[derive(Clone, Copy)]
pub enum With<'a> {
    Published(&'a Keys),
    Plain(Mistake),
}

impl<'a> With<'a> {
    fn other(self) -> Other<'a> {
        match self {
            With::Published(keys) => Other::Published(Published::new(keys)),
            With::Plain(mistake) => Other::Plain(PlainStore::new(mistake, Slip::NoSlip)),
        }
    }
}

impl Other<'_> {
    fn insert(&mut self, insertion: &Insertion, request: &Request<'_>) -> Said {
        match self {
            Other::Published(published) => published.insert(insertion),
            Other::Plain(plain) => plain.ask(request),
        }
    }

    fn ask(&mut self, request: &Request<'_>) -> Said {
        match self {
            Other::Published(published) => published.ask(request),
            Other::Plain(plain) => plain.ask(request),
        }
    }
}

/// How much is asked about a store. The published Rust runs a search for each effective power, each member list and
/// each closure.
#[derive(Clone, Copy, Debug, PartialEq, Eq)]
pub struct Asked {
    /// Of a thousand pairs of keys, so many are asked for by `effective_power`, and by `delegations_to` beside those
    /// of held delegations. Positive powers are asked of all pairs always.
    pub pairs: usize,
    /// Of a hundred keys, so many are asked for by `members` and `closure`.
    pub keys: usize,
    /// Of a hundred stores, so many are evaluated in the middle too and asked about what was then.
    pub middle: usize,
}

impl Asked {
    pub const ALL: Asked = Asked { pairs: 1000, keys: 100, middle: 100 };
}

/// How many requests were put, or the first difference.
pub fn visit(
    store: &Store,
    pool: &[Identifier],
    seed: u64,
    with: With<'_>,
    asked: Asked,
) -> Result<usize, Difference> {
    let dialogue = dialogue(store, pool, seed, with, asked);
    dialogue.compare().map(|()| dialogue.len())
}

/// The script about a store, with the other's answers.
pub fn dialogue(store: &Store, pool: &[Identifier], seed: u64, with: With<'_>, asked: Asked) -> Dialogue {
    let concrete = store.concrete(pool, seed);
    let rng = Rng::new(seed ^ 0xd1a1);
    let mut visit = Visit { store, concrete, other: with.other(), asked, rng, dialogue: Dialogue::new() };
    visit.insertions();
    visit.request(Request::evaluate());
    visit.whole_set();
    visit.certificates();
    visit.keys();
    visit.dialogue
}

/// An insertion as a request.
fn with_request<T>(insertion: &Insertion, then: impl FnOnce(&Request<'_>) -> T) -> T {
    match insertion {
        Insertion::Delegation { digest, issuer, payload } => {
            let payload = payload.encode();
            then(&Request::insert_delegation(digest, issuer.as_bytes(), payload.as_bytes()))
        }
        Insertion::Revocation { digest, issuer, revoked } => {
            then(&Request::insert_revocation(digest, issuer.as_bytes(), revoked))
        }
    }
}

struct Visit<'a> {
    store: &'a Store,
    concrete: Concrete,
    other: Other<'a>,
    asked: Asked,
    rng: Rng,
    dialogue: Dialogue,
}

impl Visit<'_> {
    fn request(&mut self, request: Request<'_>) {
        let said = self.other.ask(&request);
        self.dialogue.say(&request, said);
    }

    fn insert(&mut self, index: usize) {
        let insertion = self.concrete.insertions[index];
        with_request(&insertion, |request| {
            let said = self.other.insert(&insertion, request);
            self.dialogue.say(request, said);
        });
    }

    /// A room for so many items, and some bytes more that have to stay.
    fn room(&mut self, items: usize) -> u16 {
        (32 * items + self.rng.below(4) * 11) as u16
    }

    fn some_key(&mut self) -> Bytes {
        self.rng.pick(&self.concrete.keys).to_bytes()
    }

    fn insertions(&mut self) {
        let total = self.concrete.insertions.len();
        let middle = self.rng.chance(self.asked.middle);
        if middle {
            // before the first evaluation the questions are about the empty set
            self.some_questions();
        }
        let every = 2 + self.rng.below(2 + total / 3);
        for i in 0..total {
            self.insert(i);
            while self.rng.chance(20) {
                let again = self.rng.below(i + 1);
                self.insert(again);
            }
            if middle && i % every == 1 {
                if self.rng.chance(60) {
                    self.request(Request::evaluate());
                }
                self.some_questions(); // what is stale stays so
            }
        }
    }

    /// One of each kind.
    fn some_questions(&mut self) {
        let (s, a) = (self.some_key(), self.some_key());
        let d = self.rng.pick(&self.concrete.delegations);
        let certificates = self.store.delegations.len() + self.store.revocations.len();
        let room = self.room(certificates.max(self.store.keys));
        self.request(Request::version());
        self.request(Request::len());
        self.request(Request::is_empty());
        self.request(Request::contains_delegation(&d));
        self.request(Request::contains_revocation(&d));
        self.request(Request::delegation(&d, 32, 98));
        self.request(Request::revocation(&d, 32, 32));
        self.request(Request::subjects(room));
        self.request(Request::revocations_of(&d, room));
        self.request(Request::delegations_to(&s, &a, room));
        self.request(Request::certificates(room));
        self.request(Request::positive_power(&s, &a));
        self.request(Request::effective_power(&s, &a));
        self.request(Request::members(&s, room, 64));
        self.request(Request::is_live(&d));
        self.request(Request::conveyed_power(&d));
        self.request(Request::standing(&d));
        self.request(Request::closure(&s, room));
    }

    fn whole_set(&mut self) {
        let certificates = self.store.delegations.len() + self.store.revocations.len();
        let (subjects, all) = (self.room(self.store.keys), self.room(certificates));
        self.request(Request::version());
        self.request(Request::len());
        self.request(Request::is_empty());
        self.request(Request::subjects(subjects));
        self.request(Request::certificates(all));
    }

    /// Each digest, held or not, is sought as either kind: the tables are separate.
    fn certificates(&mut self) {
        let digests = [self.concrete.delegations.clone(), self.concrete.revocations.clone()].concat();
        for digest in &digests {
            let naming = self.room(self.store.revocations.len());
            let (issuer, payload) = (self.room(1), 98 + self.rng.below(5) as u8);
            self.request(Request::contains_delegation(digest));
            self.request(Request::contains_revocation(digest));
            self.request(Request::delegation(digest, issuer, payload));
            self.request(Request::revocation(digest, issuer, payload));
            self.request(Request::revocations_of(digest, naming));
            self.request(Request::is_live(digest));
            self.request(Request::conveyed_power(digest));
            self.request(Request::standing(digest));
        }
    }

    fn keys(&mut self) {
        let keys: Vec<Bytes> = self.concrete.keys.iter().map(Identifier::to_bytes).collect();
        let certificates = self.store.delegations.len() + self.store.revocations.len();
        for (s, subject) in keys.iter().enumerate() {
            if self.rng.chance(self.asked.keys) {
                let (members, closure) = (self.room(keys.len()), self.room(certificates));
                let powers = (keys.len() + self.rng.below(5)) as u8;
                self.request(Request::members(subject, members, powers));
                self.request(Request::closure(subject, closure));
            }
            for (a, audience) in keys.iter().enumerate() {
                self.request(Request::positive_power(subject, audience));
                if self.rng.below(1000) < self.asked.pairs {
                    self.request(Request::effective_power(subject, audience));
                }
                let some = self.store.delegations.iter().any(|d| d.subject == s && d.audience == a);
                if some || self.rng.below(1000) < self.asked.pairs {
                    let room = self.room(self.store.delegations.len());
                    self.request(Request::delegations_to(subject, audience, room));
                }
            }
        }
    }
}
