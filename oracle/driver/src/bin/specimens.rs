//! S1 to S12 of document 01, in the published State: one line each, with what differs. Exits 1 if anything
//! does. S6 and S12 are run twice, once for each revoker that document 01 names.
use oracle::published::{
    ids, insert, keys, version_number, Bytes, Delegation, Digest, Identifier, Insertion,
    Power::{self, *},
    State,
};
use std::{fmt::Debug, process::exit};

/// A store whose keys are letters, and what was found wrong with it.
struct Specimen {
    state: State<()>,
    keys: Vec<Identifier>,
    next_digest: u8,
    wrong: Vec<String>,
}

impl Specimen {
    fn new() -> Self {
        Specimen { state: State::new(), keys: keys(3, 26), next_digest: 1, wrong: vec![] }
    }

    fn key(&self, letter: char) -> Identifier {
        self.keys[letter as usize - 'A' as usize]
    }

    fn digest(&mut self) -> Bytes {
        self.next_digest += 1;
        [self.next_digest; 32]
    }

    /// Adds "I>A Edit/S" as document 01 writes it.
    fn delegate(&mut self, text: &str) -> Digest<Delegation> {
        let digest = self.digest();
        self.delegate_as(text, digest)
    }

    fn delegate_as(&mut self, text: &str, digest: Bytes) -> Digest<Delegation> {
        let (keys, right) = text.split_once(' ').expect("I>A Edit/S");
        let (issuer, audience) = keys.split_once('>').expect("I>A");
        let (power, subject) = right.split_once('/').expect("Edit/S");
        let key = |name: &str| self.key(name.chars().next().expect("a letter"));
        let power = Power::ALL.into_iter().find(|p| p.to_string() == power).expect("a level");
        let payload = Delegation::new(key(audience), key(subject), power);
        let insertion = Insertion::Delegation { digest, issuer: key(issuer), payload };
        assert!(insert(&mut self.state, &insertion));
        digest.into()
    }

    fn revoke(&mut self, by: char, target: Digest<Delegation>) {
        let (digest, issuer) = (self.digest(), self.key(by));
        let insertion = Insertion::Revocation { digest, issuer, revoked: target.into() };
        assert!(insert(&mut self.state, &insertion));
    }

    fn want<T: PartialEq + Debug>(&mut self, what: &str, rust: T, document: T) {
        if rust != document {
            self.wrong.push(format!("{what}: rust {rust:?}, document {document:?}"));
        }
    }

    /// The audience's effective power, also as `members` has it.
    fn effective(&mut self, audience: char, subject: char, document: Option<Power>) {
        let (s, a) = (self.key(subject), self.key(audience));
        let members = self.state.members(s);
        self.want(&format!("{audience} over {subject}"), self.state.effective_power(s, a), document);
        let listed = if s == a { None } else { document };
        self.want(&format!("{audience} in members of {subject}"), members.get(&a).copied(), listed);
    }

    /// What a delegation conveys; none says that it is dead.
    fn conveyed(&mut self, d: Digest<Delegation>, document: Option<Power>) {
        self.want("live", self.state.is_live(&d), document.is_some());
        self.want("conveyed", self.state.conveyed_power(&d), document);
    }

    fn closure(&mut self, subject: char, delegations: &[Digest<Delegation>]) {
        let rust = ids(&self.state.closure(self.key(subject))).expect("delegations come first");
        let mut document: Vec<Bytes> = delegations.iter().map(|d| (*d).into()).collect();
        document.sort();
        self.want(&format!("closure of {subject}"), rust.delegations, document);
        self.want(&format!("revocations in closure of {subject}"), rust.revocations, vec![]);
    }
}

fn s1() -> Specimen {
    let mut c = Specimen::new();
    let s = c.key('S');
    c.effective('S', 'S', Some(Admin));
    c.want("positive", c.state.positive_power(s, s), Some(Admin));
    c.want("members", c.state.members(s).len(), 0);
    c.closure('S', &[]);
    let whole = (c.state.len(), c.state.is_empty(), version_number(c.state.version()));
    c.want("len, is_empty, version", whole, (0, true, 0));
    c
}

fn s2() -> Specimen {
    let mut c = Specimen::new();
    let d = c.delegate("S>A Edit/S");
    c.effective('A', 'S', Some(Edit));
    c.conveyed(d, Some(Edit));
    c
}

/// S2 with A>B Admin/S, which is handed out.
fn built_s3() -> (Specimen, Digest<Delegation>) {
    let mut c = s2();
    let d = c.delegate("A>B Admin/S");
    (c, d)
}

fn s3() -> Specimen {
    let (mut c, d) = built_s3();
    c.effective('B', 'S', Some(Edit));
    c.conveyed(d, Some(Edit));
    c
}

fn s4() -> Specimen {
    let mut c = Specimen::new();
    let d = c.delegate("S>G Edit/S");
    let e = c.delegate("G>M Admin/G");
    c.effective('M', 'S', Some(Edit));
    c.closure('S', &[d, e]);
    c.closure('G', &[e]);
    c.closure('M', &[]);
    c
}

fn s5() -> Specimen {
    let mut c = Specimen::new();
    let d = c.delegate("X>B Read/S");
    c.effective('B', 'S', None);
    c.conveyed(d, None);
    c.closure('S', &[d]);
    c
}

fn s6(by: char) -> Specimen {
    let (mut c, d) = built_s3();
    c.revoke(by, d);
    c.conveyed(d, None);
    c.effective('A', 'S', Some(Edit));
    c.effective('B', 'S', None);
    c
}

fn s7() -> Specimen {
    let (mut c, d) = built_s3();
    c.revoke('Z', d);
    c.conveyed(d, Some(Edit));
    c.effective('B', 'S', Some(Edit));
    c
}

fn s8() -> Specimen {
    let mut c = Specimen::new();
    c.delegate("S>A Admin/S");
    let d = c.delegate("S>B Edit/S");
    c.revoke('A', d);
    c.conveyed(d, None);
    c.effective('A', 'S', Some(Admin));
    c.effective('B', 'S', None);
    c
}

/// S9, or S10 without S>M.
fn s9(with_second_way: bool) -> Specimen {
    let mut c = Specimen::new();
    c.delegate("S>G Edit/S");
    c.delegate("G>K Admin/G");
    c.delegate("G>M Admin/G");
    if with_second_way {
        c.delegate("S>M Read/S");
    }
    let d = c.delegate("M>B Edit/S");
    c.revoke('K', d);
    let cap = with_second_way.then_some(Read);
    c.conveyed(d, cap);
    c.effective('B', 'S', cap);
    c.effective('M', 'S', Some(Edit));
    c
}

fn s11() -> Specimen {
    let mut c = Specimen::new();
    c.delegate("G>H Edit/G");
    c.delegate("H>G Read/H");
    c.effective('H', 'G', Some(Edit));
    c.effective('G', 'H', Some(Read));
    c.effective('G', 'G', Some(Admin));
    c.effective('H', 'H', Some(Admin));
    c
}

fn s12(by: char) -> Specimen {
    let mut c = s2();
    let target = [77; 32];
    c.revoke(by, target.into());
    c.want("revocations_of before the target", c.state.revocations_of(&target.into()).len(), 1);
    let d = c.delegate_as("A>B Admin/S", target);
    c.conveyed(d, None);
    c.effective('A', 'S', Some(Edit));
    c.effective('B', 'S', None);
    c
}

fn main() {
    let specimens = [
        ("S1", s1()),
        ("S2", s2()),
        ("S3", s3()),
        ("S4", s4()),
        ("S5", s5()),
        ("S6, A revokes", s6('A')),
        ("S6, B revokes", s6('B')),
        ("S7", s7()),
        ("S8", s8()),
        ("S9", s9(true)),
        ("S10", s9(false)),
        ("S11", s11()),
        ("S12, A revokes", s12('A')),
        ("S12, B revokes", s12('B')),
    ];
    for (name, specimen) in &specimens {
        let found = specimen.wrong.join("; ");
        println!("{name}: {}", if found.is_empty() { "agrees" } else { &found });
    }
    let differ = specimens.iter().filter(|(_, s)| !s.wrong.is_empty()).count();
    println!("specimens: S1 to S12 as {} cases, {differ} differ", specimens.len());
    exit((differ > 0) as i32);
}
