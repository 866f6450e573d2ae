//! The type `Kernel`: its answers are the kernel's, with Rust's types, and a refusal changes nothing.
use saltbobbin::{
    delegation::{Digest, Key},
    Answer, Certificates, Delegation, Kernel, Power, Question, Refusal, Standing,
};

fn payload(audience: Key, subject: Key, power: Power) -> Vec<u8> {
    let mut out = [0; 66];
    let delegation = Delegation { audience: &audience, subject: &subject, power, citation: None };
    delegation.encode(&mut out).expect("there is room");
    out.to_vec()
}

const S: Key = [1; 32];
const G: Key = [2; 32];
const K: Key = [3; 32];
const M: Key = [4; 32];
const B: Key = [5; 32];

/// Document 01's S9, whose delegations are numbered from 10 and whose revocation is 20.
fn s9() -> Kernel {
    let mut kernel = Kernel::new();
    let delegations = [
        (S, G, Power::Edit, S),
        (G, K, Power::Admin, G),
        (G, M, Power::Admin, G),
        (S, M, Power::Read, S),
        (M, B, Power::Edit, S),
    ];
    for (digest, (issuer, audience, power, subject)) in (10..).zip(delegations) {
        assert_eq!(
            kernel.insert_delegation(&[digest; 32], &issuer, &payload(audience, subject, power)),
            Ok(true)
        );
    }
    assert_eq!(kernel.insert_revocation(&[20; 32], &K, &[14; 32]), Ok(true));
    kernel
}

#[test]
fn s9_has_document_01s_answers() {
    let kernel = s9();
    assert_eq!((kernel.len(), kernel.version(), kernel.is_empty()), (6, 6, false));
    assert_eq!(kernel.effective_power(&S, &B), Some(Power::Read));
    assert_eq!(kernel.effective_power(&S, &M), Some(Power::Edit));
    assert_eq!(kernel.positive_power(&S, &B), Some(Power::Edit));
    assert!(kernel.is_live(&[14; 32]));
    assert_eq!(kernel.conveyed_power(&[14; 32]), Some(Power::Read));
    assert_eq!(kernel.standing(&[14; 32]), Some(Standing::Live));
    assert_eq!(kernel.standing(&[99; 32]), None);
    let members = [(G, Power::Edit), (K, Power::Edit), (M, Power::Edit), (B, Power::Read)];
    assert_eq!(kernel.members(&S), members);
    assert_eq!(kernel.subjects(), [S, G]);
    assert_eq!(kernel.revocations_of(&[14; 32]), [[20; 32]]);
    assert_eq!(kernel.delegations_to(&S, &M), [[13; 32]]);
    assert_eq!(kernel.delegation(&[14; 32]), Some((M, payload(B, S, Power::Edit))));
    assert_eq!(kernel.revocation(&[20; 32]), Some((K, [14; 32])));
    assert_eq!((kernel.delegation(&[20; 32]), kernel.revocation(&[14; 32])), (None, None));
    assert!(kernel.contains_delegation(&[14; 32]) && !kernel.contains_delegation(&[20; 32]));
    assert!(kernel.contains_revocation(&[20; 32]) && !kernel.contains_revocation(&[14; 32]));
    let all = Certificates {
        delegations: (10..15).map(|digest| [digest; 32]).collect(),
        revocations: vec![[20; 32]],
    };
    assert_eq!((kernel.certificates(), kernel.closure(&S)), (all.clone(), all));
    let of_group = Certificates { delegations: vec![[11; 32], [12; 32]], revocations: vec![] };
    assert_eq!(kernel.closure(&G), of_group);
}

#[test]
fn a_refused_or_repeated_insertion_changes_nothing() {
    let mut kernel = s9();
    let before = kernel.clone();
    let digest: Digest = [14; 32];
    assert_eq!(kernel.insert_delegation(&digest, &M, &payload(B, S, Power::Edit)), Ok(false));
    assert_eq!(kernel.insert_delegation(&digest, &M, &payload(B, S, Power::Read)), Err(Refusal::Conflict));
    assert_eq!(kernel.insert_revocation(&[20; 32], &K, &[13; 32]), Err(Refusal::Conflict));
    assert_eq!(kernel.insert_delegation(&[15; 32], &M, &[0; 65]), Err(Refusal::UnexpectedEnd));
    let long = [payload(B, S, Power::Edit), vec![0; 100_000]].concat();
    assert_eq!(kernel.insert_delegation(&[15; 32], &M, &long), Err(Refusal::TrailingBytes));
    assert_eq!(kernel, before);
    assert_eq!(kernel.version(), 6);
}

#[test]
fn full_tables_are_refused_with_what_document_01_says() {
    let key = |n: u8| [n; 32];
    let mut kernel = Kernel::new();
    for n in 0..128 {
        // 62 keys
        let payload = payload(key(n % 60), key(200), Power::Read);
        assert_eq!(kernel.insert_delegation(&key(n), &key(201), &payload), Ok(true));
    }
    let more = payload(key(1), key(200), Power::Read);
    assert_eq!(kernel.insert_delegation(&key(128), &key(201), &more), Err(Refusal::FullDelegations(128)));
    assert_eq!(
        kernel.insert_delegation(&key(127), &key(201), &payload(key(7), key(200), Power::Read)),
        Ok(false)
    );
    for n in 0..64 {
        assert_eq!(kernel.insert_revocation(&key(n), &key(61 + n % 2), &key(n)), Ok(true));
    }
    assert_eq!(kernel.insert_revocation(&key(64), &key(61), &key(1)), Err(Refusal::FullRevocations(64)));

    let mut kernel = Kernel::new();
    for n in 0..62 {
        assert_eq!(kernel.insert_revocation(&key(n), &key(n), &key(99)), Ok(true));
    }
    let three = payload(key(101), key(102), Power::Read);
    assert_eq!(kernel.insert_delegation(&key(1), &key(100), &three), Err(Refusal::FullKeys(3)));
    let two = payload(key(100), key(102), Power::Read);
    assert_eq!(kernel.insert_delegation(&key(1), &key(100), &two), Ok(true));
    assert_eq!(kernel.insert_revocation(&key(63), &key(150), &key(99)), Err(Refusal::FullKeys(1)));
}

#[test]
fn many_questions_have_their_answers_in_order() {
    let kernel = s9();
    let question = |n: usize| match n % 3 {
        0 => Question::Len,
        1 => Question::EffectivePower(S, [(n % 7) as u8; 32]),
        _ => Question::ContainsDelegation([(n % 17) as u8; 32]),
    };
    let questions: Vec<Question> = (0..9000).map(question).collect();
    let answers = kernel.ask(&questions);
    assert_eq!(answers.len(), questions.len());
    for (n, answer) in answers.into_iter().enumerate() {
        let expected = match n % 3 {
            0 => Answer::Number(6),
            1 => Answer::Power(match n % 7 {
                1 => Some(Power::Admin),
                2..=4 => Some(Power::Edit),
                5 => Some(Power::Read),
                _ => None,
            }),
            _ => Answer::Yes((10..15).contains(&(n % 17))),
        };
        assert_eq!(answer, expected, "question {n}");
    }
}
