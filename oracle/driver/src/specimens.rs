//! The stores of document 01's specimens in small numbers, key 0 being S: S2 to S11. S1 is the empty store, and
//! S12 is S6 with its revocation inserted first, which a store in small numbers does not say.
use crate::store::{SmallDelegation, SmallRevocation, Store};

/// Each with its name in document 01. A delegation is issuer, audience, rank, subject; a revocation issuer, target.
pub fn specimens() -> Vec<(&'static str, Store)> {
    let delegation =
        |&[issuer, audience, rank, subject]: &[usize; 4]| SmallDelegation { issuer, audience, subject, rank };
    let revocation = |&[issuer, target]: &[usize; 2]| SmallRevocation { issuer, target };
    let store = |keys, delegations: &[[usize; 4]], revocations: &[[usize; 2]]| {
        let delegations = delegations.iter().map(delegation).collect();
        Store { keys, delegations, revocations: revocations.iter().map(revocation).collect() }
    };
    let s3 = [[0, 1, 2, 0], [1, 2, 3, 0]];
    let s9 = [[0, 1, 2, 0], [1, 2, 3, 1], [1, 3, 3, 1], [3, 4, 2, 0], [0, 3, 1, 0]];
    vec![
        ("S2", store(2, &s3[..1], &[])),
        ("S3", store(3, &s3, &[])),
        ("S4", store(3, &[[0, 1, 2, 0], [1, 2, 3, 1]], &[])),
        ("S5", store(3, &[[1, 2, 1, 0]], &[])),
        ("S6-by-A", store(3, &s3, &[[1, 1]])),
        ("S6-by-B", store(3, &s3, &[[2, 1]])),
        ("S7", store(4, &s3, &[[3, 1]])),
        ("S8", store(3, &[[0, 1, 3, 0], [0, 2, 2, 0]], &[[1, 1]])),
        ("S9", store(5, &s9, &[[2, 3]])),
        ("S10", store(5, &s9[..4], &[[2, 3]])),
        ("S11", store(2, &[[0, 1, 2, 0], [1, 0, 1, 1]], &[])),
    ]
}
