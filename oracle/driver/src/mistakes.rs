//! Twenty deliberate mistakes in the plain reading, as switches of `naive`. A comparison is worth something
//! only if it notices them: `bin/mistakes.rs` asks which recipes do.

#[derive(Clone, Copy, Debug, PartialEq, Eq)]
pub enum Mistake {
    NoMistake,
    RevokersOnly,
    CoveredIsDead,
    OneLiveRound,
    NoCaps,
    CapsFromTheTop,
    OneCapRound,
    NoAudienceCheck,
    RevokersApart,
    ReachAtEdit,
    SubjectNotExcluded,
    RevokedIsCovered,
    ConveyedIgnoresCap,
    ShallowComposition,
    GreatestLiveSet,
    EndpointsNotTested,
    ReachWithoutRevoker,
    UncoveredIsLive,
    AudiencesNotExcluded,
    CapsNotPassedOn,
    CoverageAtAdmin,
}

use Mistake::*;

impl Mistake {
    /// Each with what it says in place of document 01, in the order of their numbers, from 1.
    pub const ALL: [(Mistake, &'static str); 20] = [
        (RevokersOnly, "N(d) is the revokers only"),
        (CoveredIsDead, "every covered delegation is dead"),
        (OneLiveRound, "the live set stops after one round"),
        (NoCaps, "no caps: a live covered one passes its power"),
        (CapsFromTheTop, "caps fall from the power, not rise from Relay"),
        (OneCapRound, "the caps stop after one round"),
        (NoAudienceCheck, "the audience's own revocation is not looked for"),
        (RevokersApart, "each revoker's exclusion is tried alone"),
        (ReachAtEdit, "N(d) takes subjects held at Edit or more"),
        (SubjectNotExcluded, "a subject in N(d) still stands over itself"),
        (RevokedIsCovered, "every revoked delegation counts as covered"),
        (ConveyedIgnoresCap, "conveyed is min(power, issuer's level) always"),
        (ShallowComposition, "D3 only through edges that u itself issued"),
        (GreatestLiveSet, "the live set is the greatest, not the least"),
        (EndpointsNotTested, "issuer and subject are not looked for in N(d)"),
        (ReachWithoutRevoker, "N(d) leaves the revokers themselves out"),
        (UncoveredIsLive, "every uncovered delegation is live"),
        (AudiencesNotExcluded, "D2 goes to audiences in N"),
        (CapsNotPassedOn, "inside the caps, c is the power"),
        (CoverageAtAdmin, "covered asks for standing at Admin"),
    ];

    /// Two change no answer: a revoked delegation that is not covered is judged as an uncovered one is,
    /// and D1 and D2 leave excluded endpoints without standing anyway.
    pub fn is_harmless(self) -> bool {
        matches!(self, RevokedIsCovered | EndpointsNotTested)
    }
}
