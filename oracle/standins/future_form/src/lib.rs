//! Stand-in for `future_form`: the one name that `contract.rs` writes. The `Keyline` trait is compiled and
//! never implemented.
pub trait FutureForm {
    type Future<'a, T>;
}
