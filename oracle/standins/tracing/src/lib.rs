//! Stand-in for `tracing`. Nothing is logged, as with no subscriber; a `trace!` line is counted by the
//! crate it stands in, through that crate's own `rounds::traced`.
use proc_macro::{TokenStream, TokenTree};

#[proc_macro]
pub fn debug(_: TokenStream) -> TokenStream {
    TokenStream::new()
}

/// The message is the last literal: fields come before it.
#[proc_macro]
pub fn trace(line: TokenStream) -> TokenStream {
    let message = line
        .into_iter()
        .filter_map(|t| match t {
            TokenTree::Literal(l) => Some(l.to_string()),
            _ => None,
        })
        .last()
        .expect("a traced line has a message");
    format!("crate::rounds::traced({message})").parse().expect("the text above is Rust")
}

#[proc_macro_attribute]
pub fn instrument(_: TokenStream, item: TokenStream) -> TokenStream {
    item
}
