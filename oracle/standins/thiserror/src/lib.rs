//! Stand-in for `thiserror::Error` on types without parameters: `Display` is the `Debug` text in place of
//! the message. No answer compared here reads a message.
use proc_macro::{TokenStream, TokenTree};

#[proc_macro_derive(Error, attributes(error))]
pub fn error(item: TokenStream) -> TokenStream {
    let mut tokens = item.into_iter();
    let keyword = |t: &TokenTree| matches!(t.to_string().as_str(), "struct" | "enum");
    tokens.find(keyword);
    let name = tokens.next().expect("a name follows struct or enum");
    format!(
        "impl ::core::error::Error for {name} {{}}
         impl ::core::fmt::Display for {name} {{
             fn fmt(&self, f: &mut ::core::fmt::Formatter<'_>) -> ::core::fmt::Result {{
                 ::core::fmt::Debug::fmt(self, f)
             }}
         }}"
    )
    .parse()
    .expect("the text above is Rust")
}
