//! A stand-in for `#[derive(thiserror::Error)]`, enough for the crate's `Error`, a struct without type parameters.
//! `Display` shows what the type's own `Debug` shows; the text in `#[error(..)]` is not read.
use proc_macro::{TokenStream, TokenTree};

#[proc_macro_derive(Error, attributes(error))]
pub fn error(input: TokenStream) -> TokenStream {
    let mut words = input.into_iter().filter_map(|t| match t {
        TokenTree::Ident(word) => Some(word.to_string()),
        _ => None,
    });
    let name = match words.by_ref().find(|w| w == "struct") {
        Some(_) => words.next().expect("a struct has a name"),
        None => panic!("the stand-in derives Error for a struct only"),
    };
    format!(
        "impl ::std::fmt::Display for {name} {{
            fn fmt(&self, f: &mut ::std::fmt::Formatter<'_>) -> ::std::fmt::Result {{
                ::std::fmt::Debug::fmt(self, f)
            }}
        }}
        impl ::std::error::Error for {name} {{}}"
    )
    .parse()
    .expect("the two impls are Rust")
}
