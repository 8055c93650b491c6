//! Stand-in for the derive `Error` of the crate `thiserror`.
//!
//! It covers one shape only: a struct with one attribute `error` that holds a
//! format text and then names of fields. The struct gets `Display`, which
//! writes that text with those fields, and `std::error::Error`.

extern crate proc_macro;

use proc_macro::{Delimiter, TokenStream, TokenTree};

#[proc_macro_derive(Error, attributes(error))]
pub fn derive_error(item: TokenStream) -> TokenStream {
    let mut name = None;
    let mut format_words = None;
    let mut after_struct = false;

    for token in item {
        match token {
            TokenTree::Group(g) if g.delimiter() == Delimiter::Bracket => {
                if let Some(words) = error_attribute(g.stream()) {
                    format_words = Some(words);
                }
            }
            TokenTree::Ident(word) => {
                if after_struct && name.is_none() {
                    name = Some(word.to_string());
                }
                after_struct = word.to_string() == "struct";
            }
            _ => {}
        }
    }

    let name = name.expect("a struct with a name");
    let format_words = format_words.expect("an attribute `error`");
    let text = format!(
        "impl ::std::fmt::Display for {name} {{
            fn fmt(&self, out: &mut ::std::fmt::Formatter<'_>) -> ::std::fmt::Result {{
                ::std::write!(out, {format_words})
            }}
        }}
        impl ::std::error::Error for {name} {{}}"
    );
    text.parse().expect("readable Rust")
}

/// The words of `error(..)`, each name of a field with `self.` before it.
fn error_attribute(inside: TokenStream) -> Option<String> {
    let mut tokens = inside.into_iter();
    match tokens.next() {
        Some(TokenTree::Ident(word)) if word.to_string() == "error" => {}
        _ => return None,
    }
    let Some(TokenTree::Group(arguments)) = tokens.next() else {
        return None;
    };
    let mut words = String::new();
    for token in arguments.stream() {
        match token {
            TokenTree::Ident(field) => words.push_str(&format!("self.{field}")),
            other => words.push_str(&other.to_string()),
        }
    }
    Some(words)
}
