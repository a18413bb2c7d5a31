//! Stand-in for crate `rhai_codegen`: the one attribute that the original files use.

extern crate proc_macro;

use proc_macro::{TokenStream, TokenTree};

/// Makes a private function visible in its crate, as the real attribute does without `internals`.
#[proc_macro_attribute]
pub fn expose_under_internals(_: TokenStream, item: TokenStream) -> TokenStream {
    let mut result = TokenStream::new();
    let mut done = false;
    for token in item {
        if !done && matches!(&token, TokenTree::Ident(word) if word.to_string() == "fn") {
            result.extend("pub(crate)".parse::<TokenStream>());
            done = true;
        }
        result.extend([token]);
    }
    result
}
