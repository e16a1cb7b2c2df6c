// A stand-in with names only: the `Error` derive, whose messages are the `Debug` text.

//! The least of the `Error` derive that rtcp-types needs: `Display` and `std::error::Error`.

use proc_macro::{TokenStream, TokenTree};

/// Gives an enum without parameters `Display` (its `Debug` text) and `std::error::Error`.
#[proc_macro_derive(Error, attributes(error))]
pub fn derive_error(item: TokenStream) -> TokenStream {
    let name = name_of(item);
    format!(
        "impl ::std::fmt::Display for {name} {{
            fn fmt(&self, f: &mut ::std::fmt::Formatter<'_>) -> ::std::fmt::Result {{
                ::std::fmt::Debug::fmt(self, f)
            }}
        }}
        impl ::std::error::Error for {name} {{}}"
    )
    .parse()
    .expect("the two implementations are well formed")
}

/// The word after `enum`.
fn name_of(item: TokenStream) -> String {
    item.into_iter()
        .skip_while(|token| !matches!(token, TokenTree::Ident(word) if word.to_string() == "enum"))
        .nth(1)
        .expect("an enum has a name")
        .to_string()
}
