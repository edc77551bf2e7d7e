//! The two derives for plain structs: an empty implementation under the struct's name.
use proc_macro::{TokenStream, TokenTree};

fn name_of(item: TokenStream) -> String {
    let mut tokens = item.into_iter();
    while let Some(token) = tokens.next() {
        if let TokenTree::Ident(word) = &token {
            if word.to_string() == "struct" {
                return tokens.next().expect("a struct has a name").to_string();
            }
        }
    }
    panic!("only structs are derived")
}

#[proc_macro_derive(IntoBytes)]
pub fn into_bytes(item: TokenStream) -> TokenStream {
    let text = format!("unsafe impl ::zerocopy::IntoBytes for {} {{}}", name_of(item));
    text.parse().expect("an implementation")
}

#[proc_macro_derive(Immutable)]
pub fn immutable(item: TokenStream) -> TokenStream {
    let text = format!("impl ::zerocopy::Immutable for {} {{}}", name_of(item));
    text.parse().expect("an implementation")
}
