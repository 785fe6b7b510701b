//! The derive of `enum_iterator`, for enums whose variants carry nothing.

use proc_macro::{TokenStream, TokenTree};

#[proc_macro_derive(Sequence)]
pub fn sequence(item: TokenStream) -> TokenStream {
    let mut tokens = item
        .into_iter()
        .skip_while(|token| token.to_string() != "enum")
        .skip(1);
    let name = tokens.next().expect("an enum's name").to_string();
    let Some(TokenTree::Group(body)) = tokens.next() else {
        panic!("Sequence is derived for plain enums only");
    };
    let variants: Vec<String> = body
        .stream()
        .into_iter()
        .filter_map(|token| match token {
            TokenTree::Ident(variant) => Some(format!("{name}::{variant}")),
            _ => None,
        })
        .collect();
    format!(
        "impl ::enum_iterator::Sequence for {name} {{ const ALL: &'static [Self] = &[{}]; }}",
        variants.join(", ")
    )
    .parse()
    .expect("an impl")
}
