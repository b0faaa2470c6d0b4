//! `derive(TryFromPrimitive)` for an enum of unit variants, each with its number written out.

extern crate proc_macro;

use proc_macro::{TokenStream, TokenTree};

#[proc_macro_derive(TryFromPrimitive)]
pub fn try_from_primitive(item: TokenStream) -> TokenStream {
    let (name, variants) = name_and_variants(item);
    let arms: String = variants
        .iter()
        .map(|variant| {
            format!("number if number == {name}::{variant} as u8 => Ok({name}::{variant}),")
        })
        .collect();
    format!(
        "impl ::num_enum::TryFromPrimitive for {name} {{
             fn try_from_primitive(number: u8)
                 -> ::core::result::Result<Self, ::num_enum::TryFromPrimitiveError>
             {{
                 match number {{ {arms} _ => Err(::num_enum::TryFromPrimitiveError) }}
             }}
         }}"
    )
    .parse()
    .expect("the derived code is Rust")
}

/// The name comes after the word `enum`; a variant is a name before `=`.
fn name_and_variants(item: TokenStream) -> (String, Vec<String>) {
    let mut tokens = item.into_iter();
    tokens
        .find(|token| token.to_string() == "enum")
        .expect("derived for an enum");
    let name = tokens.next().expect("an enum has a name").to_string();
    let Some(TokenTree::Group(body)) = tokens.next() else {
        panic!("an enum without parameters has its body behind its name");
    };
    let body: Vec<TokenTree> = body.stream().into_iter().collect();
    let variants = body
        .windows(2)
        .filter(|pair| pair[1].to_string() == "=")
        .map(|pair| pair[0].to_string())
        .collect();
    (name, variants)
}
