//! Stand-in for `num_enum`: `TryFromPrimitive` makes `TryFrom<u8>`. A byte becomes the variant whose number, as the
//! compiler gives it, is that byte; any other byte is an error.

use proc_macro::{Delimiter, TokenStream, TokenTree};

#[proc_macro_derive(TryFromPrimitive)]
pub fn try_from_primitive(item: TokenStream) -> TokenStream {
    let mut tokens = item.into_iter();
    tokens.find(|t| t.to_string() == "enum").expect("an enum");
    let name = tokens.next().expect("a name").to_string();
    let body = tokens.find_map(|t| match t {
        TokenTree::Group(g) if g.delimiter() == Delimiter::Brace => Some(g.stream()),
        _ => None,
    });

    let (mut consts, mut arms) = (String::new(), String::new());
    for variant in variants(body.expect("a body")) {
        consts += &format!("const IS_{variant}: u8 = {name}::{variant} as u8;");
        arms += &format!("IS_{variant} => Ok({name}::{variant}),");
    }
    let code = format!(
        "impl ::core::convert::TryFrom<u8> for {name} {{
            type Error = u8;
            #[allow(non_upper_case_globals)]
            fn try_from(byte: u8) -> ::core::result::Result<Self, u8> {{
                {consts}
                match byte {{ {arms} _ => Err(byte) }}
            }}
        }}"
    );
    code.parse().unwrap()
}

/// The first name of each variant: attributes come before it, `= number` behind it.
fn variants(body: TokenStream) -> Vec<String> {
    let (mut names, mut wanted) = (Vec::new(), true);
    for token in body {
        match token {
            TokenTree::Ident(name) if wanted => {
                names.push(name.to_string());
                wanted = false;
            }
            TokenTree::Punct(p) if p.as_char() == ',' => wanted = true,
            _ => {}
        }
    }
    names
}
