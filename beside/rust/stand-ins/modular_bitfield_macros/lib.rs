//! The macros of the stand-in for `modular_bitfield`.

use proc_macro::{Delimiter, TokenStream, TokenTree};

/// `#[bitfield(bits = N)]`: the struct becomes one number, and each field a getter and two setters.
#[proc_macro_attribute]
pub fn bitfield(bits: TokenStream, item: TokenStream) -> TokenStream {
    let bits: usize = bits.into_iter().last().expect("bits = N").to_string().parse().unwrap();
    let (mut head, mut name, mut body) = (TokenStream::new(), String::new(), TokenStream::new());
    for token in item {
        match token {
            TokenTree::Group(g) if g.delimiter() == Delimiter::Brace => body = g.stream(),
            token => {
                name = token.to_string();
                head.extend([token]);
            }
        }
    }

    let spec = |ty: &str| format!("<{ty} as ::modular_bitfield::Specifier>");
    let mut at = "0".to_string();
    let mut methods = String::new();
    for (vis, field, ty) in fields(body) {
        let spec = spec(&ty);
        let mask = format!("(((1u64 << {spec}::BITS) - 1) << ({at}))");
        methods += &format!(
            "{vis} fn {field}(&self) -> {spec}::Value {{ {spec}::from_bits((self.bits & {mask}) >> ({at})) }}
             {vis} fn set_{field}(&mut self, value: {spec}::Value) {{
                 self.bits = (self.bits & !{mask}) | ({spec}::into_bits(value) << ({at}));
             }}
             {vis} fn with_{field}(mut self, value: {spec}::Value) -> Self {{ self.set_{field}(value); self }}"
        );
        at += &format!(" + {spec}::BITS");
    }
    let bytes = bits.div_ceil(8);
    let code = format!(
        "{head} {{ bits: u64 }}
        const _: () = assert!({at} == {bits});
        #[allow(dead_code)]
        impl {name} {{
            pub fn new() -> Self {{ Self {{ bits: 0 }} }}
            pub fn from_bytes(bytes: [u8; {bytes}]) -> Self {{
                let mut all = [0; 8];
                all[..{bytes}].copy_from_slice(&bytes);
                Self {{ bits: u64::from_le_bytes(all) }}
            }}
            pub fn into_bytes(self) -> [u8; {bytes}] {{
                let mut bytes = [0; {bytes}];
                bytes.copy_from_slice(&self.bits.to_le_bytes()[..{bytes}]);
                bytes
            }}
            {methods}
        }}
        impl ::modular_bitfield::Specifier for {name} {{
            const BITS: usize = {bits};
            type Value = {name};
            fn from_bits(bits: u64) -> Self {{ Self {{ bits }} }}
            fn into_bits(value: Self) -> u64 {{ value.bits }}
        }}"
    );
    code.parse().unwrap()
}

/// `#[bitfield]` already makes every struct a specifier.
#[proc_macro_derive(BitfieldSpecifier)]
pub fn bitfield_specifier(_: TokenStream) -> TokenStream {
    TokenStream::new()
}

/// Each field's visibility, name and type; attributes are left out.
fn fields(body: TokenStream) -> Vec<(String, String, String)> {
    let mut fields = Vec::new();
    let mut words: Vec<String> = Vec::new();
    let mut attribute = false;
    let mut tokens: Vec<TokenTree> = body.into_iter().collect();
    tokens.push(",".parse::<TokenStream>().unwrap().into_iter().next().unwrap());
    for token in tokens {
        match token.to_string().as_str() {
            "#" => attribute = true,
            _ if attribute => attribute = false,
            "," => {
                if let Some(colon) = words.iter().position(|w| w == ":") {
                    fields.push((words[..colon - 1].concat(), words[colon - 1].clone(), words[colon + 1..].concat()));
                }
                words.clear();
            }
            word => words.push(word.to_string()),
        }
    }
    fields
}
