//! Stand-in for the attribute `#[bitflags]`: the enum stays as it is, and two impls follow it.

use proc_macro::{Delimiter, TokenStream, TokenTree};

#[proc_macro_attribute]
pub fn bitflags(_: TokenStream, item: TokenStream) -> TokenStream {
    let (name, variants) = enum_parts(item.clone());
    let all = variants
        .iter()
        .map(|v| format!("({name}::{v} as u32)"))
        .collect::<Vec<_>>()
        .join(" | ");
    let impls = format!(
        "impl ::enumflags2::BitFlag for {name} {{
            const ALL: u32 = {all};
            fn bit(self) -> u32 {{ self as u32 }}
        }}
        impl ::core::ops::BitOr for {name} {{
            type Output = ::enumflags2::BitFlags<{name}>;
            fn bitor(self, other: Self) -> Self::Output {{
                ::enumflags2::BitFlags::from_bits_truncate(self as u32 | other as u32)
            }}
        }}"
    );
    let mut out = item;
    out.extend(impls.parse::<TokenStream>().expect("the impls are Rust"));
    out
}

/// The name after `enum`, and each identifier in its braces that an `=` follows.
fn enum_parts(item: TokenStream) -> (String, Vec<String>) {
    let mut name = String::new();
    let mut variants = Vec::new();
    let mut last = String::new();
    for token in item {
        match token {
            TokenTree::Ident(i) => {
                if last == "enum" {
                    name = i.to_string();
                }
                last = i.to_string();
            }
            TokenTree::Group(g) if g.delimiter() == Delimiter::Brace => {
                let tokens: Vec<TokenTree> = g.stream().into_iter().collect();
                for pair in tokens.windows(2) {
                    if let [TokenTree::Ident(i), TokenTree::Punct(p)] = pair {
                        if p.as_char() == '=' {
                            variants.push(i.to_string());
                        }
                    }
                }
            }
            _ => (),
        }
    }
    (name, variants)
}
