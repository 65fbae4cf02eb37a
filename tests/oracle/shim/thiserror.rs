// Stands in for the package `thiserror`: its derive gives an error type Display, Error, and From for each `#[from]`.
// The texts of the errors are left out; Display prints what Debug prints.

extern crate proc_macro;

use proc_macro::{Delimiter, Group, TokenStream, TokenTree};

#[proc_macro_derive(Error, attributes(error, from))]
pub fn derive_error(input: TokenStream) -> TokenStream {
    let tokens: Vec<TokenTree> = input.into_iter().collect();
    let name = name_after_enum(&tokens);
    let body = match tokens.last() {
        Some(TokenTree::Group(body)) => body.stream().into_iter().collect::<Vec<_>>(),
        _ => panic!("an enum ends with its body"),
    };
    let mut code = format!(
        "impl ::std::fmt::Display for {0} {{
             fn fmt(&self, f: &mut ::std::fmt::Formatter<'_>) -> ::std::fmt::Result {{ write!(f, \"{{:?}}\", self) }}
         }}
         impl ::std::error::Error for {0} {{}}",
        name
    );
    for pair in body.windows(2) {
        if let [TokenTree::Ident(variant), TokenTree::Group(fields)] = pair {
            if let Some(source) = type_marked_from(fields) {
                code += &format!(
                    "impl From<{1}> for {0} {{ fn from(source: {1}) -> Self {{ {0}::{2}(source) }} }}",
                    name, source, variant
                );
            }
        }
    }
    code.parse().expect("the derived code is Rust")
}

fn name_after_enum(tokens: &[TokenTree]) -> String {
    let at = tokens
        .iter()
        .position(|token| token.to_string() == "enum")
        .expect("only enums derive Error here");
    tokens[at + 1].to_string()
}

fn type_marked_from(fields: &Group) -> Option<TokenStream> {
    let mut tokens = fields.stream().into_iter();
    let hash = tokens.next()?;
    let mark = tokens.next()?;
    let marked = fields.delimiter() == Delimiter::Parenthesis
        && hash.to_string() == "#"
        && mark.to_string() == "[from]";
    if marked {
        Some(tokens.collect())
    } else {
        None
    }
}
