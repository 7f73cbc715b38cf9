//! Stands in for derive_more's `From`, for enums without generics whose variants are units or have one unnamed field.
//!
//! As in the real one (from 1.0 on): a variant `V(T)` gives `From<T>`; `#[from(A, B)]` on it gives `From<A>` and
//! `From<B>` through `T`'s own `From`; as soon as one variant has such an attribute, those without give none; a unit
//! gives none; and an attribute `#[from(..)]` on the enum itself is let through and has no effect. Anything else is an
//! error at compile time.

use proc_macro::{Delimiter, Group, TokenStream, TokenTree};

#[proc_macro_derive(From, attributes(from))]
pub fn derive_from(item: TokenStream) -> TokenStream {
    let code = read_enum(item).map(|(name, variants)| implementations(&name, &variants));
    let code = code.unwrap_or_else(|problem| format!("compile_error!({problem:?});"));
    code.parse().expect("the generated code is Rust")
}

/// A variant, as far as conversions go.
#[derive(Default)]
struct Variant {
    name: String,
    /// The types in its `#[from(..)]`, if it has one.
    types: Option<Vec<String>>,
    /// The type of its field, if it is no unit.
    field: Option<String>,
}

/// The enum's name and its variants.
fn read_enum(item: TokenStream) -> Result<(String, Vec<Variant>), String> {
    let mut tokens = item.into_iter().skip_while(|token| token.to_string() != "enum").skip(1);
    let name = tokens.next().ok_or("From can be derived for an enum only")?.to_string();
    match tokens.next() {
        Some(TokenTree::Group(body)) if body.delimiter() == Delimiter::Brace => {
            let variants = split_at_commas(body.stream()).into_iter().map(read_variant).collect::<Result<_, _>>()?;
            Ok((name, variants))
        }
        _ => Err("an enum with generics is not dealt with".to_string()),
    }
}

/// The runs of tokens between commas. Commas inside brackets of any sort but `<>` don't count, being inside a group.
fn split_at_commas(tokens: TokenStream) -> Vec<Vec<TokenTree>> {
    let mut runs = vec![Vec::new()];
    for token in tokens {
        match (&token, runs.last_mut()) {
            (TokenTree::Punct(comma), _) if comma.as_char() == ',' => runs.push(Vec::new()),
            (_, Some(run)) => run.push(token),
            _ => {}
        }
    }
    runs.retain(|run| !run.is_empty());
    runs
}

fn read_variant(tokens: Vec<TokenTree>) -> Result<Variant, String> {
    let mut variant = Variant::default();
    for token in tokens {
        match token {
            TokenTree::Group(group) if group.delimiter() == Delimiter::Bracket => read_attribute(&mut variant, group),
            TokenTree::Group(group) if group.delimiter() == Delimiter::Parenthesis => {
                let fields = split_at_commas(group.stream());
                let [field] = fields.as_slice() else { return Err("a variant with several fields is not dealt with".to_string()) };
                variant.field = Some(source(field));
            }
            TokenTree::Ident(name) => variant.name = name.to_string(),
            TokenTree::Punct(hash) if hash.as_char() == '#' => {}
            other => return Err(format!("`{other}` in a variant is not dealt with")),
        }
    }
    Ok(variant)
}

/// Takes the types from `[from(A, B)]`; any other attribute, such as a comment, is none of our business.
fn read_attribute(variant: &mut Variant, attribute: Group) {
    let mut tokens = attribute.stream().into_iter();
    let is_from = tokens.next().is_some_and(|name| name.to_string() == "from");
    if let (true, Some(TokenTree::Group(list))) = (is_from, tokens.next()) {
        variant.types = Some(split_at_commas(list.stream()).iter().map(|run| source(run)).collect());
    }
}

fn source(tokens: &[TokenTree]) -> String {
    tokens.iter().cloned().collect::<TokenStream>().to_string()
}

fn implementations(name: &str, variants: &[Variant]) -> String {
    let some_explicit = variants.iter().any(|variant| variant.types.is_some());
    let mut code = String::new();
    for variant in variants {
        let Some(field) = &variant.field else { continue };
        let types = match &variant.types {
            Some(types) => types.clone(),
            None if some_explicit => continue,
            None => vec![field.clone()],
        };
        for from in types {
            code += &implementation(name, &variant.name, field, &from);
        }
    }
    code
}

fn implementation(name: &str, variant: &str, field: &str, from: &str) -> String {
    format!(
        "impl ::core::convert::From<{from}> for {name} {{
            fn from(value: {from}) -> Self {{
                {name}::{variant}(<{field} as ::core::convert::From<{from}>>::from(value))
            }}
        }}"
    )
}
