//! Stand-in for thiserror's derive, for the shapes that the text has: a tuple struct or an enum of
//! tuple variants, each with `#[error("...")]` that names its fields `{0}`, `{1}` and so on, and
//! `#[from]` on the only field of a variant.
//!
//! It gives `Display`, `std::error::Error` and, for `#[from]`, `From`.

use proc_macro::{Delimiter, Group, TokenStream, TokenTree};

/// A variant, or the struct itself: its name, its text and the types of its fields.
struct Shape {
    name: String,
    text: String,
    fields: Vec<(String, bool)>,
}

#[proc_macro_derive(Error, attributes(error, from))]
pub fn derive_error(input: TokenStream) -> TokenStream {
    let mut tokens = input.into_iter().peekable();
    let mut text = None;
    let mut is_enum = false;
    let mut name = String::new();
    let mut shapes = Vec::new();
    while let Some(token) = tokens.next() {
        match token {
            TokenTree::Punct(p) if p.as_char() == '#' => {
                if let Some(TokenTree::Group(g)) = tokens.next() {
                    text = error_text(&g).or(text);
                }
            }
            TokenTree::Ident(i) if matches!(i.to_string().as_str(), "struct" | "enum") => {
                is_enum = i.to_string() == "enum";
                name = tokens.next().expect("a name").to_string();
            }
            TokenTree::Group(g) if g.delimiter() == Delimiter::Brace && is_enum => {
                shapes = variants(&g);
            }
            TokenTree::Group(g) if g.delimiter() == Delimiter::Parenthesis && !name.is_empty() => {
                shapes.push(Shape {
                    name: String::new(),
                    text: text.clone().expect("#[error(..)] on the struct"),
                    fields: fields(&g),
                });
            }
            _ => {}
        }
    }
    let mut arms = String::new();
    let mut froms = String::new();
    for shape in &shapes {
        let path = if is_enum { format!("Self::{}", shape.name) } else { "Self".to_string() };
        let names: Vec<String> = (0..shape.fields.len()).map(|k| format!("f{k}")).collect();
        // {0} becomes {f0}, so that a text may leave a field out
        let mut text = shape.text.clone();
        for k in 0..shape.fields.len() {
            text = text.replace(&format!("{{{k}}}"), &format!("{{f{k}}}"));
        }
        let names = names.join(", ");
        arms.push_str(&format!("#[allow(unused_variables)] {path}({names}) => ::core::write!(f, {text}),"));
        if let [(ty, true)] = shape.fields.as_slice() {
            froms.push_str(&format!(
                "impl ::core::convert::From<{ty}> for {name} {{ fn from(e: {ty}) -> {name} {{ {name}::{}(e) }} }}",
                shape.name
            ));
        }
    }
    format!(
        "impl ::core::fmt::Display for {name} {{
            fn fmt(&self, f: &mut ::core::fmt::Formatter<'_>) -> ::core::fmt::Result {{ match self {{ {arms} }} }}
        }}
        impl ::std::error::Error for {name} {{}}
        {froms}"
    )
    .parse()
    .expect("what was put together parses")
}

/// The literal of `error("...")`, quotes included, if the attribute is one.
fn error_text(attribute: &Group) -> Option<String> {
    let mut inside = attribute.stream().into_iter();
    match (inside.next(), inside.next()) {
        (Some(TokenTree::Ident(i)), Some(TokenTree::Group(g))) if i.to_string() == "error" => {
            g.stream().into_iter().next().map(|literal| literal.to_string())
        }
        _ => None,
    }
}

fn variants(body: &Group) -> Vec<Shape> {
    let mut shapes = Vec::new();
    let mut text = None;
    let mut name = None;
    let mut tokens = body.stream().into_iter();
    while let Some(token) = tokens.next() {
        match token {
            TokenTree::Punct(p) if p.as_char() == '#' => {
                if let Some(TokenTree::Group(g)) = tokens.next() {
                    text = error_text(&g).or(text);
                }
            }
            TokenTree::Ident(i) => name = Some(i.to_string()),
            TokenTree::Group(g) => shapes.push(Shape {
                name: name.take().expect("a variant's name"),
                text: text.take().expect("#[error(..)] on the variant"),
                fields: fields(&g),
            }),
            _ => {}
        }
    }
    shapes
}

/// The types between the commas, and whether each carries `#[from]`.
fn fields(body: &Group) -> Vec<(String, bool)> {
    let mut found = Vec::new();
    let mut ty = String::new();
    let mut from = false;
    let mut tokens = body.stream().into_iter();
    while let Some(token) = tokens.next() {
        match token {
            TokenTree::Punct(p) if p.as_char() == '#' => {
                if let Some(TokenTree::Group(g)) = tokens.next() {
                    from |= g.stream().to_string().trim() == "from";
                }
            }
            TokenTree::Punct(p) if p.as_char() == ',' => {
                found.push((std::mem::take(&mut ty), std::mem::take(&mut from)));
            }
            TokenTree::Ident(i) if i.to_string() == "pub" => {}
            other => ty.push_str(&other.to_string()),
        }
    }
    if !ty.is_empty() {
        found.push((ty, from));
    }
    found
}
