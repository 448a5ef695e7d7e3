//! The derives that mem.rs and prelude.rs ask for.
//!
//! `Serialize` and `Deserialize` give nothing: the stand-in traits hold of every type.
//! `GcCompat` gives `relocate`, which copies a value and everything that it points to into the arena's
//! current space. It is written over the compiler's own token trees, so it reads just as much of a
//! declaration as it needs: the name, the parameters, and the names of variants and fields.

use proc_macro::{Delimiter, Group, TokenStream, TokenTree};

#[proc_macro_derive(Serialize)]
pub fn serialize(_: TokenStream) -> TokenStream {
    TokenStream::new()
}

#[proc_macro_derive(Deserialize)]
pub fn deserialize(_: TokenStream) -> TokenStream {
    TokenStream::new()
}

#[proc_macro_derive(GcCompat)]
pub fn gc_compat(input: TokenStream) -> TokenStream {
    let item = Item::read(input);
    item.implementation().parse().expect("the derived text is Rust")
}

/// The fields of a struct or of a variant.
enum Fields {
    Unit,
    Tuple(usize),
    Named(Vec<String>),
}

struct Item {
    name: String,
    /// Each parameter: its name, and its declaration without a default.
    params: Vec<(String, String)>,
    /// Each constructor: its path, and its fields.
    constructors: Vec<(String, Fields)>,
}

impl Item {
    fn read(input: TokenStream) -> Item {
        let tokens: Vec<TokenTree> = input.into_iter().collect();
        let mut at = skip_front_matter(&tokens, 0);
        let is_enum = tokens[at].to_string() == "enum";
        let name = tokens[at + 1].to_string();
        at += 2;
        let mut params = Vec::new();
        if at < tokens.len() && is_punct(&tokens[at], '<') {
            let end = closing_angle(&tokens, at);
            params = pieces(&tokens[at + 1..end]).iter().map(|p| param(p)).collect();
            at = end + 1;
        }
        let body = tokens.get(at);
        let constructors = match (is_enum, body) {
            (true, Some(TokenTree::Group(group))) => variants(&name, group),
            (true, _) => panic!("an enum has a body"),
            (false, body) => vec![(name.clone(), fields(body))],
        };
        Item { name, params, constructors }
    }

    fn implementation(&self) -> String {
        let declared: Vec<&str> = self.params.iter().map(|p| p.1.as_str()).collect();
        let used: Vec<&str> = self.params.iter().map(|p| p.0.as_str()).collect();
        let arms: Vec<String> = self.constructors.iter().map(arm).collect();
        format!(
            "impl<{}> ::libspecr::hidden::GcCompat for {}<{}> {{
                fn relocate(self) -> Self {{ match self {{ {} }} }}
            }}",
            declared.join(", "),
            self.name,
            used.join(", "),
            arms.join(" ")
        )
    }
}

/// One arm of `relocate`: each field is relocated on its own.
fn arm((path, fields): &(String, Fields)) -> String {
    let moved = |name: &String| format!("::libspecr::hidden::GcCompat::relocate({name})");
    match fields {
        Fields::Unit => format!("{path} => {path},"),
        Fields::Tuple(count) => {
            let names: Vec<String> = (0..*count).map(|i| format!("f{i}")).collect();
            let values: Vec<String> = names.iter().map(moved).collect();
            format!("{path}({}) => {path}({}),", names.join(", "), values.join(", "))
        }
        Fields::Named(names) => {
            let values: Vec<String> = names.iter().map(|n| format!("{n}: {}", moved(n))).collect();
            format!("{path} {{ {} }} => {path} {{ {} }},", names.join(", "), values.join(", "))
        }
    }
}

fn variants(name: &str, group: &Group) -> Vec<(String, Fields)> {
    let tokens: Vec<TokenTree> = group.stream().into_iter().collect();
    pieces(&tokens)
        .iter()
        .map(|piece| {
            let at = skip_front_matter(piece, 0);
            (format!("{name}::{}", piece[at]), fields(piece.get(at + 1)))
        })
        .collect()
}

fn fields(body: Option<&TokenTree>) -> Fields {
    let Some(TokenTree::Group(group)) = body else { return Fields::Unit };
    let tokens: Vec<TokenTree> = group.stream().into_iter().collect();
    let parts = pieces(&tokens);
    match group.delimiter() {
        Delimiter::Parenthesis => Fields::Tuple(parts.len()),
        _ => Fields::Named(parts.iter().map(|p| p[skip_front_matter(p, 0)].to_string()).collect()),
    }
}

/// A parameter `Name: Bounds = Default`: its name, and `Name: Bounds`.
fn param(piece: &[TokenTree]) -> (String, String) {
    let end = piece.iter().position(|t| is_punct(t, '=')).unwrap_or(piece.len());
    let declared: TokenStream = piece[..end].iter().cloned().collect();
    (piece[0].to_string(), declared.to_string())
}

/// Step over attributes (comments are attributes here) and a visibility.
fn skip_front_matter(tokens: &[TokenTree], mut at: usize) -> usize {
    loop {
        if is_punct(&tokens[at], '#') {
            at += 2;
        } else if tokens[at].to_string() == "pub" {
            at += 1;
            if matches!(&tokens[at], TokenTree::Group(g) if g.delimiter() == Delimiter::Parenthesis) {
                at += 1;
            }
        } else {
            return at;
        }
    }
}

/// Split at the commas that stand outside angle brackets.
fn pieces(tokens: &[TokenTree]) -> Vec<Vec<TokenTree>> {
    let mut all = Vec::new();
    let mut piece = Vec::new();
    let mut depth = 0;
    for token in tokens {
        depth += is_punct(token, '<') as i32 - is_punct(token, '>') as i32;
        if depth == 0 && is_punct(token, ',') {
            all.push(std::mem::take(&mut piece));
        } else {
            piece.push(token.clone());
        }
    }
    if !piece.is_empty() {
        all.push(piece);
    }
    all
}

fn closing_angle(tokens: &[TokenTree], open: usize) -> usize {
    let mut depth = 0;
    for (at, token) in tokens.iter().enumerate().skip(open) {
        depth += is_punct(token, '<') as i32 - is_punct(token, '>') as i32;
        if depth == 0 {
            return at;
        }
    }
    panic!("an angle bracket is left open")
}

fn is_punct(token: &TokenTree, wanted: char) -> bool {
    matches!(token, TokenTree::Punct(p) if p.as_char() == wanted)
}
