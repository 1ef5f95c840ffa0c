//! `derive(Snafu)` for enums of variants with named fields or none: `Display`, `Error`, a selector with `build` and `fail` for each
//! variant, and `From` for a variant marked `transparent`. Just what the original asks of the crate of this name.
use proc_macro::{Delimiter, TokenStream, TokenTree};
use std::fmt::Write;

struct Field {
    name: String,
    kind: String,
}

struct Variant {
    name: String,
    display: Option<String>,
    transparent: bool,
    fields: Vec<Field>,
}

#[proc_macro_derive(Snafu, attributes(snafu))]
pub fn snafu(input: TokenStream) -> TokenStream {
    let (name, body) = parse_enum(input);
    let variants = parse_variants(body);

    let mut out = String::new();
    let mut displays = String::new();
    for variant in &variants {
        display_arm(&mut displays, variant);
        if variant.transparent {
            from_source(&mut out, &name, variant);
        } else {
            selector(&mut out, &name, variant);
        }
    }
    write!(
        out,
        "impl ::std::error::Error for {name} {{}}
         impl ::std::fmt::Display for {name} {{
             #[allow(unused_variables)]
             fn fmt(&self, f: &mut ::std::fmt::Formatter<'_>) -> ::std::fmt::Result {{ match self {{ {displays} }} }}
         }}"
    )
    .unwrap();
    out.parse().expect("the derived code is Rust")
}

fn parse_enum(input: TokenStream) -> (String, TokenStream) {
    let mut tokens = input.into_iter();
    for token in tokens.by_ref() {
        if matches!(&token, TokenTree::Ident(word) if word.to_string() == "enum") {
            break;
        }
    }
    let name = tokens.next().expect("an enum has a name").to_string();
    let Some(TokenTree::Group(body)) = tokens.next() else { panic!("no parameters are expected after {name}") };
    (name, body.stream())
}

fn parse_variants(body: TokenStream) -> Vec<Variant> {
    let mut variants = Vec::new();
    let (mut display, mut transparent) = (None, false);
    let mut tokens = body.into_iter().peekable();
    while let Some(token) = tokens.next() {
        match token {
            TokenTree::Punct(mark) if mark.as_char() == '#' => {
                if let Some(TokenTree::Group(attribute)) = tokens.next() {
                    read_attribute(attribute.stream(), &mut display, &mut transparent);
                }
            }
            TokenTree::Punct(_) => {}
            TokenTree::Ident(name) => {
                let mut fields = Vec::new();
                if let Some(TokenTree::Group(group)) = tokens.peek()
                    && group.delimiter() == Delimiter::Brace
                {
                    fields = parse_fields(group.stream());
                    tokens.next();
                }
                variants.push(Variant { name: name.to_string(), display: display.take(), transparent, fields });
                transparent = false;
            }
            other => panic!("not expected in an enum: {other}"),
        }
    }
    variants
}

fn read_attribute(attribute: TokenStream, display: &mut Option<String>, transparent: &mut bool) {
    let mut tokens = attribute.into_iter();
    if !matches!(tokens.next(), Some(TokenTree::Ident(name)) if name.to_string() == "snafu") {
        return;
    }
    let Some(TokenTree::Group(arguments)) = tokens.next() else { return };
    let mut arguments = arguments.stream().into_iter();
    match arguments.next().map(|word| word.to_string()).as_deref() {
        Some("transparent") => *transparent = true,
        Some("display") => {
            let Some(TokenTree::Group(text)) = arguments.next() else { panic!("display has a text") };
            *display = Some(text.stream().to_string());
        }
        other => panic!("not known: {other:?}"),
    }
}

// Types are cut at commas outside of angle brackets.
fn parse_fields(fields: TokenStream) -> Vec<Field> {
    let mut found = Vec::new();
    let mut tokens = fields.into_iter();
    while let Some(name) = tokens.next() {
        tokens.next().expect("a colon");
        let (mut kind, mut depth) = (TokenStream::new(), 0);
        for token in tokens.by_ref() {
            if let TokenTree::Punct(mark) = &token {
                match mark.as_char() {
                    ',' if depth == 0 => break,
                    '<' => depth += 1,
                    '>' => depth -= 1,
                    _ => {}
                }
            }
            kind.extend([token]);
        }
        found.push(Field { name: name.to_string(), kind: kind.to_string() });
    }
    found
}

fn names(variant: &Variant) -> String {
    variant.fields.iter().map(|field| format!("{}, ", field.name)).collect()
}

fn display_arm(out: &mut String, variant: &Variant) {
    let text = match (&variant.display, variant.transparent) {
        (Some(text), _) => text.clone(),
        (None, true) => "\"{source}\"".to_string(),
        (None, false) => format!("{:?}", variant.name),
    };
    write!(out, "Self::{} {{ {} }} => write!(f, {text}),", variant.name, names(variant)).unwrap();
}

fn from_source(out: &mut String, name: &str, variant: &Variant) {
    let source = &variant.fields[0].kind;
    write!(out, "impl From<{source}> for {name} {{ fn from(source: {source}) -> Self {{ Self::{} {{ source }} }} }}", variant.name)
        .unwrap();
}

// A field of a selector takes whatever turns into the variant's; a backtrace is made by `build`.
fn selector(out: &mut String, name: &str, variant: &Variant) {
    let given: Vec<_> = variant.fields.iter().filter(|field| field.name != "backtrace").collect();
    let declared: String = given.iter().enumerate().map(|(i, field)| format!("{}: T{i},", field.name)).collect();
    let parameters: String = (0..given.len()).map(|i| format!("T{i},")).collect();
    let bounds: String = given.iter().enumerate().map(|(i, field)| format!("T{i}: Into<{}>,", field.kind)).collect();
    let filled: String = variant
        .fields
        .iter()
        .map(|field| match field.name.as_str() {
            "backtrace" => "backtrace: ::std::backtrace::Backtrace::capture(),".to_string(),
            name => format!("{name}: self.{name}.into(),"),
        })
        .collect();
    let (variant, body) = (&variant.name, if given.is_empty() { ";".to_string() } else { format!("{{ {declared} }}") });
    write!(
        out,
        "#[allow(dead_code)] struct {variant}Snafu<{parameters}> {body}
         #[allow(dead_code)]
         impl<{parameters}> {variant}Snafu<{parameters}> where {bounds} {{
             fn build(self) -> {name} {{ {name}::{variant} {{ {filled} }} }}
             fn fail<Answer>(self) -> Result<Answer, {name}> {{ Err(self.build()) }}
         }}"
    )
    .unwrap();
}
