//! Stands in for thiserror: derives Display and Error for an enum whose variants carry #[error("text")] and at most unnamed
//! fields. A field is named in the text by its number, as in "Internal Error: {1}".

use proc_macro::{Delimiter, TokenStream, TokenTree};

#[proc_macro_derive(Error, attributes(error))]
pub fn error(item: TokenStream) -> TokenStream {
    let mut tokens = item.into_iter().skip_while(|t| t.to_string() != "enum").skip(1);
    let name = tokens.next().expect("the name of an enum");
    let Some(TokenTree::Group(body)) = tokens.next() else {
        panic!("the variants of {name} in braces");
    };
    let mut arms = String::new();
    let mut text = String::new();
    let mut tokens = body.stream().into_iter().peekable();
    while let Some(token) = tokens.next() {
        match token {
            // an attribute: '#', then the brackets
            TokenTree::Punct(p) if p.as_char() == '#' => {
                if let Some(TokenTree::Group(g)) = tokens.next() {
                    text = error_text(g.stream()).unwrap_or(text);
                }
            }
            TokenTree::Ident(variant) => {
                let mut fields = 0;
                if let Some(TokenTree::Group(g)) = tokens.peek()
                    && g.delimiter() == Delimiter::Parenthesis
                {
                    fields = g.stream().to_string().split(',').count();
                    tokens.next();
                }
                arms += &arm(&variant.to_string(), fields, &text);
            }
            _ => {}
        }
    }
    format!(
        "impl ::std::fmt::Display for {name} {{
            fn fmt(&self, f: &mut ::std::fmt::Formatter<'_>) -> ::std::fmt::Result {{
                match self {{ {arms} }}
            }}
        }}
        impl ::std::error::Error for {name} {{}}"
    )
    .parse()
    .expect("what is written above is Rust")
}

/// The literal of #[error(literal)]; none for another attribute, as a doc comment.
fn error_text(attribute: TokenStream) -> Option<String> {
    let mut tokens = attribute.into_iter();
    if tokens.next()?.to_string() != "error" {
        return None;
    }
    match tokens.next()? {
        TokenTree::Group(g) => Some(g.stream().to_string()),
        _ => None,
    }
}

/// One arm of Display's match: the fields that the text names are bound as f0, f1, ..
fn arm(variant: &str, fields: usize, text: &str) -> String {
    let mut text = text.to_string();
    let mut bound = Vec::new();
    for k in 0..fields {
        let named = text.replace(&format!("{{{k}}}"), &format!("{{f{k}}}"));
        bound.push(if named == text { "_".to_string() } else { format!("f{k}") });
        text = named;
    }
    let pattern = if fields == 0 { String::new() } else { format!("({})", bound.join(", ")) };
    format!("Self::{variant}{pattern} => write!(f, {text}),\n")
}
