//! A small checker for the part of Graphviz's language that the tool writes: one `digraph`, a `graph` line, states and edges with attribute lists.
//! What it does not know is an error: it is stricter than Graphviz.
use std::collections::BTreeMap;

pub type Attributes = BTreeMap<String, String>;

#[derive(Debug, Default)]
pub struct Graph {
    pub attributes: Attributes,
    pub states: Vec<(String, Attributes)>,
    pub edges: Vec<(String, String, Attributes)>,
}

#[derive(Clone, Debug, PartialEq, Eq)]
enum Token {
    Word(String),
    Quoted(String),
    Sign(&'static str),
}

impl Token {
    fn text(&self) -> String {
        match self {
            Token::Word(text) | Token::Quoted(text) => text.clone(),
            Token::Sign(text) => text.to_string(),
        }
    }
}

const SIGNS: [&str; 8] = ["->", "{", "}", "[", "]", "=", ",", ";"];
const KEYWORDS: [&str; 6] = ["strict", "graph", "digraph", "node", "edge", "subgraph"];

pub fn read(text: &str) -> Result<Graph, String> {
    let tokens = tokens(text)?;
    let mut reader = Reader { rest: &tokens };
    reader.keyword("digraph")?;
    reader.quoted()?;
    reader.sign("{")?;
    let mut graph = Graph::default();
    while reader.sign("}").is_err() {
        reader.statement(&mut graph)?;
    }
    match reader.rest {
        [] => Ok(graph),
        [token, ..] => Err(format!("{token:?} after the end")),
    }
}

struct Reader<'a> {
    rest: &'a [Token],
}

impl Reader<'_> {
    fn statement(&mut self, graph: &mut Graph) -> Result<(), String> {
        if self.keyword("graph").is_ok() {
            graph.attributes.extend(self.attributes()?);
            return self.sign(";");
        }
        let from = self.quoted()?;
        if self.sign("->").is_ok() {
            let to = self.quoted()?;
            let attributes = self.attributes()?;
            graph.edges.push((from, to, attributes));
        } else {
            let attributes = self.attributes()?;
            graph.states.push((from, attributes));
        }
        self.sign(";")
    }

    /// A list in brackets, or nothing. No name may come twice.
    fn attributes(&mut self) -> Result<Attributes, String> {
        let mut attributes = Attributes::new();
        if self.sign("[").is_err() {
            return Ok(attributes);
        }
        loop {
            let name = self.word()?;
            self.sign("=")?;
            let value = self.quoted().or_else(|_| self.word())?;
            if attributes.insert(name.clone(), value).is_some() {
                return Err(format!("{name} twice in a list"));
            }
            if self.sign("]").is_ok() {
                return Ok(attributes);
            }
            self.sign(",")?;
        }
    }

    fn sign(&mut self, sign: &'static str) -> Result<(), String> {
        self.take(sign, |token| *token == Token::Sign(sign)).map(|_| ())
    }

    fn keyword(&mut self, keyword: &str) -> Result<(), String> {
        self.take(keyword, |token| *token == Token::Word(keyword.to_string())).map(|_| ())
    }

    fn word(&mut self) -> Result<String, String> {
        let is_word = |token: &Token| matches!(token, Token::Word(word) if !KEYWORDS.contains(&word.to_lowercase().as_str()));
        self.take("a word", is_word)
    }

    fn quoted(&mut self) -> Result<String, String> {
        self.take("a quoted id", |token| matches!(token, Token::Quoted(_)))
    }

    /// Takes the next token where it fits, and answers its text. Otherwise nothing is taken.
    fn take(&mut self, expected: &str, fits: impl Fn(&Token) -> bool) -> Result<String, String> {
        match self.rest.split_first() {
            Some((token, rest)) if fits(token) => {
                self.rest = rest;
                Ok(token.text())
            }
            found => Err(format!("found {:?}, expected {expected}", found.map(|(token, _)| token))),
        }
    }
}

fn tokens(text: &str) -> Result<Vec<Token>, String> {
    let mut tokens = Vec::new();
    let mut rest = text.trim_start();
    while let Some(first) = rest.chars().next() {
        let (token, length) = if let Some(sign) = SIGNS.iter().find(|sign| rest.starts_with(**sign)) {
            (Token::Sign(sign), sign.len())
        } else if first == '"' {
            quoted(rest)?
        } else {
            bare(rest)?
        };
        tokens.push(token);
        rest = rest[length..].trim_start();
    }
    Ok(tokens)
}

/// A word of letters, digits and '_', or a numeral; a word does not begin with a digit.
fn bare(rest: &str) -> Result<(Token, usize), String> {
    let length = rest.find(|c: char| !(c.is_ascii_alphanumeric() || c == '_')).unwrap_or(rest.len());
    let word = &rest[..length];
    let numeral = word.bytes().all(|byte| byte.is_ascii_digit());
    if word.is_empty() || word.starts_with(|c: char| c.is_ascii_digit()) && !numeral {
        return Err(format!("no token: {:.20}", rest.escape_debug().to_string()));
    }
    Ok((Token::Word(word.to_string()), length))
}

/// A quoted id with its escapes undone. Only the escapes of a quote, a backslash and a line end are known, and no bare line end.
fn quoted(rest: &str) -> Result<(Token, usize), String> {
    let mut text = String::new();
    let mut chars = rest.char_indices().skip(1);
    while let Some((index, c)) = chars.next() {
        match (c, if c == '\\' { chars.next() } else { None }) {
            ('"', _) => return Ok((Token::Quoted(text), index + 1)),
            ('\n', _) => return Err("a line end in quotes".to_string()),
            ('\\', Some((_, 'n'))) => text.push('\n'),
            ('\\', Some((_, escaped @ ('"' | '\\')))) => text.push(escaped),
            ('\\', other) => return Err(format!("unknown escape {other:?}")),
            (other, _) => text.push(other),
        }
    }
    Err("a quote without its end".to_string())
}

#[test]
fn reads_a_small_graph() {
    let graph = read("digraph \"g\" {\n graph [label=\"a\\nb\"];\n \"0\" [label=\"x \\\" \\\\\", peripheries=2];\n \"0\" -> \"0\";\n}\n").unwrap();
    assert_eq!(graph.attributes["label"], "a\nb");
    assert_eq!((graph.states[0].0.as_str(), graph.states[0].1["label"].as_str()), ("0", "x \" \\"));
    assert_eq!(graph.states[0].1["peripheries"], "2");
    assert_eq!(graph.edges, [("0".to_string(), "0".to_string(), Attributes::new())]);
}

#[test]
fn wrong_texts_are_errors() {
    let wrong = [
        "",
        "digraph \"g\" {",
        "digraph \"g\" { } }",
        "graph \"g\" { }",
        "digraph \"g\" { \"0\" }",
        "digraph \"g\" { \"0\" -> ; }",
        "digraph \"g\" { 0 -> 1; }",
        "digraph \"g\" { \"0\" [label=]; }",
        "digraph \"g\" { \"0\" [label=\"a\" color=red]; }",
        "digraph \"g\" { \"0\" [color=red, color=red]; }",
        "digraph \"g\" { \"0\" [color=red; }",
        "digraph \"g\" { \"0\" [color=edge]; }",
        "digraph \"g\" { \"0\" [color=2x]; }",
        "digraph \"g\" { \"0; }",
        "digraph \"g\" { \"a\"b\"; }",
        "digraph \"g\" { \"a\\\"; }",
        "digraph \"g\" { \"a\\lb\"; }",
        "digraph \"g\" { \"a\nb\"; }",
    ];
    for text in wrong {
        assert!(read(text).is_err(), "{text}");
    }
}
