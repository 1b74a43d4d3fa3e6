//! `lasso.h` read as text: its constants, its boards, its texts and the example in its comment.

/// A name without its `LASSO_`, and its value.
pub type Constant = (String, usize);

pub fn text() -> &'static str {
    include_str!("../../lasso.h")
}

/// The text without its comments.
fn code() -> String {
    let mut code = String::new();
    let mut rest = text();
    while let Some((before, after)) = rest.split_once("/*") {
        code += before;
        rest = after.split_once("*/").expect("a comment ends").1;
    }
    code + rest
}

/// The constants of each `enum`, in order.
pub fn enums() -> Vec<Vec<Constant>> {
    let code = code();
    let bodies = code.split("enum {").skip(1).map(|after| after.split_once('}').expect("an enum ends").0);
    bodies.map(|body| body.split(',').map(constant).collect()).collect()
}

/// The `enum` that has this constant.
pub fn enum_with(name: &str) -> Vec<Constant> {
    let found = enums().into_iter().find(|constants| constants.iter().any(|(found, _)| found == name));
    found.unwrap_or_else(|| panic!("no LASSO_{name} in an enum"))
}

pub fn value(name: &str) -> usize {
    let constants = enum_with(name);
    constants.iter().find(|(found, _)| found == name).expect("it was found").1
}

fn constant(said: &str) -> Constant {
    let (name, value) = said.split_once('=').unwrap_or_else(|| panic!("no value: {said}"));
    (short(name), number(value))
}

fn short(name: &str) -> String {
    let short = name.trim().strip_prefix("LASSO_");
    short.unwrap_or_else(|| panic!("a name without LASSO_: {name}")).to_string()
}

pub fn number(word: &str) -> usize {
    word.trim().parse().unwrap_or_else(|_| panic!("no number: {word}"))
}

/// What `#define` says of the name.
pub fn defined(name: &str) -> String {
    let start = format!("#define LASSO_{name} ");
    let value = text().lines().find_map(|line| line.strip_prefix(&start));
    value.unwrap_or_else(|| panic!("no LASSO_{name}")).to_string()
}

/// Letter, slots and edges of each row of `lasso_boards`.
pub fn boards() -> Vec<(char, usize, usize)> {
    let code = code();
    let rows = between(&code, "lasso_boards[LASSO_BOARDS] = {", "\n};");
    rows.lines().map(str::trim).filter(|row| !row.is_empty()).map(board).collect()
}

fn board(row: &str) -> (char, usize, usize) {
    let words: Vec<&str> = row.trim_matches(['{', '}', ',']).split(',').map(str::trim).collect();
    let [letter, slots, edges] = words[..] else { panic!("no board: {row}") };
    (letter.trim_matches('\'').parse().expect("one letter"), number(slots), number(edges))
}

/// The texts that a function of the header gives for each constant, in order, and the one that it gives for all other numbers.
pub fn texts(function: &str) -> (Vec<(String, String)>, String) {
    let code = code();
    let body = between(&code, &format!("{function}(uint32_t number) {{"), "\n}");
    let cases = body.lines().filter_map(|line| line.trim().strip_prefix("case "));
    let given = cases.map(|case| case.split_once(": ").expect("a case returns on its line"));
    let given = given.map(|(name, returns)| (short(name), returned(returns))).collect();
    let other = body.lines().find_map(|line| line.trim().strip_prefix("default: "));
    (given, returned(other.expect("a default")))
}

fn returned(returns: &str) -> String {
    let text = returns.strip_prefix("return \"").and_then(|rest| rest.strip_suffix("\";"));
    text.unwrap_or_else(|| panic!("no text: {returns}")).to_string()
}

/// The numbers of the line in the comment that begins with this label.
pub fn example(label: &str) -> Vec<usize> {
    let start = format!(" *     {label}:");
    let numbers = text().lines().find_map(|line| line.strip_prefix(&start));
    numbers.expect("the line is there").split_whitespace().map(number).collect()
}

fn between<'a>(text: &'a str, start: &str, end: &str) -> &'a str {
    let (_, after) = text.split_once(start).unwrap_or_else(|| panic!("no {start}"));
    after.split_once(end).unwrap_or_else(|| panic!("no end after {start}")).0
}
