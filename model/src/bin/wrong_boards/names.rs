//! The names that may stand for each other: of an enum or a module, a struct, a function.

use crate::tokens::{Kind, Source};
use std::ops::Range;

/// The names of all sources.
#[derive(Default)]
pub struct Names {
    /// Enums with their cases, modules with their constants.
    groups: Vec<(String, Vec<String>)>,
    /// Structs with their fields and the types of these.
    structs: Vec<Vec<(String, String)>>,
}

/// A function with its variables.
pub struct Function {
    pub name: String,
    /// The token that its item begins with.
    pub start: usize,
    /// The tokens between the braces, and these.
    pub body: Range<usize>,
    /// What calls it with its own arguments, as `Self::NAME(self, r, data)`: before and behind
    /// the name.
    pub call: (String, String),
    variables: Vec<Variable>,
    /// The tokens of patterns that bind them.
    patterns: Vec<Range<usize>>,
}

struct Variable {
    name: String,
    /// If the source says it.
    of_type: Option<String>,
    /// From this token on it is there.
    from: usize,
}

impl Names {
    pub fn add(&mut self, source: &Source, skipped: &[bool]) {
        for token in (0..source.tokens.len()).filter(|&token| !skipped[token]) {
            let name = source.at(token + 1).to_owned();
            let open = source.find(token, &["{", ";", "("]);
            if !source.is(open, "{") {
                continue;
            }
            let inside = open + 1..source.partner(open);
            match source.at(token) {
                "enum" => self.groups.push((name, cases(source, inside))),
                "mod" => self.groups.push((name, constants(source, inside))),
                "struct" => self.structs.push(typed(source, inside)),
                _ => (),
            }
        }
    }

    /// The names before and behind one of its group.
    pub fn beside(&self, group: &str, name: &str) -> Vec<String> {
        let names = self.groups.iter().find(|(found, _)| found == group);
        let names = names.map_or(&[][..], |(_, names)| names);
        let Some(place) = names.iter().position(|found| found == name) else {
            return Vec::new();
        };
        let mut beside: Vec<String> = [place + names.len() - 1, place + 1]
            .iter()
            .map(|place| names[place % names.len()].clone())
            .collect();
        beside.dedup();
        beside
    }

    /// The fields of the same type in the structs that have this field.
    pub fn other_fields(&self, field: &str) -> Vec<String> {
        let mut others = Vec::new();
        for fields in &self.structs {
            let of_type = fields.iter().find(|(name, _)| name == field);
            let Some((_, of_type)) = of_type else {
                continue;
            };
            let alike = fields
                .iter()
                .filter(|(name, other)| name != field && other == of_type);
            others.extend(alike.map(|(name, _)| name.clone()));
        }
        others.sort();
        others.dedup();
        others
    }
}

/// The cases of an enum that carry nothing.
fn cases(source: &Source, inside: Range<usize>) -> Vec<String> {
    let alone = |&token: &usize| {
        source.kind(token) == Some(Kind::Name)
            && source.is_one_of(token - 1, &["{", ",", "]", "}"])
            && source.is_one_of(token + 1, &[",", "=", "}"])
    };
    inside
        .filter(alone)
        .map(|token| source.at(token).to_owned())
        .collect()
}

fn constants(source: &Source, inside: Range<usize>) -> Vec<String> {
    inside
        .filter(|&token| source.is(token, "const"))
        .map(|token| source.at(token + 1).to_owned())
        .collect()
}

/// `name: type, ..`
fn typed(source: &Source, inside: Range<usize>) -> Vec<(String, String)> {
    let mut found = Vec::new();
    let mut token = inside.start;
    while token < inside.end {
        let colon = source.find(token, &[":"]);
        let end = source.find(token, &[",", "}", ")"]);
        if colon < end && end > colon + 1 {
            let of_type = &source.text[source.bytes(colon + 1..end)];
            found.push((source.at(colon - 1).to_owned(), of_type.to_owned()));
        }
        token = end + 1;
    }
    found
}

/// The functions of a source that are not passed over.
pub fn functions(source: &Source, skipped: &[bool]) -> Vec<Function> {
    let all = 0..source.tokens.len();
    all.filter(|&token| source.is(token, "fn") && !skipped[token])
        .filter_map(|token| {
            let open = source.find(token, &["("]);
            let body = source.find(open, &["{", ";"]);
            let inside = body..source.partner(body);
            let patterns = patterns(source, inside.clone());
            source.is(body, "{").then(|| Function {
                name: source.at(token + 1).to_owned(),
                start: token,
                body: body..inside.end + 1,
                call: call(source, token, open),
                variables: variables(source, open, &patterns),
                patterns,
            })
        })
        .collect()
}

/// How a function is called with its own arguments.
fn call(source: &Source, token: usize, open: usize) -> (String, String) {
    let of_type = (0..token).any(|other| {
        let brace = source.find(other, &["{", ";", "="]);
        source.is(other, "impl") && brace < token && source.partner(brace) > token
    });
    let inside = open + 1..source.partner(open);
    let with_self = inside.clone().any(|token| source.is(token, "self"));
    let named = typed(source, inside).into_iter().map(|(name, _)| name);
    let itself = with_self.then(|| "self".to_owned());
    let arguments: Vec<String> = itself.into_iter().chain(named).collect();
    let front = if of_type { "Self::" } else { "" };
    (front.into(), format!("({})", arguments.join(", ")))
}

/// What stands behind `let` and `for`, where variables are bound.
fn patterns(source: &Source, body: Range<usize>) -> Vec<Range<usize>> {
    let pattern = |token: usize| match source.at(token) {
        "let" => Some(token..find_in(source, token, &["=", ";"])),
        "for" => Some(token..find_in(source, token, &["in"])),
        _ => None,
    };
    body.filter_map(pattern).collect()
}

fn variables(source: &Source, open: usize, patterns: &[Range<usize>]) -> Vec<Variable> {
    let mut variables: Vec<Variable> = typed(source, open + 1..source.partner(open))
        .into_iter()
        .filter(|(name, _)| name != "r" && name != "self")
        .map(|(name, of_type)| Variable {
            name,
            of_type: Some(of_type),
            from: open,
        })
        .collect();
    for pattern in patterns {
        let bound = pattern.clone().filter(|&token| {
            source.is_small_name(token) && !source.is_one_of(token + 1, &["::", "(", "{"])
        });
        variables.extend(bound.map(|token| Variable {
            name: source.at(token).to_owned(),
            of_type: None,
            from: pattern.end,
        }));
    }
    variables
}

/// The first of these from a token on, in brackets too.
fn find_in(source: &Source, from: usize, texts: &[&str]) -> usize {
    let mut token = from;
    while token < source.tokens.len() && !source.is_one_of(token, texts) {
        token += 1;
    }
    token
}

impl Function {
    /// Whether a token is of the function.
    pub fn holds(&self, token: usize) -> bool {
        (self.start..self.body.end).contains(&token)
    }

    /// The variables that are there at a token and may have the type of this one.
    pub fn others(&self, name: &str, token: usize) -> Vec<String> {
        if self.patterns.iter().any(|pattern| pattern.contains(&token)) {
            return Vec::new();
        }
        let there = || self.variables.iter().filter(|other| other.from < token);
        let Some(this) = there().rfind(|other| other.name == name) else {
            return Vec::new();
        };
        let may_be = |other: &&Variable| match (&this.of_type, &other.of_type) {
            (Some(one), Some(other)) => one == other,
            _ => true,
        };
        let mut others: Vec<String> = there()
            .filter(may_be)
            .map(|other| other.name.clone())
            .filter(|other| other != name)
            .collect();
        others.sort();
        others.dedup();
        others
    }
}
