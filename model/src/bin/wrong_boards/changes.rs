//! The changes of a source, one for each wrong board.

use crate::names::{Function, Names};
use crate::tokens::{Kind, Source};
use std::ops::Range;

/// Other bytes in the place of some.
#[derive(Clone, Debug, PartialEq, Eq)]
pub struct Change {
    pub at: Range<usize>,
    pub new: String,
    /// What is done in a state only, and the state; none if it is changed in every one.
    pub in_state: Option<String>,
}

/// States of a channel, in the words of each source: a wrong board looks at something, or does
/// something, only in one of them, or only out of it.
const STATES: [(&str, &[&str]); 6] = [
    (
        "channel.rs",
        &[
            "acknowledged",
            "self.previous.is_none()",
            "self.stop.rank == Rank::None",
            "self.stop.rank == Rank::A",
            "self.stop.held.is_some()",
            "self.stop.count > 0",
            "self.f.on",
            "self.f.count > 0",
            "self.run.0 > 0",
            "self.selections.count > 0",
            "self.selections.any_yet",
            "self.selections.effective == Selection::Sbh",
            "self.selections.effective == Selection::Nothing",
            "self.selections.effective == moment.selected",
            "self.k == 0",
            "self.cams[0]",
            "moment.d == 0",
            "position < 0",
            "position == report.position",
            "inputs == report.inputs",
            "usable(r, &self.data, report.position, report.inputs)",
            "inputs & GEAR_BITS == 0",
            "self.nx.value",
            "self.nx.run > 0",
            "self.directions.positive.watch.is_some()",
            "self.directions.negative.run > 0",
        ],
    ),
    (
        "causes.rs",
        &[
            "selections.count > 0",
            "selections.effective == moment.selected",
            "moment.selected == Selection::Sbh",
            "moment.selected == Selection::Nothing",
            "moment.d == 0",
            "moment.d < 0",
            "moment.k == 0",
            "moment.position < 0",
            "moment.position == moment.report.position",
            "moment.inputs == moment.report.inputs",
            "usable(r, data, moment.report.position, moment.report.inputs)",
            "moment.inputs & GEAR_BITS == 0",
            "bit(moment.inputs, 12)",
            "stop.rank == Rank::None",
            "stop.rank >= Rank::B",
            "stop.held.is_some()",
            "stop.count > 0",
            "f.on",
            "f.count > 0",
            "run.0 > 0",
            "causes.standing == 0",
            "self.on",
            "self.count > 0",
            "self.0 > 0",
        ],
    ),
    (
        "direction.rs",
        &[
            "self.watch.is_some()",
            "self.run > 1",
            "direction == Direction::Positive",
            "moment.d == 0",
            "moment.d < 0",
            "moment.position < 0",
            "moment.k == 0",
            "moment.selected == Selection::Nothing",
            "moment.inputs & crate::gear::GEAR_BITS == 0",
            "moment.inputs & DIRECTION_BITS == 0",
            "moment.inputs == moment.report.inputs",
            "moment.position == moment.report.position",
        ],
    ),
    (
        "nx.rs",
        &[
            "self.value",
            "self.run > 0",
            "moment.d == 0",
            "moment.d < 0",
            "moment.position < 0",
            "moment.k == 0",
            "moment.selected == crate::selection::Selection::Nothing",
            "moment.inputs & crate::gear::GEAR_BITS == 0",
            "moment.inputs == moment.report.inputs",
            "moment.position == moment.report.position",
            "data.has(r, crate::machine_data::Function::Nx)",
        ],
    ),
    (
        "selection.rs",
        &[
            "self.count > 0",
            "self.any_yet",
            "self.effective == Selection::Sbh",
            "self.effective == Selection::Nothing",
            "selected == self.effective",
            "selected == Selection::Sbh",
            "selected == Selection::Nothing",
            "was_sbh",
            "position < 0",
        ],
    ),
    (
        "stop.rs",
        &[
            "self.rank == Rank::None",
            "self.rank == Rank::B",
            "self.held.is_some()",
            "self.count > 0",
            "enters",
            "entered",
            "d == 0",
            "d < 0",
            "position < 0",
        ],
    ),
];

/// What stands for a value that is left as it was.
const UNTOUCHED: &str = "Default::default()";

/// Signs between two values, and what is taken instead.
const BETWEEN: [(&str, &[&str]); 27] = [
    ("<", &["<=", ">=", ">", "==", "!="]),
    ("<=", &["<", ">", ">=", "==", "!="]),
    (">", &[">=", "<=", "<", "==", "!="]),
    (">=", &[">", "<", "<=", "==", "!="]),
    ("==", &["!=", "<=", ">=", "<", ">"]),
    ("!=", &["==", "<=", ">=", "<", ">"]),
    ("+", &["-", "*"]),
    ("-", &["+", "*"]),
    ("*", &["+", "-", "/"]),
    ("/", &["*", "%"]),
    ("%", &["/", "*"]),
    ("&", &["|", "^"]),
    ("|", &["&"]),
    ("^", &["&", "|"]),
    ("<<", &[">>"]),
    (">>", &["<<"]),
    ("&&", &["||"]),
    ("||", &["&&"]),
    ("+=", &["-=", "="]),
    ("-=", &["+=", "="]),
    ("*=", &["/=", "="]),
    ("/=", &["*=", "="]),
    ("|=", &["&=", "="]),
    ("&=", &["|=", "="]),
    ("^=", &["|=", "="]),
    ("<<=", &[">>=", "="]),
    (">>=", &["<<=", "="]),
];

/// Names of methods, and what is taken instead.
const METHODS: [(&str, &str); 12] = [
    ("max", "min"),
    ("min", "max"),
    ("is_some", "is_none"),
    ("is_none", "is_some"),
    ("first", "last"),
    ("last", "first"),
    ("any", "all"),
    ("all", "any"),
    ("saturating_add", "saturating_sub"),
    ("saturating_sub", "saturating_add"),
    ("from_be_bytes", "from_le_bytes"),
    ("trailing_zeros", "leading_zeros"),
];

/// Signs that make something of a variable.
const ASSIGNS: [&str; 11] = [
    "=", "+=", "-=", "*=", "/=", "%=", "^=", "&=", "|=", "<<=", ">>=",
];

/// The changes at a token.
pub fn changes(source: &Source, names: &Names, of: Option<&Function>, token: usize) -> Vec<Change> {
    let place = Place {
        source,
        names,
        of,
        token,
    };
    let mut changes = match source.kind(token) {
        Some(Kind::Number) => place.number(),
        Some(Kind::Byte) => place.byte(),
        Some(Kind::Name) => place.name(),
        Some(Kind::Sign) => place.sign(),
        Some(Kind::Text) | None => Vec::new(),
    };
    changes.retain(|change| source.text[change.at.clone()] != change.new);
    changes
}

/// A token to be changed.
struct Place<'a> {
    source: &'a Source,
    names: &'a Names,
    /// The function that it stands in.
    of: Option<&'a Function>,
    token: usize,
}

impl Place<'_> {
    fn is(&self, text: &str) -> bool {
        self.source.is(self.token, text)
    }

    /// Tokens changed to a text.
    fn to(&self, tokens: Range<usize>, new: &str) -> Change {
        Change {
            at: self.source.bytes(tokens),
            new: new.into(),
            in_state: None,
        }
    }

    /// Tokens changed to a text for each state and its opposite.
    fn in_states(
        &self,
        what: &str,
        tokens: Range<usize>,
        new: impl Fn(&str, &str) -> String,
    ) -> Vec<Change> {
        let states = STATES.iter().find(|(file, _)| *file == self.source.file);
        let states = states.map_or(&[][..], |(_, states)| states);
        let old = &self.source.text[self.source.bytes(tokens.clone())];
        let both = |state: &&str| [format!("({state})"), format!("!({state})")];
        states
            .iter()
            .flat_map(both)
            .map(|state| Change {
                in_state: Some(format!("{what} only while {state}")),
                ..self.to(tokens.clone(), &new(old, &state))
            })
            .collect()
    }

    /// The token changed to a text.
    fn this_to(&self, new: &str) -> Change {
        self.to(self.token..self.token + 1, new)
    }

    /// A literal one more and one less, and each bit of a hexadecimal one turned.
    fn number(&self) -> Vec<Change> {
        let text = self.source.at(self.token);
        let tuple = self.token > 0 && self.source.is(self.token - 1, ".");
        let (digits, hexadecimal) = match text.strip_prefix("0x") {
            Some(digits) => (digits, true),
            None => (text, false),
        };
        let digit = |c: char| c == '_' || c.is_digit(if hexadecimal { 16 } else { 10 });
        let end = digits.find(|c| !digit(c)).unwrap_or(digits.len());
        let (digits, suffix) = (digits[..end].replace('_', ""), &digits[end..]);
        let value = i128::from_str_radix(&digits, if hexadecimal { 16 } else { 10 });
        let Ok(value) = value else { return Vec::new() };
        if tuple {
            return Vec::new();
        }
        let bits = match hexadecimal {
            true if digits.len() > 8 => 0..64,
            true => 0..32,
            false => 0..0,
        };
        let mut values = vec![value + 1, value - 1];
        values.extend(bits.map(|bit| value ^ 1 << bit));
        values.sort();
        values.dedup();
        let text = |value: i128| match hexadecimal && value >= 0 {
            true => format!("{value:#x}{suffix}"),
            false => format!("{value}{suffix}"),
        };
        values
            .iter()
            .map(|&value| self.this_to(&text(value)))
            .collect()
    }

    /// `b'x'` one more and one less.
    fn byte(&self) -> Vec<Change> {
        match self.source.at(self.token).as_bytes() {
            &[b'b', b'\'', byte, b'\''] => [byte + 1, byte - 1]
                .iter()
                .map(|byte| self.this_to(&format!("b'\\x{byte:02x}'")))
                .collect(),
            _ => Vec::new(),
        }
    }

    fn name(&self) -> Vec<Change> {
        match self.source.at(self.token) {
            "true" => vec![self.this_to("false")],
            "false" => vec![self.this_to("true")],
            "if" | "while" => self.condition(),
            "match" => self.arms(),
            "for" => self.loop_left_out(),
            "let"
                if !self
                    .source
                    .is_one_of(self.token.wrapping_sub(1), &["if", "while"]) =>
            {
                self.declaration()
            }
            "break" => vec![self.this_to("()")],
            "Some" if self.source.is(self.token + 1, "(") => {
                vec![self.to(self.token..self.source.behind(self.token + 1), "None")]
            }
            _ => [self.other_names(), self.fields(), self.other_variables()].concat(),
        }
    }

    /// `if` and `while`, and the `if` of an arm, by true and by false.
    fn condition(&self) -> Vec<Change> {
        let start = self.token + 1;
        let end = self.source.find(start, &["{", "=>"]);
        if self.source.is(start, "let") {
            let value = self.source.find(start, &["="]) + 1;
            return self.in_states("condition", value..end, |value, state| {
                format!("({value}).filter(|_| {state})")
            });
        }
        let by = ["true", "false"];
        let mut changes: Vec<Change> = by.iter().map(|by| self.to(start..end, by)).collect();
        let and = |old: &str, state: &str| format!("({old}) && {state}");
        changes.extend(self.in_states("condition", start..end, and));
        changes
    }

    /// `let x = y;`: a truth that holds in a state only.
    fn declaration(&self) -> Vec<Change> {
        let start = self.source.find(self.token, &["=", ";", "{"]) + 1;
        let end = self.source.find(start, &[";", "else"]);
        if !self.source.is(start - 1, "=") || !self.source.is(end, ";") {
            return Vec::new();
        }
        self.in_states("true", start..end, |old, state| {
            format!("({old}) && {state}")
        })
    }

    /// Each arm's body by another arm's: by all of few, else by those beside it.
    fn arms(&self) -> Vec<Change> {
        let bodies = self.bodies();
        let mut changes = Vec::new();
        for (number, body) in bodies.iter().enumerate() {
            for (other, instead) in bodies.iter().enumerate() {
                if bodies.len() <= 4 || number.abs_diff(other) == 1 {
                    let text = &self.source.text[self.source.bytes(instead.clone())];
                    changes.push(self.to(body.clone(), text));
                }
            }
        }
        changes
    }

    /// The bodies of a match's arms.
    fn bodies(&self) -> Vec<Range<usize>> {
        let open = self.source.find(self.token, &["{"]);
        let close = self.source.partner(open);
        let mut bodies = Vec::new();
        let mut token = open + 1;
        while token < close {
            let start = self.source.find(token, &["=>"]) + 1;
            let end = match self.source.is(start, "{") {
                true => self.source.behind(start),
                false => self.source.find(start, &[",", "}"]),
            };
            bodies.push(start..end);
            token = if self.source.is(end, ",") {
                end + 1
            } else {
                end
            };
        }
        bodies
    }

    fn loop_left_out(&self) -> Vec<Change> {
        let in_function = self.of.is_some_and(|of| of.body.contains(&self.token));
        let end = self.source.behind(self.source.find(self.token, &["{"]));
        if in_function {
            vec![self.to(self.token..end, "")]
        } else {
            Vec::new()
        }
    }

    /// `Rank::A`, `number::T`: the one before and the one behind it.
    fn other_names(&self) -> Vec<Change> {
        let source = self.source;
        let whole = self.token >= 2 && source.is(self.token - 1, "::");
        if !whole || source.is_one_of(self.token + 1, &["::", "(", "{", "!"]) {
            return Vec::new();
        }
        let beside = self
            .names
            .beside(source.at(self.token - 2), source.at(self.token));
        beside.iter().map(|name| self.this_to(name)).collect()
    }

    /// `x.field`: another field of its struct that has the same type.
    fn fields(&self) -> Vec<Change> {
        let source = self.source;
        let field = self.token > 0 && source.is(self.token - 1, ".") && source.touches(self.token);
        if !field || source.is_one_of(self.token + 1, &["(", "::", "!"]) {
            return Vec::new();
        }
        let others = self.names.other_fields(source.at(self.token));
        others.iter().map(|name| self.this_to(name)).collect()
    }

    /// A variable: another one of the function, where their types are not known to differ.
    fn other_variables(&self) -> Vec<Change> {
        let source = self.source;
        let before = self.token.wrapping_sub(1);
        let no_value = source.is_one_of(before, &[".", "::", "let", "mut", "fn", "for"])
            || source.is_one_of(self.token + 1, &["::", "(", "{", "!"])
            || source.is(self.token + 1, ":")
            || self.in_closures_front();
        match self.of {
            Some(of) if !no_value && of.body.contains(&self.token) => of
                .others(source.at(self.token), self.token)
                .iter()
                .map(|name| self.this_to(name))
                .collect(),
            _ => Vec::new(),
        }
    }

    /// `|x|`, `|&x|`, `|mut x|`: whether it is bound there.
    fn in_closures_front(&self) -> bool {
        let mut before = self.token.wrapping_sub(1);
        while self.source.is_one_of(before, &["&", "&&", "mut"]) {
            before -= 1;
        }
        self.source.is(before, "|") && !self.source.apart(before)
    }

    fn sign(&self) -> Vec<Change> {
        let source = self.source;
        let mut changes = Vec::new();
        if source.apart(self.token) {
            let between = BETWEEN.iter().find(|(sign, _)| self.is(sign));
            let others = between.map_or(&[][..], |(_, others)| others);
            changes.extend(others.iter().map(|other| self.this_to(other)));
            if self.is("&&") || self.is("||") {
                changes.extend(self.operands());
            }
            if source.is_one_of(self.token, &ASSIGNS) {
                changes.extend(self.assignment());
            }
        }
        match source.at(self.token) {
            "!" | "-" if self.is_before_value() => changes.push(self.this_to("")),
            ".." | "..=" if self.is_range() => {
                let other = if self.is("..") { "..=" } else { ".." };
                changes.push(self.this_to(other));
            }
            "." => changes.extend(self.call()),
            ";" => changes.extend(self.statement()),
            "{" => changes.extend(self.constructor()),
            "|" if source.apart(self.token) => changes.extend(self.alternative()),
            _ => (),
        }
        changes
    }

    /// `!x` and `-x`, but not `name!` and `x - y`.
    fn is_before_value(&self) -> bool {
        let next = self.source.tokens.get(self.token + 1);
        let at = self.source.tokens[self.token].at.clone();
        let touching = next.is_some_and(|next| next.at.start == at.end);
        let attribute = self.token > 0 && self.source.is(self.token - 1, "#");
        let before = self.token.checked_sub(1).and_then(|t| self.source.kind(t));
        let name = before == Some(Kind::Name) && self.source.touches(self.token);
        touching && !name && !attribute
    }

    /// `x..y`, but not the `..` of a pattern and not `x..`.
    fn is_range(&self) -> bool {
        let next = self.token + 1;
        let kind = self.source.kind(next);
        self.source.is_one_of(next, &["-", "("])
            || matches!(kind, Some(Kind::Name) | Some(Kind::Number))
    }

    /// Each side of `&&` and `||` left out.
    fn operands(&self) -> Vec<Change> {
        let source = self.source;
        let left = self.back_to(&[
            "(", "[", "{", "}", ",", ";", "=", "=>", "&&", "||", "return", "if", "while", "|",
        ]);
        let ends = [")", "]", "}", "{", ",", ";", "=>", "&&", "||"];
        let right = source.find(self.token + 1, &ends);
        let without = if self.is("&&") { "true" } else { "false" };
        vec![
            self.to(left..self.token, without),
            self.to(self.token + 1..right, without),
        ]
    }

    /// Back from the token, brackets passed over: behind the first of these.
    fn back_to(&self, texts: &[&str]) -> usize {
        let source = self.source;
        let mut token = self.token;
        while token > 0 {
            let before = token - 1;
            let partner = source.partner(before);
            let closes = partner < before;
            let opens = partner > before;
            // A block before a statement is not a part of it.
            let block =
                source.is(before, "}") && !source.is_one_of(token, &[".", "?", ";", "else"]);
            if opens || block || source.is_one_of(before, texts) && !closes {
                break;
            }
            token = if closes { partner } else { before };
        }
        token
    }

    /// An assignment left out.
    fn assignment(&self) -> Vec<Change> {
        let source = self.source;
        let start = self.back_to(&[";", "=>", ","]);
        let declares = [
            "let", "if", "while", "const", "pub", "static", "type", "else",
        ];
        if source.is_one_of(start, &declares) {
            return Vec::new();
        }
        let end = source.find(self.token, &[";", ",", "}", ")"]);
        self.left_out(start..end)
    }

    /// Something left out, always or in a state.
    fn left_out(&self, tokens: Range<usize>) -> Vec<Change> {
        let mut changes = vec![self.to(tokens.clone(), "()")];
        let in_state = |old: &str, state: &str| format!("if {state} {{ {old}; }}");
        changes.extend(self.in_states("done", tokens, in_state));
        changes
    }

    /// A statement that is but a call left out.
    fn statement(&self) -> Vec<Change> {
        let source = self.source;
        let start = self.back_to(&[";", "=>"]);
        let other = [
            "let", "if", "while", "for", "loop", "match", "return", "break", "const", "pub",
            "static", "type", "use", "mod", "struct", "()",
        ];
        let assigns = ASSIGNS
            .iter()
            .any(|sign| source.find(start, &[sign]) < self.token);
        let in_function = self.of.is_some_and(|of| of.body.contains(&start));
        if start == self.token || assigns || !in_function || source.is_one_of(start, &other) {
            return Vec::new();
        }
        // `paper!(r, (), ..)` does something in deviations only.
        let nothing = source.find(start + 3, &[","]) + 1;
        if source.is(start, "paper") && source.is(nothing, "(") && source.is(nothing + 1, ")") {
            return Vec::new();
        }
        self.left_out(start..self.token)
    }

    /// A method's call left out, and another method called.
    fn call(&self) -> Vec<Change> {
        let source = self.source;
        let (name, open) = (self.token + 1, self.token + 2);
        if source.kind(name) != Some(Kind::Name) || !source.is(open, "(") {
            return Vec::new();
        }
        let method = METHODS.iter().find(|(method, _)| source.is(name, method));
        let mut changes: Vec<Change> = method
            .map(|(_, other)| self.to(name..name + 1, other))
            .into_iter()
            .collect();
        changes.push(self.to(self.token..source.behind(open), ""));
        changes
    }

    /// Each field of a constructor left as it was.
    fn constructor(&self) -> Vec<Change> {
        let source = self.source;
        let before = self.token.wrapping_sub(1);
        let typed = source
            .at(before)
            .starts_with(|c: char| c.is_ascii_uppercase());
        let in_function = self.of.is_some_and(|of| of.body.contains(&before));
        if !typed || !in_function {
            return Vec::new();
        }
        let close = source.partner(self.token);
        let mut changes = Vec::new();
        let mut field = self.token + 1;
        while field < close {
            let end = source.find(field, &[",", "}"]);
            if source.is(field + 1, ":") {
                changes.push(self.to(field + 2..end, UNTOUCHED));
            } else if end == field + 1 {
                let new = format!("{}: {UNTOUCHED}", source.at(field));
                changes.push(self.to(field..end, &new));
            }
            field = end + 1;
        }
        changes
    }

    /// One of a pattern's alternatives left out.
    fn alternative(&self) -> Vec<Change> {
        let source = self.source;
        let ends = ["|", "=>", ",", ")", "if", ";"];
        let end = source.find(self.token + 1, &ends);
        let start = self.back_to(&["|", "=>", ",", ";", "="]);
        let pattern = source.find(self.token, &["=>", ";", ",", ")"]);
        if !source.is(pattern, "=>") {
            return Vec::new();
        }
        vec![
            self.to(self.token..end, ""),
            self.to(start..self.token + 1, ""),
        ]
    }
}

#[cfg(test)]
mod tests {
    use super::*;
    use crate::names::functions;
    use crate::skipped::skipped;

    /// The lines of a text with each of its changes, blanks left out.
    fn changed(text: &str) -> Vec<String> {
        let source = Source::new("a.rs", text.into());
        let skipped = skipped(&source);
        let mut names = Names::default();
        names.add(&source, &skipped);
        let functions = functions(&source, &skipped);
        let tokens = (0..source.tokens.len()).filter(|&token| !skipped[token]);
        let all = tokens.flat_map(|token| {
            let of = functions.iter().find(|of| of.body.contains(&token));
            changes(&source, &names, of, token)
        });
        let text = |change: Change| {
            let mut text = source.text.clone();
            text.replace_range(change.at, &change.new);
            text.split_whitespace().collect::<Vec<_>>().join(" ")
        };
        all.map(text).collect()
    }

    #[test]
    fn operators_literals_and_variables() {
        let all = changed("fn f(a: u8, b: u8) -> bool {\n a < 3 && !g(b)\n}");
        for body in [
            "a <= 3 && !g(b)",
            "a >= 3 && !g(b)",
            "a < 4 && !g(b)",
            "a < 2 && !g(b)",
            "a < 3 || !g(b)",
            "true && !g(b)",
            "a < 3 && true",
            "a < 3 && g(b)",
            "b < 3 && !g(b)",
            "a < 3 && !g(a)",
        ] {
            let text = format!("fn f(a: u8, b: u8) -> bool {{ {body} }}");
            assert!(all.contains(&text), "{text}\n{all:#?}");
        }
    }

    #[test]
    fn statements_conditions_and_arms() {
        let all = changed("fn f() {\n if a {\n b = 1;\n }\n match c { 0 => d(), _ => e(), }\n}");
        for body in [
            "if true { b = 1; } match c { 0 => d(), _ => e(), }",
            "if a { (); } match c { 0 => d(), _ => e(), }",
            "if a { b = 1; } match c { 0 => e(), _ => e(), }",
            "if a { b = 1; } match c { 0 => d(), _ => d(), }",
        ] {
            let text = format!("fn f() {{ {body} }}");
            assert!(all.contains(&text), "{text}\n{all:#?}");
        }
    }

    #[test]
    fn nothing_of_deviations_only() {
        for text in [
            "use a::{b, c};",
            "#[cfg(test)]\nmod tests { fn f() { g(1 + 2); } }",
            "/// Of deviations only: a thing.\nfn f() { g(1 + 2); }",
            "// What follows is of deviations only.\nfn f() { g(1 + 2); }",
            "fn f() -> u8 {\n paper!(r, a, Wrong => 1 + 2)\n}",
            "fn f() {\n // Of deviations only.\n let a = 1 + 2;\n}",
        ] {
            assert_eq!(changed(text), Vec::<String>::new(), "{text}");
        }
    }
}
