//! The grammar of command lines, rule by rule as 01 has it.

use super::automaton::{Automaton, Builder, Part};
use std::sync::OnceLock;

/// The automaton of commands.
pub fn command() -> &'static Automaton {
    static COMMAND: OnceLock<Automaton> = OnceLock::new();
    COMMAND.get_or_init(|| {
        // "Command: output side, or output side, `<`, input side."
        let mut rules = Builder::new();
        let output = side(&mut rules);
        let arrow = rules.one(|character| character == b'<');
        let input = side(&mut rules);
        let inputs = rules.then(arrow, input);
        let inputs = rules.optional(inputs);
        let whole = rules.then(output, inputs);
        rules.finish(whole)
    })
}

/// "Side: one or more specifications; each comma outside brackets begins another."
fn side(rules: &mut Builder) -> Part {
    let specification = specification(rules);
    let comma = rules.one(|character| character == b',');
    rules.separated(specification, comma)
}

/// "Specification, each part optional, in this order".
fn specification(rules: &mut Builder) -> Part {
    let device = device(rules);
    let device = rules.optional(device);
    let name = name(rules);
    let name = rules.optional(name);
    let uic = uic(rules);
    let uic = rules.optional(uic);
    let switch = switch(rules);
    let switches = rules.any_number(switch);
    rules.all(&[device, name, uic, switches])
}

/// "device and `:`"; "Device: 2 or 3 letters, then any number of octal digits".
fn device(rules: &mut Builder) -> Part {
    let letters = rules.between(2, 3, is_letter);
    let digit = rules.one(is_octal);
    let unit = rules.any_number(digit);
    let colon = rules.one(|character| character == b':');
    rules.all(&[letters, unit, colon])
}

/// "name of 1-6 A-Z, 0-9, after which `.` and an extension of 1-3 such may stand".
fn name(rules: &mut Builder) -> Part {
    let name = rules.between(1, 6, is_letter_or_digit);
    let period = rules.one(|character| character == b'.');
    let extension = rules.between(1, 3, is_letter_or_digit);
    let extension = rules.then(period, extension);
    let extension = rules.optional(extension);
    rules.then(name, extension)
}

/// "`[`, one or more octal digits, `,`, one or more, `]`".
fn uic(rules: &mut Builder) -> Part {
    let open = rules.one(|character| character == b'[');
    let digit = rules.one(is_octal);
    let group = rules.repeated(digit);
    let comma = rules.one(|character| character == b',');
    let digit = rules.one(is_octal);
    let user = rules.repeated(digit);
    let close = rules.one(|character| character == b']');
    rules.all(&[open, group, comma, user, close])
}

/// "Switch: `/`, a letter, up to 5 more A-Z, 0-9; then any number of `:` with 1-6 A-Z, 0-9."
fn switch(rules: &mut Builder) -> Part {
    let slash = rules.one(|character| character == b'/');
    let letter = rules.one(is_letter);
    let more = rules.between(0, 5, is_letter_or_digit);
    let colon = rules.one(|character| character == b':');
    let value = rules.between(1, 6, is_letter_or_digit);
    let value = rules.then(colon, value);
    let values = rules.any_number(value);
    rules.all(&[slash, letter, more, values])
}

fn is_letter(character: u8) -> bool {
    character.is_ascii_uppercase()
}

fn is_octal(character: u8) -> bool {
    matches!(character, b'0'..=b'7')
}

fn is_letter_or_digit(character: u8) -> bool {
    character.is_ascii_uppercase() || character.is_ascii_digit()
}
