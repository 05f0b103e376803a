//! An automaton made from the parts of a grammar: a state is one place in the rules where a character stands.
//!
//! A part knows at which states it can begin and end, and whether it can be nothing at all; joining parts adds which
//! state can follow which (Glushkov's construction). No part can be without any line, so from each state some line can
//! be finished, and a beginning can go on to a line exactly if it leaves a state.

/// A set of states; the grammar has fewer than 128.
type States = u128;

/// A part of the grammar under construction.
#[derive(Clone, Copy)]
pub struct Part {
    begins: States,
    ends: States,
    nothing: bool,
}

/// The automaton as it grows.
pub struct Builder {
    taking: [States; 256],
    following: Vec<States>,
}

pub struct Automaton {
    /// The states that take a character.
    taking: [States; 256],
    /// The states that can follow a state.
    following: Vec<States>,
    whole: Part,
}

/// The states of a set, one by one.
fn each(mut states: States) -> impl Iterator<Item = usize> {
    std::iter::from_fn(move || {
        let state = states.trailing_zeros() as usize;
        states &= states.wrapping_sub(1);
        (state < 128).then_some(state)
    })
}

impl Builder {
    pub fn new() -> Builder {
        Builder { taking: [0; 256], following: Vec::new() }
    }

    fn join(&mut self, ends: States, begins: States) {
        for state in each(ends) {
            self.following[state] |= begins;
        }
    }

    /// One character of a set.
    pub fn one(&mut self, set: fn(u8) -> bool) -> Part {
        let state: States = 1 << self.following.len();
        self.following.push(0);
        for character in (0..=255).filter(|&character| set(character)) {
            self.taking[character as usize] |= state;
        }
        Part { begins: state, ends: state, nothing: false }
    }

    /// One part behind the other.
    pub fn then(&mut self, part: Part, next: Part) -> Part {
        self.join(part.ends, next.begins);
        Part {
            begins: part.begins | if part.nothing { next.begins } else { 0 },
            ends: next.ends | if next.nothing { part.ends } else { 0 },
            nothing: part.nothing && next.nothing,
        }
    }

    /// Several parts, each behind the one before.
    pub fn all(&mut self, parts: &[Part]) -> Part {
        let nothing = Part { begins: 0, ends: 0, nothing: true };
        parts.iter().fold(nothing, |part, &next| self.then(part, next))
    }

    /// A part or nothing.
    pub fn optional(&mut self, part: Part) -> Part {
        Part { nothing: true, ..part }
    }

    /// A part once or more.
    pub fn repeated(&mut self, part: Part) -> Part {
        self.join(part.ends, part.begins);
        part
    }

    /// A part any number of times.
    pub fn any_number(&mut self, part: Part) -> Part {
        let repeated = self.repeated(part);
        self.optional(repeated)
    }

    /// From `least` to `most` characters of a set.
    pub fn between(&mut self, least: usize, most: usize, set: fn(u8) -> bool) -> Part {
        let mut parts = Vec::new();
        for count in 1..=most {
            let part = self.one(set);
            parts.push(if count > least { self.optional(part) } else { part });
        }
        self.all(&parts)
    }

    /// A part once or more, with a separator between.
    pub fn separated(&mut self, part: Part, separator: Part) -> Part {
        // Where the part is nothing, separators stand side by side, and at the ends.
        let unit = self.then(part, separator);
        self.join(separator.ends, unit.begins);
        Part {
            begins: unit.begins,
            ends: part.ends | if part.nothing { separator.ends } else { 0 },
            nothing: part.nothing,
        }
    }

    pub fn finish(self, whole: Part) -> Automaton {
        Automaton { taking: self.taking, following: self.following, whole }
    }
}

impl Default for Builder {
    fn default() -> Builder {
        Builder::new()
    }
}

impl Automaton {
    /// The length of the longest beginning of a line that begins some line of the grammar.
    pub fn place(&self, line: &[u8]) -> usize {
        self.run(line).0
    }

    /// Whether a line is in the grammar.
    pub fn accepts(&self, line: &[u8]) -> bool {
        let (place, states) = self.run(line);
        if line.is_empty() {
            return self.whole.nothing;
        }
        place == line.len() && states & self.whole.ends != 0
    }

    /// How many characters could be taken, and in which states they leave it.
    fn run(&self, line: &[u8]) -> (usize, States) {
        let mut next = self.whole.begins;
        let mut states = 0;
        for (place, &character) in line.iter().enumerate() {
            let taken = next & self.taking[character as usize];
            if taken == 0 {
                return (place, states);
            }
            states = taken;
            next = each(taken).fold(0, |next, state| next | self.following[state]);
        }
        (line.len(), states)
    }
}
