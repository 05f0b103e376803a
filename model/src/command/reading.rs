//! The reading of a command line, by descent through the rules of its grammar.

use crate::conversions::radix;

/// "A unit must be at most 7, a group and a user at most 377 octal".
const MOST_UNIT: usize = 7;
const MOST_IN_UIC: usize = 0o377;

/// "2 or 3 letters", as a Radix-50 word, and the unit.
#[derive(Clone, Copy, Debug, PartialEq, Eq)]
pub struct Device {
    pub letters: u16,
    pub unit: u8,
}

/// "a group and a user at most 377 octal".
#[derive(Clone, Copy, Debug, PartialEq, Eq)]
pub struct Uic {
    pub group: u8,
    pub user: u8,
}

/// The switches of a specification, still as they are written.
#[derive(Clone, Copy, Debug, PartialEq, Eq)]
pub struct Switches<'line> {
    written: &'line [u8],
    pub count: usize,
    /// The values of all of them.
    values: usize,
}

/// What a specification says; an absent part is `None`.
#[derive(Clone, Copy, Debug, PartialEq, Eq)]
pub struct Specification<'line> {
    pub device: Option<Device>,
    pub name: Option<[u16; 2]>,
    pub extension: Option<u16>,
    pub uic: Option<Uic>,
    pub switches: Switches<'line>,
}

/// Reads a whole command, and hands each specification on with its side and its place there. Answers whether all its
/// numbers keep their bounds; those that do not are handed on as 0. `None` if the line is not in the grammar, which may
/// show only after some were handed on.
pub fn read<'line>(line: &'line [u8], mut hand_on: impl FnMut(usize, usize, Specification<'line>)) -> Option<bool> {
    let mut reader = Reader { rest: line, bounded: true };
    reader.side(|place, specification| hand_on(0, place, specification))?;
    if reader.take(b'<') {
        reader.side(|place, specification| hand_on(1, place, specification))?;
    }
    reader.rest.is_empty().then_some(reader.bounded)
}

/// What is left of the line, and whether the numbers before it keep their bounds.
#[derive(Clone, Copy)]
struct Reader<'line> {
    rest: &'line [u8],
    bounded: bool,
}

impl<'line> Reader<'line> {
    fn side(&mut self, mut hand_on: impl FnMut(usize, Specification<'line>)) -> Option<()> {
        let mut place = 0;
        loop {
            hand_on(place, self.specification()?);
            if !self.take(b',') {
                return Some(());
            }
            place += 1;
        }
    }

    fn specification(&mut self) -> Option<Specification<'line>> {
        let device = self.device();
        let (name, extension) = self.name()?;
        let uic = self.uic()?;
        let switches = self.switches()?;
        Some(Specification { device, name, extension, uic, switches })
    }

    /// A device is one only if the colon stands behind it; else the characters are left for a name.
    fn device(&mut self) -> Option<Device> {
        let mut ahead = *self;
        let letters = ahead.run(|character| character.is_ascii_uppercase());
        if !(2..=3).contains(&letters.len()) {
            return None;
        }
        let digits = ahead.run(is_octal);
        if !ahead.take(b':') {
            return None;
        }
        let unit = ahead.number(digits, MOST_UNIT);
        *self = ahead;
        Some(Device { letters: radix_words(letters)[0], unit })
    }

    fn name(&mut self) -> Option<(Option<[u16; 2]>, Option<u16>)> {
        let characters = self.run(is_letter_or_digit);
        if characters.is_empty() {
            return Some((None, None));
        }
        if characters.len() > 6 {
            return None;
        }
        let name = Some(radix_words(characters));
        if !self.take(b'.') {
            return Some((name, None));
        }
        let characters = self.run(is_letter_or_digit);
        if !(1..=3).contains(&characters.len()) {
            return None;
        }
        Some((name, Some(radix_words(characters)[0])))
    }

    fn uic(&mut self) -> Option<Option<Uic>> {
        if !self.take(b'[') {
            return Some(None);
        }
        let group = self.run(is_octal);
        let comma = self.take(b',');
        let user = self.run(is_octal);
        let closed = self.take(b']');
        let good = !group.is_empty() && comma && !user.is_empty() && closed;
        good.then(|| Some(Uic { group: self.number(group, MOST_IN_UIC), user: self.number(user, MOST_IN_UIC) }))
    }

    /// The number that digits are, 0 if there are none. "leading zeros allowed": a number that keeps a bound has at most
    /// three digits besides.
    fn number(&mut self, digits: &[u8], most: usize) -> u8 {
        let zeros = digits.iter().take_while(|&&digit| digit == b'0').count();
        let digits = &digits[zeros..];
        let number = digits.iter().take(3).fold(0, |number, digit| 8 * number + usize::from(digit - b'0'));
        if digits.len() > 3 || number > most {
            self.bounded = false;
            return 0;
        }
        number as u8
    }

    fn switches(&mut self) -> Option<Switches<'line>> {
        let written = self.rest;
        let (mut count, mut values) = (0, 0);
        while self.take(b'/') {
            self.switch_name()?;
            count += 1;
            while self.take(b':') {
                self.switch_value()?;
                values += 1;
            }
        }
        Some(Switches { written: &written[..written.len() - self.rest.len()], count, values })
    }

    fn switch_name(&mut self) -> Option<&'line [u8]> {
        let characters = self.run(is_letter_or_digit);
        let good = characters.len() <= 6 && characters.first()?.is_ascii_uppercase();
        good.then_some(characters)
    }

    fn switch_value(&mut self) -> Option<&'line [u8]> {
        let characters = self.run(is_letter_or_digit);
        (1..=6).contains(&characters.len()).then_some(characters)
    }

    /// Takes a character if it is the next.
    fn take(&mut self, character: u8) -> bool {
        match self.rest.split_first() {
            Some((&first, rest)) if first == character => {
                self.rest = rest;
                true
            }
            _ => false,
        }
    }

    /// Takes all the characters of a set that are next.
    fn run(&mut self, set: impl Fn(u8) -> bool) -> &'line [u8] {
        let count = self.rest.iter().take_while(|&&character| set(character)).count();
        let (run, rest) = self.rest.split_at(count);
        self.rest = rest;
        run
    }
}

impl Switches<'_> {
    /// The bytes that the switches need in a buffer: three words for each, and two for each value.
    pub fn bytes(&self) -> usize {
        6 * self.count + 4 * self.values
    }

    /// Writes, per switch, "a word with the number of values, two name words, two words per value".
    pub fn write(&self, buffer: &mut [u8]) {
        let mut reader = Reader { rest: self.written, bounded: true };
        let mut words = buffer.chunks_exact_mut(2);
        let mut put = |word: u16| words.next().expect("the buffer has room").copy_from_slice(&word.to_le_bytes());
        while reader.take(b'/') {
            let name = reader.switch_name().expect("it was read before");
            // Up to the next switch each colon begins a value.
            let values = reader.rest.iter().take_while(|&&character| character != b'/');
            put(values.filter(|&&character| character == b':').count() as u16);
            radix_words(name).into_iter().for_each(&mut put);
            while reader.take(b':') {
                let value = reader.switch_value().expect("it was read before");
                radix_words(value).into_iter().for_each(&mut put);
            }
        }
    }
}

/// Up to six characters as two Radix-50 words, blanks behind.
fn radix_words(characters: &[u8]) -> [u16; 2] {
    let mut codes = [0; 6];
    for (place, &character) in codes.iter_mut().zip(characters) {
        *place = radix::code(character).expect("a letter or digit has a code");
    }
    [radix::word([codes[0], codes[1], codes[2]]), radix::word([codes[3], codes[4], codes[5]])]
}

fn is_octal(character: u8) -> bool {
    matches!(character, b'0'..=b'7')
}

fn is_letter_or_digit(character: u8) -> bool {
    character.is_ascii_uppercase() || character.is_ascii_digit()
}
