//! The causes of a refusal and their codes (01, "Codes"; 02, §3).

/// Why a request is refused, in the order of 01's table, with the code that 01 writes in octal.
#[derive(Clone, Copy, Debug, PartialEq, Eq)]
pub enum Refusal {
    Inconsistent = 0o40,
    Name = 0o15,
    Argument = 0o41,
    NoUser = 0o13,
    /// Absent; or, for a name that a file is to get, there already.
    Existence = 0o2,
    Right = 0o6,
    /// OPENE of a contiguous file, which has a code of its own.
    NotLinked = 0o5,
    Kind = 0o43,
    Writer = 0o4,
    Open = 0o14,
    NotOpen = 0o45,
    NoBlock = 0o44,
    Opens = 0o3,
    NoEntry = 0o12,
    NoRoom = 0o42,
    Grammar = 0o50,
    NoSpecification = 0o51,
    BufferShort = 0o52,
    LineLong = 0o53,
    Number = 0o54,
    Conversion = 0o60,
}

impl Refusal {
    pub fn code(self) -> usize {
        self as usize
    }
}

/// The refusal of a command line, with the place if it is not in the grammar, and else 0: the only number that a
/// refusal has besides its code.
#[derive(Clone, Copy, Debug, PartialEq, Eq)]
pub struct LineRefusal {
    pub refusal: Refusal,
    pub place: usize,
}

impl From<Refusal> for LineRefusal {
    fn from(refusal: Refusal) -> LineRefusal {
        LineRefusal { refusal, place: 0 }
    }
}

/// Goes on if `condition` holds, and else refuses.
#[inline]
pub fn require(condition: bool, refusal: Refusal) -> Result<(), Refusal> {
    if condition {
        Ok(())
    } else {
        Err(refusal)
    }
}
