//! The answers of the C boundary, numbers with the code first, and how the model's results are said in them.

use crate::command::Specification;
use crate::pack::entry::Entry;
use crate::pack::owner::Owner;
use crate::refusal::{LineRefusal, Refusal};
use crate::requests::binary::BinaryRead;
use crate::requests::lines::{Read, Written};

/// A code and one number.
#[repr(C)]
#[derive(Clone, Copy, Debug, Default, PartialEq, Eq)]
pub struct Answer {
    pub code: usize,
    pub number: usize,
}

/// LOOK's code and its six numbers.
#[repr(C)]
#[derive(Clone, Copy, Debug, Default, PartialEq, Eq)]
pub struct LookAnswer {
    pub code: usize,
    pub kind: usize,
    pub first: usize,
    pub length: usize,
    pub protect: usize,
    pub writer: usize,
    pub readers: usize,
}

/// Whose a block is. The kind is 0 for system, 1 for free, 2 for held.
#[repr(C)]
#[derive(Clone, Copy, Debug, Default, PartialEq, Eq)]
pub struct OwnerAnswer {
    pub code: usize,
    pub kind: usize,
    pub entry: usize,
    pub place: usize,
}

/// What a read of a line gives: the count, the status, and the next position.
#[repr(C)]
#[derive(Clone, Copy, Debug, Default, PartialEq, Eq)]
pub struct ReadAnswer {
    pub code: usize,
    pub count: usize,
    pub status: usize,
    pub position: usize,
}

/// What a write of lines gives: the count taken, the status, and how far the gather buffer is filled.
#[repr(C)]
#[derive(Clone, Copy, Debug, Default, PartialEq, Eq)]
pub struct WriteAnswer {
    pub code: usize,
    pub count: usize,
    pub status: usize,
    pub filled: usize,
}

/// What a read of a binary line gives: the count, the status, the next position, and what is passed in again.
#[repr(C)]
#[derive(Clone, Copy, Debug, Default, PartialEq, Eq)]
pub struct BinaryAnswer {
    pub code: usize,
    pub count: usize,
    pub status: usize,
    pub position: usize,
    pub to_come: usize,
    pub sum: usize,
}

/// A specification of a command. In `present` bit 0 is the device, 1 the name, 2 the extension, 3 group and user.
#[repr(C)]
#[derive(Clone, Copy, Debug, Default, PartialEq, Eq)]
pub struct SpecificationAnswer {
    pub code: usize,
    pub place: usize,
    pub present: usize,
    pub device: usize,
    pub unit: usize,
    pub name1: usize,
    pub name2: usize,
    pub extension: usize,
    pub group: usize,
    pub user: usize,
    pub switches: usize,
}

/// The code of a result that has no number.
pub fn code(result: Result<(), Refusal>) -> usize {
    match result {
        Ok(()) => 0,
        Err(refusal) => refusal.code(),
    }
}

impl From<Result<usize, Refusal>> for Answer {
    fn from(result: Result<usize, Refusal>) -> Answer {
        match result {
            Ok(number) => Answer { code: 0, number },
            Err(refusal) => Answer { code: refusal.code(), number: 0 },
        }
    }
}

/// CSI1's number is the condensed length, or the place.
impl From<Result<usize, LineRefusal>> for Answer {
    fn from(result: Result<usize, LineRefusal>) -> Answer {
        match result {
            Ok(number) => Answer { code: 0, number },
            Err(line) => Answer { code: line.refusal.code(), number: line.place },
        }
    }
}

impl From<Result<Entry, Refusal>> for LookAnswer {
    fn from(result: Result<Entry, Refusal>) -> LookAnswer {
        match result {
            Ok(entry) => LookAnswer {
                code: 0,
                kind: entry.kind as usize,
                first: entry.first as usize,
                length: entry.length as usize,
                protect: entry.protect as usize,
                writer: entry.writer as usize,
                readers: entry.readers as usize,
            },
            Err(refusal) => LookAnswer { code: refusal.code(), ..LookAnswer::default() },
        }
    }
}

impl From<Result<Owner, Refusal>> for OwnerAnswer {
    fn from(result: Result<Owner, Refusal>) -> OwnerAnswer {
        match result {
            Ok(Owner::System) => OwnerAnswer::default(),
            Ok(Owner::Free) => OwnerAnswer { kind: 1, ..OwnerAnswer::default() },
            Ok(Owner::Held { entry, place }) => OwnerAnswer { code: 0, kind: 2, entry, place },
            Err(refusal) => OwnerAnswer { code: refusal.code(), ..OwnerAnswer::default() },
        }
    }
}

impl From<Result<Read, Refusal>> for ReadAnswer {
    fn from(result: Result<Read, Refusal>) -> ReadAnswer {
        match result {
            Ok(Read { count, status, position }) => ReadAnswer { code: 0, count, status, position },
            Err(refusal) => ReadAnswer { code: refusal.code(), ..ReadAnswer::default() },
        }
    }
}

impl From<Result<Written, Refusal>> for WriteAnswer {
    fn from(result: Result<Written, Refusal>) -> WriteAnswer {
        match result {
            Ok(Written { count, status, filled }) => WriteAnswer { code: 0, count, status, filled },
            Err(refusal) => WriteAnswer { code: refusal.code(), ..WriteAnswer::default() },
        }
    }
}

impl From<Result<BinaryRead, Refusal>> for BinaryAnswer {
    fn from(result: Result<BinaryRead, Refusal>) -> BinaryAnswer {
        match result {
            Ok(BinaryRead { count, status, position, to_come, sum }) => {
                BinaryAnswer { code: 0, count, status, position, to_come, sum }
            }
            Err(refusal) => BinaryAnswer { code: refusal.code(), ..BinaryAnswer::default() },
        }
    }
}

impl From<Result<Specification<'_>, LineRefusal>> for SpecificationAnswer {
    fn from(result: Result<Specification, LineRefusal>) -> SpecificationAnswer {
        let specification = match result {
            Ok(specification) => specification,
            Err(line) => {
                return SpecificationAnswer {
                    code: line.refusal.code(),
                    place: line.place,
                    ..SpecificationAnswer::default()
                }
            }
        };
        // "absent ones' numbers 0" (01, "Command lines"), so the defaults stay where a part is absent.
        let mut answer =
            SpecificationAnswer { switches: specification.switches.count, ..SpecificationAnswer::default() };
        if let Some(device) = specification.device {
            answer.present |= 1;
            answer.device = device.letters as usize;
            answer.unit = device.unit as usize;
        }
        if let Some([name1, name2]) = specification.name {
            answer.present |= 2;
            answer.name1 = name1 as usize;
            answer.name2 = name2 as usize;
        }
        if let Some(extension) = specification.extension {
            answer.present |= 4;
            answer.extension = extension as usize;
        }
        if let Some(uic) = specification.uic {
            answer.present |= 8;
            answer.group = uic.group as usize;
            answer.user = uic.user as usize;
        }
        answer
    }
}
