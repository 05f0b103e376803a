//! The requests, and the codes that each can give, by the conditions of 01's table and of 02, and its statuses by 02, §1 and §10.

use model::pack::form::Form;

#[derive(Clone, Copy, Debug, PartialEq, Eq)]
pub enum Request {
    Format,
    Alloc,
    Delet,
    Renam,
    Appnd,
    Look,
    Keep,
    Openo,
    Openi,
    Openu,
    Opene,
    Close,
    Owner,
    BlockIn,
    BlockOut,
    LinkedRead,
    LinkedAdd,
    LineRead,
    LineWrite,
    LineEnd,
    BinaryRead,
    BinaryWrite,
    Finish,
    ToForm2,
    ToForm1,
    Many,
    Radpk,
    Radup,
    D2bin,
    Bin2d,
    O2bin,
    Bin2o,
    Csi1,
    Csi2,
    CsiWrite,
}

/// Every request that is compared.
pub const ALL: &[Request] = &[
    Request::Format,
    Request::Alloc,
    Request::Delet,
    Request::Renam,
    Request::Appnd,
    Request::Look,
    Request::Keep,
    Request::Openo,
    Request::Openi,
    Request::Openu,
    Request::Opene,
    Request::Close,
    Request::Owner,
    Request::BlockIn,
    Request::BlockOut,
    Request::LinkedRead,
    Request::LinkedAdd,
    Request::LineRead,
    Request::LineWrite,
    Request::LineEnd,
    Request::BinaryRead,
    Request::BinaryWrite,
    Request::Finish,
    Request::ToForm2,
    Request::ToForm1,
    Request::Many,
    Request::Radpk,
    Request::Radup,
    Request::D2bin,
    Request::Bin2d,
    Request::O2bin,
    Request::Bin2o,
    Request::Csi1,
    Request::Csi2,
    Request::CsiWrite,
];

impl Request {
    /// The codes that can be reached, in the order of the table; any other is a fault.
    pub fn codes(self) -> &'static [usize] {
        match self {
            Request::Format => &[0, 0o41],
            Request::Alloc => &[0, 0o40, 0o15, 0o41, 0o13, 0o2, 0o6, 0o12, 0o42],
            Request::Delet => &[0, 0o40, 0o15, 0o2, 0o6, 0o14],
            Request::Renam => &[0, 0o40, 0o15, 0o41, 0o2, 0o6, 0o14],
            Request::Appnd => &[0, 0o40, 0o15, 0o41, 0o2, 0o6, 0o43, 0o14],
            Request::Look => &[0, 0o40, 0o15, 0o2],
            Request::Keep => &[0, 0o40, 0o15, 0o2, 0o6],
            Request::Openo => &[0, 0o40, 0o15, 0o41, 0o13, 0o2, 0o6, 0o12],
            Request::Openi => &[0, 0o40, 0o15, 0o2, 0o6, 0o3],
            Request::Openu => &[0, 0o40, 0o15, 0o2, 0o6, 0o43, 0o4, 0o3],
            Request::Opene => &[0, 0o40, 0o15, 0o2, 0o6, 0o5, 0o4, 0o3],
            Request::Close => &[0, 0o40, 0o15, 0o41, 0o2, 0o45],
            Request::Owner => &[0, 0o40, 0o44],
            Request::Finish => &[0, 0o40],
            Request::ToForm2 | Request::ToForm1 => &[0, 0o40, 0o41],
            Request::Many => &[0, 0o41],
            Request::BlockIn | Request::BlockOut | Request::LinkedRead | Request::LineRead | Request::BinaryRead => {
                &[0, 0o40, 0o15, 0o41, 0o2, 0o6, 0o43, 0o45, 0o44]
            }
            Request::LinkedAdd | Request::LineWrite | Request::LineEnd | Request::BinaryWrite => {
                &[0, 0o40, 0o15, 0o41, 0o2, 0o6, 0o43, 0o45, 0o42]
            }
            Request::Radpk | Request::Radup | Request::D2bin | Request::Bin2d | Request::O2bin | Request::Bin2o => {
                &[0, 0o41, 0o60]
            }
            Request::Csi1 => &[0, 0o53, 0o52, 0o50, 0o54],
            Request::Csi2 => &[0, 0o53, 0o50, 0o54, 0o51, 0o52],
            Request::CsiWrite => &[0, 0o41, 0o53, 0o52],
        }
    }

    /// Those that are to be reached beside a pack of a form: only a pack of the one form is moved to the other.
    pub fn codes_beside(self, form: Form) -> &'static [usize] {
        match self {
            Request::ToForm2 if form != Form::ONE => &[0o40],
            Request::ToForm1 if form != Form::TWO => &[0o40],
            _ => self.codes(),
        }
    }

    /// The statuses that can be reached in normal mode, and those in special mode; any other is a fault.
    pub fn statuses(self) -> [&'static [usize]; 2] {
        match self {
            // "normal mode may set both": special mode stops before the file ends.
            Request::LineRead => [&[0, 1, 64, 65], &[0, 1, 64]],
            Request::LineWrite => [&[0, 1], &[0, 1]],
            // Special mode verifies only where the buffer is long enough, and stops before the data end.
            Request::BinaryRead => [&[0, 1, 2, 3, 4, 64, 65], &[0, 1, 2, 4, 64]],
            // There are no modes; this stands for the one way.
            Request::BinaryWrite => [&[0], &[]],
            _ => [&[], &[]],
        }
    }

    /// How often the request is drawn, against the others.
    pub fn weight(self) -> usize {
        match self {
            Request::Alloc | Request::Openo | Request::Openi | Request::Openu | Request::Opene => 6,
            Request::BlockIn | Request::BlockOut | Request::LinkedRead | Request::LinkedAdd => 6,
            Request::Delet | Request::Renam | Request::Appnd | Request::Close | Request::LineEnd => 5,
            Request::Csi1 | Request::Csi2 | Request::CsiWrite | Request::LineRead | Request::LineWrite => 10,
            Request::BinaryRead | Request::BinaryWrite => 10,
            Request::Look | Request::Keep | Request::Owner | Request::Finish | Request::Many => 3,
            _ => 2,
        }
    }

    /// Whether the request is on an image that is asked to be a consistent pack.
    pub fn is_on_pack(self) -> bool {
        // A list has this code in its answers.
        self.codes().contains(&0o40) || self == Request::Many
    }
}
