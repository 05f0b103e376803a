//! One call with all its arguments, made in both ways.

use crate::request::Request;
use model::answers::{
    code, Answer, BinaryAnswer, LookAnswer, OwnerAnswer, ReadAnswer, SpecificationAnswer, WriteAnswer,
};
use model::pack::form::Form;
use model::requests::File;
use model::{boundary, command, conversions, requests};
use std::fmt;

/// The numbers of a call. What it lends besides is an image, a line, text or data, and a buffer.
#[derive(Clone, Copy, Debug)]
#[rustfmt::skip]
pub enum Numbers {
    None,
    Format { form: usize, blocks: usize, contents: usize },
    File { caller: usize, file: File },
    /// A protect code, with the segments of ALLOC.
    New { caller: usize, file: File, protect: usize, segments: usize },
    Mode { caller: usize, file: File, mode: usize },
    Place { caller: usize, file: File, place: usize },
    /// Of a line that is read, and of text that is written.
    Reading { caller: usize, file: File, mode: usize, position: usize },
    Writing { caller: usize, file: File, mode: usize, filled: usize },
    /// Of its end, and of a binary line that is written.
    Gathering { caller: usize, file: File, filled: usize },
    /// Of a binary line that is read, or a part of it.
    BinaryReading { caller: usize, file: File, mode: usize, position: usize, to_come: usize, sum: usize },
    Rename { caller: usize, old: File, new: File, protect: usize },
    Append { caller: usize, first: File, second: File },
    /// A block, a caller, or a number to be converted.
    One(usize),
    Side { side: usize, k: usize },
    /// How many specifications each side has.
    Sides { outputs: usize, inputs: usize },
}

#[derive(Clone)]
pub struct Call {
    pub request: Request,
    pub numbers: Numbers,
    pub line: Vec<u8>,
    pub buffer: Vec<u8>,
}

/// Of what is lent so many bytes are shown: a seed gives the rest.
const SHOWN: usize = 600;

impl fmt::Debug for Call {
    fn fmt(&self, formatter: &mut fmt::Formatter) -> fmt::Result {
        let Call { request, numbers, line, buffer } = self;
        writeln!(formatter, "{request:?} {numbers:?}")?;
        for (subject, bytes) in [("line", line), ("buffer", buffer)] {
            let shown = &bytes[..bytes.len().min(SHOWN)];
            writeln!(formatter, "{subject}, {} bytes: \"{}\"", bytes.len(), shown.escape_ascii())?;
        }
        Ok(())
    }
}

/// An answer as numbers, the code first.
pub type Said = Vec<usize>;

fn number(answer: Answer) -> Said {
    vec![answer.code, answer.number]
}

fn look(answer: LookAnswer) -> Said {
    let LookAnswer { code, kind, first, length, protect, writer, readers } = answer;
    vec![code, kind, first, length, protect, writer, readers]
}

fn owner(answer: OwnerAnswer) -> Said {
    vec![answer.code, answer.kind, answer.entry, answer.place]
}

fn read(answer: ReadAnswer) -> Said {
    vec![answer.code, answer.count, answer.status, answer.position]
}

fn written(answer: WriteAnswer) -> Said {
    vec![answer.code, answer.count, answer.status, answer.filled]
}

fn binary(answer: BinaryAnswer) -> Said {
    vec![answer.code, answer.count, answer.status, answer.position, answer.to_come, answer.sum]
}

fn specification(answer: SpecificationAnswer) -> Said {
    let SpecificationAnswer { code, place, present, device, unit, name1, name2, extension, group, user, switches } =
        answer;
    vec![code, place, present, device, unit, name1, name2, extension, group, user, switches]
}

impl Call {
    /// The form that a Format names, if it is one.
    pub fn form(&self) -> Option<Form> {
        match self.numbers {
            Numbers::Format { form, .. } => Form::of_word(form),
            _ => None,
        }
    }

    /// The mode and the status of a line that was read, or of what was written.
    pub fn status(&self, answer: &Said) -> Option<(usize, usize)> {
        if answer[0] != 0 {
            return None;
        }
        match self.numbers {
            Numbers::Reading { mode, .. } | Numbers::Writing { mode, .. } | Numbers::BinaryReading { mode, .. } => {
                Some((mode, answer[2]))
            }
            Numbers::Gathering { .. } if self.request == Request::BinaryWrite => Some((0, answer[2])),
            _ => None,
        }
    }

    /// Makes the call on the library.
    #[rustfmt::skip]
    pub fn library(&self, image: &mut [u8], line: &[u8], buffer: &mut [u8]) -> Said {
        use Numbers as N;
        use Request as R;
        match (self.request, self.numbers) {
            (R::Format, N::Format { form, blocks, contents }) => vec![boundary::format(image, form, blocks, contents, buffer)],
            (R::Alloc, N::New { caller, file, protect, segments }) => number(boundary::alloc(image, caller, file, protect, segments)),
            (R::Openo, N::New { caller, file, protect, .. }) => vec![boundary::openo(image, caller, file, protect)],
            (R::Delet, N::File { caller, file }) => vec![boundary::delet(image, caller, file)],
            (R::Renam, N::Rename { caller, old, new, protect }) => vec![boundary::renam(image, caller, old, new, protect)],
            (R::Appnd, N::Append { caller, first, second }) => vec![boundary::appnd(image, caller, first, second)],
            (R::Look, N::File { caller, file }) => look(boundary::look(image, caller, file)),
            (R::Keep, N::File { caller, file }) => vec![boundary::keep(image, caller, file)],
            (R::Openi, N::File { caller, file }) => vec![boundary::openi(image, caller, file)],
            (R::Openu, N::File { caller, file }) => vec![boundary::openu(image, caller, file)],
            (R::Opene, N::File { caller, file }) => vec![boundary::opene(image, caller, file)],
            (R::Close, N::Mode { caller, file, mode }) => vec![boundary::close(image, caller, file, mode)],
            (R::Finish, N::One(caller)) => number(boundary::finish(image, caller)),
            (R::Many, N::None) => vec![boundary::many(image, line, buffer)],
            (R::Owner, N::One(block)) => owner(boundary::owner(image, block)),
            (R::ToForm2, N::None) => vec![boundary::to_form2(image, buffer)],
            (R::ToForm1, N::None) => vec![boundary::to_form1(image, buffer)],
            (R::BlockIn, N::Place { caller, file, place }) => vec![boundary::block_in(image, caller, file, place, buffer)],
            (R::BlockOut, N::Place { caller, file, place }) => vec![boundary::block_out(image, caller, file, place, buffer)],
            (R::LinkedRead, N::Place { caller, file, place }) => vec![boundary::linked_read(image, caller, file, place, buffer)],
            (R::LinkedAdd, N::File { caller, file }) => number(boundary::linked_add(image, caller, file, buffer)),
            (R::LineRead, N::Reading { caller, file, mode, position }) => read(boundary::line_read(image, caller, file, mode, position, buffer)),
            (R::LineWrite, N::Writing { caller, file, mode, filled }) => written(boundary::line_write(image, caller, file, mode, line, buffer, filled)),
            (R::LineEnd, N::Gathering { caller, file, filled }) => vec![boundary::line_end(image, caller, file, buffer, filled)],
            (R::BinaryRead, N::BinaryReading { caller, file, mode, position, to_come, sum }) => binary(boundary::binary_read(image, caller, file, mode, position, to_come, sum, buffer)),
            (R::BinaryWrite, N::Gathering { caller, file, filled }) => written(boundary::binary_write(image, caller, file, line, buffer, filled)),
            (R::Radpk, N::None) => number(boundary::radpk(buffer)),
            (R::Radup, N::One(word)) => vec![boundary::radup(word, buffer)],
            (R::D2bin, N::None) => number(boundary::d2bin(buffer)),
            (R::Bin2d, N::One(number)) => vec![boundary::bin2d(number, buffer)],
            (R::O2bin, N::None) => number(boundary::o2bin(buffer)),
            (R::Bin2o, N::One(number)) => vec![boundary::bin2o(number, buffer)],
            (R::Csi1, N::None) => number(boundary::csi1(line, buffer)),
            (R::Csi2, N::Side { side, k }) => specification(boundary::csi2(line, side, k, buffer)),
            (R::CsiWrite, N::Sides { outputs, inputs }) => number(boundary::csi_write(outputs, inputs, line, buffer)),
            (request, numbers) => unreachable!("{request:?} {numbers:?} {line:?}"),
        }
    }

    /// Makes the call on the model.
    #[rustfmt::skip]
    pub fn model(&self, image: &mut [u8], line: &[u8], buffer: &mut [u8]) -> Said {
        use Numbers as N;
        use Request as R;
        match (self.request, self.numbers) {
            (R::Format, N::Format { form, blocks, contents }) => vec![code(requests::format(image, form, blocks, contents, buffer))],
            (R::Alloc, N::New { caller, file, protect, segments }) => number(requests::alloc(image, caller, file, protect, segments).into()),
            (R::Openo, N::New { caller, file, protect, .. }) => vec![code(requests::openo(image, caller, file, protect))],
            (R::Delet, N::File { caller, file }) => vec![code(requests::delet(image, caller, file))],
            (R::Renam, N::Rename { caller, old, new, protect }) => vec![code(requests::renam(image, caller, old, new, protect))],
            (R::Appnd, N::Append { caller, first, second }) => vec![code(requests::appnd(image, caller, first, second))],
            (R::Look, N::File { caller, file }) => look(requests::look(image, caller, file).into()),
            (R::Keep, N::File { caller, file }) => vec![code(requests::keep(image, caller, file))],
            (R::Openi, N::File { caller, file }) => vec![code(requests::openi(image, caller, file))],
            (R::Openu, N::File { caller, file }) => vec![code(requests::openu(image, caller, file))],
            (R::Opene, N::File { caller, file }) => vec![code(requests::opene(image, caller, file))],
            (R::Close, N::Mode { caller, file, mode }) => vec![code(requests::close(image, caller, file, mode))],
            (R::Finish, N::One(caller)) => number(requests::finish(image, caller).into()),
            (R::Many, N::None) => vec![code(requests::many(image, line, buffer))],
            (R::Owner, N::One(block)) => owner(requests::owner(image, block).into()),
            (R::ToForm2, N::None) => vec![code(requests::to_form2(image, buffer))],
            (R::ToForm1, N::None) => vec![code(requests::to_form1(image, buffer))],
            (R::BlockIn, N::Place { caller, file, place }) => vec![code(requests::block_in(image, caller, file, place, buffer))],
            (R::BlockOut, N::Place { caller, file, place }) => vec![code(requests::block_out(image, caller, file, place, buffer))],
            (R::LinkedRead, N::Place { caller, file, place }) => vec![code(requests::linked_read(image, caller, file, place, buffer))],
            (R::LinkedAdd, N::File { caller, file }) => number(requests::linked_add(image, caller, file, buffer).into()),
            (R::LineRead, N::Reading { caller, file, mode, position }) => read(requests::line_read(image, caller, file, mode, position, buffer).into()),
            (R::LineWrite, N::Writing { caller, file, mode, filled }) => written(requests::line_write(image, caller, file, mode, line, buffer, filled).into()),
            (R::LineEnd, N::Gathering { caller, file, filled }) => vec![code(requests::line_end(image, caller, file, buffer, filled))],
            (R::BinaryRead, N::BinaryReading { caller, file, mode, position, to_come, sum }) => binary(requests::binary_read(image, caller, file, mode, position, to_come, sum, buffer).into()),
            (R::BinaryWrite, N::Gathering { caller, file, filled }) => written(requests::binary_write(image, caller, file, line, buffer, filled).into()),
            (R::Radpk, N::None) => number(conversions::radpk(buffer).into()),
            (R::Radup, N::One(word)) => vec![code(conversions::radup(word, buffer))],
            (R::D2bin, N::None) => number(conversions::d2bin(buffer).into()),
            (R::Bin2d, N::One(number)) => vec![code(conversions::bin2d(number, buffer))],
            (R::O2bin, N::None) => number(conversions::o2bin(buffer).into()),
            (R::Bin2o, N::One(number)) => vec![code(conversions::bin2o(number, buffer))],
            (R::Csi1, N::None) => number(command::csi1(line, buffer).into()),
            (R::Csi2, N::Side { side, k }) => specification(command::csi2(line, side, k, buffer).into()),
            (R::CsiWrite, N::Sides { outputs, inputs }) => number(command::csi_write(outputs, inputs, line, buffer).into()),
            (request, numbers) => unreachable!("{request:?} {numbers:?}"),
        }
    }
}
