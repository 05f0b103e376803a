//! The library's C boundary, declared as its header has it, and a safe function for each of its functions.

use crate::answers::{Answer, LookAnswer, OwnerAnswer};
use crate::requests::File;

#[rustfmt::skip]
extern "C" {
    fn abz_format(image: *mut u8, image_len: usize, form: usize, blocks: usize, contents: usize, uics: *const u8, uics_len: usize) -> usize;
    fn abz_alloc(image: *mut u8, image_len: usize, caller: usize, name1: usize, name2: usize, extension: usize, uic: usize, protect: usize, segments: usize) -> Answer;
    fn abz_openo(image: *mut u8, image_len: usize, caller: usize, name1: usize, name2: usize, extension: usize, uic: usize, protect: usize) -> usize;
    fn abz_openi(image: *mut u8, image_len: usize, caller: usize, name1: usize, name2: usize, extension: usize, uic: usize) -> usize;
    fn abz_openu(image: *mut u8, image_len: usize, caller: usize, name1: usize, name2: usize, extension: usize, uic: usize) -> usize;
    fn abz_opene(image: *mut u8, image_len: usize, caller: usize, name1: usize, name2: usize, extension: usize, uic: usize) -> usize;
    fn abz_close(image: *mut u8, image_len: usize, caller: usize, name1: usize, name2: usize, extension: usize, uic: usize, mode: usize) -> usize;
    fn abz_delet(image: *mut u8, image_len: usize, caller: usize, name1: usize, name2: usize, extension: usize, uic: usize) -> usize;
    fn abz_renam(image: *mut u8, image_len: usize, caller: usize, name1: usize, name2: usize, extension: usize, uic: usize, new_name1: usize, new_name2: usize, new_extension: usize, protect: usize) -> usize;
    fn abz_appnd(image: *mut u8, image_len: usize, caller: usize, name1: usize, name2: usize, extension: usize, uic: usize, second_name1: usize, second_name2: usize, second_extension: usize, second_uic: usize) -> usize;
    fn abz_look(image: *const u8, image_len: usize, caller: usize, name1: usize, name2: usize, extension: usize, uic: usize) -> LookAnswer;
    fn abz_keep(image: *mut u8, image_len: usize, caller: usize, name1: usize, name2: usize, extension: usize, uic: usize) -> usize;
    fn abz_finish(image: *mut u8, image_len: usize, caller: usize) -> Answer;
    fn abz_many(image: *mut u8, image_len: usize, records: *const u8, records_len: usize, answers: *mut u8, answers_len: usize) -> usize;
    fn abz_owner(image: *const u8, image_len: usize, block: usize) -> OwnerAnswer;
    fn abz_report(image: *const u8, image_len: usize) -> crate::report::ReportAnswer;
    fn abz_to_form2(source: *const u8, source_len: usize, target: *mut u8, target_len: usize) -> usize;
    fn abz_to_form1(source: *const u8, source_len: usize, target: *mut u8, target_len: usize) -> usize;
    fn abz_block_in(image: *const u8, image_len: usize, caller: usize, name1: usize, name2: usize, extension: usize, uic: usize, place: usize, buffer: *mut u8, buffer_len: usize) -> usize;
    fn abz_block_out(image: *mut u8, image_len: usize, caller: usize, name1: usize, name2: usize, extension: usize, uic: usize, place: usize, buffer: *const u8, buffer_len: usize) -> usize;
    fn abz_linked_read(image: *const u8, image_len: usize, caller: usize, name1: usize, name2: usize, extension: usize, uic: usize, place: usize, buffer: *mut u8, buffer_len: usize) -> usize;
    fn abz_linked_add(image: *mut u8, image_len: usize, caller: usize, name1: usize, name2: usize, extension: usize, uic: usize, payload: *const u8, payload_len: usize) -> Answer;
    fn abz_line_read(image: *const u8, image_len: usize, caller: usize, name1: usize, name2: usize, extension: usize, uic: usize, mode: usize, position: usize, buffer: *mut u8, buffer_len: usize) -> crate::answers::ReadAnswer;
    fn abz_line_write(image: *mut u8, image_len: usize, caller: usize, name1: usize, name2: usize, extension: usize, uic: usize, mode: usize, text: *const u8, text_len: usize, gather: *mut u8, gather_len: usize, filled: usize) -> crate::answers::WriteAnswer;
    fn abz_line_end(image: *mut u8, image_len: usize, caller: usize, name1: usize, name2: usize, extension: usize, uic: usize, gather: *mut u8, gather_len: usize, filled: usize) -> usize;
    fn abz_binary_read(image: *const u8, image_len: usize, caller: usize, name1: usize, name2: usize, extension: usize, uic: usize, mode: usize, position: usize, to_come: usize, sum: usize, buffer: *mut u8, buffer_len: usize) -> crate::answers::BinaryAnswer;
    fn abz_binary_write(image: *mut u8, image_len: usize, caller: usize, name1: usize, name2: usize, extension: usize, uic: usize, data: *const u8, data_len: usize, gather: *mut u8, gather_len: usize, filled: usize) -> crate::answers::WriteAnswer;
    fn abz_radpk(chars: *const u8, chars_len: usize) -> Answer;
    fn abz_radup(word: usize, chars: *mut u8, chars_len: usize) -> usize;
    fn abz_d2bin(chars: *const u8, chars_len: usize) -> Answer;
    fn abz_bin2d(number: usize, chars: *mut u8, chars_len: usize) -> usize;
    fn abz_o2bin(chars: *const u8, chars_len: usize) -> Answer;
    fn abz_bin2o(number: usize, chars: *mut u8, chars_len: usize) -> usize;
    fn abz_csi1(line: *const u8, line_len: usize, condensed: *mut u8, condensed_len: usize) -> Answer;
    fn abz_csi_write(outputs: usize, inputs: usize, records: *const u8, records_len: usize, line: *mut u8, line_len: usize) -> Answer;
    fn abz_csi2(line: *const u8, line_len: usize, side: usize, k: usize, switches: *mut u8, switches_len: usize) -> crate::answers::SpecificationAnswer;
}

// Safe: a slice of Rust has a pointer that is never null, even at length 0, and slices that are lent to be written do
// not overlap others. The header asks no more of a host.

pub fn format(image: &mut [u8], form: usize, blocks: usize, contents: usize, uics: &[u8]) -> usize {
    unsafe { abz_format(image.as_mut_ptr(), image.len(), form, blocks, contents, uics.as_ptr(), uics.len()) }
}

pub fn alloc(image: &mut [u8], caller: usize, file: File, protect: usize, segments: usize) -> Answer {
    let File { name1, name2, extension, uic } = file;
    unsafe { abz_alloc(image.as_mut_ptr(), image.len(), caller, name1, name2, extension, uic, protect, segments) }
}

pub fn openo(image: &mut [u8], caller: usize, file: File, protect: usize) -> usize {
    let File { name1, name2, extension, uic } = file;
    unsafe { abz_openo(image.as_mut_ptr(), image.len(), caller, name1, name2, extension, uic, protect) }
}

pub fn openi(image: &mut [u8], caller: usize, file: File) -> usize {
    let File { name1, name2, extension, uic } = file;
    unsafe { abz_openi(image.as_mut_ptr(), image.len(), caller, name1, name2, extension, uic) }
}

pub fn openu(image: &mut [u8], caller: usize, file: File) -> usize {
    let File { name1, name2, extension, uic } = file;
    unsafe { abz_openu(image.as_mut_ptr(), image.len(), caller, name1, name2, extension, uic) }
}

pub fn opene(image: &mut [u8], caller: usize, file: File) -> usize {
    let File { name1, name2, extension, uic } = file;
    unsafe { abz_opene(image.as_mut_ptr(), image.len(), caller, name1, name2, extension, uic) }
}

pub fn close(image: &mut [u8], caller: usize, file: File, mode: usize) -> usize {
    let File { name1, name2, extension, uic } = file;
    unsafe { abz_close(image.as_mut_ptr(), image.len(), caller, name1, name2, extension, uic, mode) }
}

pub fn delet(image: &mut [u8], caller: usize, file: File) -> usize {
    let File { name1, name2, extension, uic } = file;
    unsafe { abz_delet(image.as_mut_ptr(), image.len(), caller, name1, name2, extension, uic) }
}

/// The new name has no UIC at the boundary; that of `new` is not handed on.
#[rustfmt::skip]
pub fn renam(image: &mut [u8], caller: usize, old: File, new: File, protect: usize) -> usize {
    let File { name1, name2, extension, uic } = old;
    unsafe {
        abz_renam(image.as_mut_ptr(), image.len(), caller, name1, name2, extension, uic, new.name1, new.name2, new.extension, protect)
    }
}

#[rustfmt::skip]
pub fn appnd(image: &mut [u8], caller: usize, first: File, second: File) -> usize {
    let File { name1, name2, extension, uic } = first;
    unsafe {
        abz_appnd(image.as_mut_ptr(), image.len(), caller, name1, name2, extension, uic, second.name1, second.name2, second.extension, second.uic)
    }
}

pub fn look(image: &[u8], caller: usize, file: File) -> LookAnswer {
    let File { name1, name2, extension, uic } = file;
    unsafe { abz_look(image.as_ptr(), image.len(), caller, name1, name2, extension, uic) }
}

pub fn keep(image: &mut [u8], caller: usize, file: File) -> usize {
    let File { name1, name2, extension, uic } = file;
    unsafe { abz_keep(image.as_mut_ptr(), image.len(), caller, name1, name2, extension, uic) }
}

pub fn finish(image: &mut [u8], caller: usize) -> Answer {
    unsafe { abz_finish(image.as_mut_ptr(), image.len(), caller) }
}

#[rustfmt::skip]
pub fn many(image: &mut [u8], records: &[u8], answers: &mut [u8]) -> usize {
    unsafe {
        abz_many(image.as_mut_ptr(), image.len(), records.as_ptr(), records.len(), answers.as_mut_ptr(), answers.len())
    }
}

pub fn owner(image: &[u8], block: usize) -> OwnerAnswer {
    unsafe { abz_owner(image.as_ptr(), image.len(), block) }
}

pub fn report(image: &[u8]) -> crate::report::ReportAnswer {
    unsafe { abz_report(image.as_ptr(), image.len()) }
}

pub fn to_form2(source: &[u8], target: &mut [u8]) -> usize {
    unsafe { abz_to_form2(source.as_ptr(), source.len(), target.as_mut_ptr(), target.len()) }
}

pub fn to_form1(source: &[u8], target: &mut [u8]) -> usize {
    unsafe { abz_to_form1(source.as_ptr(), source.len(), target.as_mut_ptr(), target.len()) }
}

#[rustfmt::skip]
pub fn block_in(image: &[u8], caller: usize, file: File, place: usize, buffer: &mut [u8]) -> usize {
    let File { name1, name2, extension, uic } = file;
    unsafe {
        abz_block_in(image.as_ptr(), image.len(), caller, name1, name2, extension, uic, place, buffer.as_mut_ptr(), buffer.len())
    }
}

#[rustfmt::skip]
pub fn block_out(image: &mut [u8], caller: usize, file: File, place: usize, buffer: &[u8]) -> usize {
    let File { name1, name2, extension, uic } = file;
    unsafe {
        abz_block_out(image.as_mut_ptr(), image.len(), caller, name1, name2, extension, uic, place, buffer.as_ptr(), buffer.len())
    }
}

#[rustfmt::skip]
pub fn linked_read(image: &[u8], caller: usize, file: File, place: usize, buffer: &mut [u8]) -> usize {
    let File { name1, name2, extension, uic } = file;
    unsafe {
        abz_linked_read(image.as_ptr(), image.len(), caller, name1, name2, extension, uic, place, buffer.as_mut_ptr(), buffer.len())
    }
}

#[rustfmt::skip]
pub fn linked_add(image: &mut [u8], caller: usize, file: File, payload: &[u8]) -> Answer {
    let File { name1, name2, extension, uic } = file;
    unsafe {
        abz_linked_add(image.as_mut_ptr(), image.len(), caller, name1, name2, extension, uic, payload.as_ptr(), payload.len())
    }
}

#[rustfmt::skip]
pub fn line_read(image: &[u8], caller: usize, file: File, mode: usize, position: usize, buffer: &mut [u8]) -> crate::answers::ReadAnswer {
    let File { name1, name2, extension, uic } = file;
    unsafe {
        abz_line_read(image.as_ptr(), image.len(), caller, name1, name2, extension, uic, mode, position, buffer.as_mut_ptr(), buffer.len())
    }
}

#[rustfmt::skip]
pub fn line_write(image: &mut [u8], caller: usize, file: File, mode: usize, text: &[u8], gather: &mut [u8], filled: usize) -> crate::answers::WriteAnswer {
    let File { name1, name2, extension, uic } = file;
    unsafe {
        abz_line_write(image.as_mut_ptr(), image.len(), caller, name1, name2, extension, uic, mode, text.as_ptr(), text.len(), gather.as_mut_ptr(), gather.len(), filled)
    }
}

#[rustfmt::skip]
pub fn line_end(image: &mut [u8], caller: usize, file: File, gather: &mut [u8], filled: usize) -> usize {
    let File { name1, name2, extension, uic } = file;
    unsafe {
        abz_line_end(image.as_mut_ptr(), image.len(), caller, name1, name2, extension, uic, gather.as_mut_ptr(), gather.len(), filled)
    }
}

#[rustfmt::skip]
#[allow(clippy::too_many_arguments)]
pub fn binary_read(image: &[u8], caller: usize, file: File, mode: usize, position: usize, to_come: usize, sum: usize, buffer: &mut [u8]) -> crate::answers::BinaryAnswer {
    let File { name1, name2, extension, uic } = file;
    unsafe {
        abz_binary_read(image.as_ptr(), image.len(), caller, name1, name2, extension, uic, mode, position, to_come, sum, buffer.as_mut_ptr(), buffer.len())
    }
}

#[rustfmt::skip]
pub fn binary_write(image: &mut [u8], caller: usize, file: File, data: &[u8], gather: &mut [u8], filled: usize) -> crate::answers::WriteAnswer {
    let File { name1, name2, extension, uic } = file;
    unsafe {
        abz_binary_write(image.as_mut_ptr(), image.len(), caller, name1, name2, extension, uic, data.as_ptr(), data.len(), gather.as_mut_ptr(), gather.len(), filled)
    }
}

pub fn radpk(chars: &[u8]) -> Answer {
    unsafe { abz_radpk(chars.as_ptr(), chars.len()) }
}

pub fn radup(word: usize, chars: &mut [u8]) -> usize {
    unsafe { abz_radup(word, chars.as_mut_ptr(), chars.len()) }
}

pub fn d2bin(chars: &[u8]) -> Answer {
    unsafe { abz_d2bin(chars.as_ptr(), chars.len()) }
}

pub fn bin2d(number: usize, chars: &mut [u8]) -> usize {
    unsafe { abz_bin2d(number, chars.as_mut_ptr(), chars.len()) }
}

pub fn o2bin(chars: &[u8]) -> Answer {
    unsafe { abz_o2bin(chars.as_ptr(), chars.len()) }
}

pub fn bin2o(number: usize, chars: &mut [u8]) -> usize {
    unsafe { abz_bin2o(number, chars.as_mut_ptr(), chars.len()) }
}

pub fn csi1(line: &[u8], condensed: &mut [u8]) -> Answer {
    unsafe { abz_csi1(line.as_ptr(), line.len(), condensed.as_mut_ptr(), condensed.len()) }
}

pub fn csi2(line: &[u8], side: usize, k: usize, switches: &mut [u8]) -> crate::answers::SpecificationAnswer {
    unsafe { abz_csi2(line.as_ptr(), line.len(), side, k, switches.as_mut_ptr(), switches.len()) }
}

pub fn csi_write(outputs: usize, inputs: usize, records: &[u8], line: &mut [u8]) -> Answer {
    unsafe { abz_csi_write(outputs, inputs, records.as_ptr(), records.len(), line.as_mut_ptr(), line.len()) }
}
