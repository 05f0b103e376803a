//! Finish (02, §12): what goes, what stays, and that it is the DELETs one after another.

use super::{file, OWNER, STRANGER};
use crate::pack::consistency::examine;
use crate::pack::entry::{Entry, READERS};
use crate::pack::form::{Form, ALL};
use crate::refusal::Refusal;
use crate::requests::{self, File};
use crate::words::set_word;

/// One of the owner's group.
const FELLOW: usize = OWNER + 1;

/// A pack of 32 blocks for all three, with one file of each sort.
fn pack(form: Form) -> Vec<u8> {
    let mut image = super::pack(form, 32, &[OWNER, FELLOW, STRANGER]);
    let mut make = |caller: usize, name: &str, protect: usize| {
        requests::alloc(&mut image, caller, file(name, ""), protect, form.segments).expect("there is room");
    };
    make(OWNER, "A", 0);
    make(OWNER, "KEPT", 0o200);
    make(OWNER, "BIT6", 0o100);
    make(OWNER, "READ", 0);
    make(STRANGER, "A", 0);
    make(FELLOW, "A", 0o77);
    make(OWNER, "B", 0o77);
    requests::openi(&mut image, OWNER, file("READ", "")).expect("it is there");
    requests::openo(&mut image, OWNER, file("WRITE", ""), 0).expect("there is an entry");
    requests::openo(&mut image, OWNER, file("EMPTY", ""), 0).expect("there is an entry");
    requests::close(&mut image, OWNER, file("EMPTY", ""), 2).expect("it is open");
    image
}

fn there(image: &[u8], owner: usize, name: &str) -> bool {
    requests::look(image, owner, file(name, "")).is_ok()
}

#[test]
fn scratch_files_go_and_no_others() {
    for &form in ALL {
        let mut image = pack(form);
        assert_eq!(requests::finish(&mut image, OWNER), Ok(3));
        for gone in ["A", "B", "EMPTY"] {
            assert!(!there(&image, OWNER, gone), "{gone}");
        }
        for left in ["KEPT", "BIT6", "READ", "WRITE"] {
            assert!(there(&image, OWNER, left), "{left}");
        }
        assert!(there(&image, STRANGER, "A") && there(&image, FELLOW, "A"));
        assert!(examine(&image).is_ok());
    }
}

#[test]
fn a_second_finish_does_nothing() {
    for &form in ALL {
        let mut image = pack(form);
        requests::finish(&mut image, OWNER).expect("the pack is consistent");
        let before = image.clone();
        assert_eq!(requests::finish(&mut image, OWNER), Ok(0));
        assert_eq!(image, before);
        set_word(form.entry_mut(&mut image, 3), READERS, 0);
        assert_eq!(requests::finish(&mut image, OWNER), Ok(1));
    }
}

#[test]
fn nobody_has_no_files() {
    for &form in ALL {
        for caller in [0, 1, OWNER + 65536, usize::MAX] {
            let mut image = pack(form);
            let before = image.clone();
            assert_eq!(requests::finish(&mut image, caller), Ok(0));
            assert_eq!(image, before);
        }
    }
}

#[test]
fn the_image_is_the_one_the_deletes_leave() {
    for &form in ALL {
        for caller in [OWNER, FELLOW, STRANGER] {
            let (mut finished, mut deleted) = (pack(form), pack(form));
            let mut number = 0;
            for index in 0..16 {
                let it = Entry::read(form.entry(&deleted, index));
                let name = [it.name1, it.name2, it.extension].map(usize::from);
                let file = File { name1: name[0], name2: name[1], extension: name[2], uic: caller };
                let spared = it.uic as usize != caller || it.protect & 0o200 != 0 || it.is_open();
                number += usize::from(!spared && requests::delet(&mut deleted, caller, file).is_ok());
            }
            assert_eq!(requests::finish(&mut finished, caller), Ok(number));
            assert_eq!(finished, deleted);
        }
    }
}

#[test]
fn an_inconsistent_pack_is_refused() {
    for &form in ALL {
        let mut image = pack(form);
        image[0] = 0;
        let before = image.clone();
        assert_eq!(requests::finish(&mut image, OWNER), Err(Refusal::Inconsistent));
        assert_eq!(image, before);
    }
}
