//! Runs the library and the model beside each other on random calls: `differential CALLS [SEED]`.
//!
//! After each call every number of the answer and every byte of what was lent are compared, also those before and
//! behind it. A sequence of requests goes on in one pack, which stays consistent; damaged packs are copies of it.

mod binaries;
mod call;
mod damage;
mod drawing;
mod files;
mod lent;
mod lines;
mod lists;
mod packs;
mod random;
mod reports;
mod request;
mod tally;
mod text;
mod transfers;
mod writing;
mod wrong;

use call::{Call, Numbers, Said};
use lent::Lent;
use lists::Lists;
use model::command::grammar;
use model::pack::consistency::examine;
use model::pack::form::Form;
use random::Random;
use reports::Reports;
use request::Request;
use std::process::ExitCode;
use std::time::Instant;
use tally::Tally;
use wrong::device_block;

/// The seed, if none is said: each run is the same then.
const SEED: u64 = 1971;

/// The two copies of what is lent to a call.
struct Pair {
    library: Lent,
    model: Lent,
}

impl Pair {
    fn new(content: &[u8]) -> Pair {
        Pair { library: Lent::new(content), model: Lent::new(content) }
    }

    fn set(&mut self, content: &[u8]) {
        self.library.set(content);
        self.model.set(content);
    }
}

/// How the run has gone so far.
#[derive(Default)]
struct Report {
    tally: Tally,
    bytes: usize,
    damaged: usize,
    damaged_consistent: usize,
    reports: Reports,
    lists: Lists,
}

fn main() -> ExitCode {
    let arguments: Vec<String> = std::env::args().skip(1).collect();
    let numbers: Option<Vec<u64>> = arguments.iter().map(|argument| argument.parse().ok()).collect();
    let (calls, seed) = match numbers.as_deref() {
        Some([calls]) => (*calls, SEED),
        Some([calls, seed]) => (*calls, *seed),
        _ => {
            eprintln!("usage: differential CALLS [SEED]");
            return ExitCode::FAILURE;
        }
    };
    println!("{calls} calls, seed {seed}");
    let start = Instant::now();
    let mut report = Report::default();
    if let Err((step, difference)) = run(calls, seed, &mut report) {
        println!("DIFFERENCE at step {step} of seed {seed}\n{difference}");
        return ExitCode::FAILURE;
    }
    report.tally.print();
    println!(
        "{} bytes compared; {} calls on damaged packs, of which {} were consistent still; {:.1} s",
        report.bytes,
        report.damaged,
        report.damaged_consistent,
        start.elapsed().as_secs_f64()
    );
    report.reports.print();
    report.lists.print();
    let missed = [report.tally.missed(), report.reports.missed(), report.lists.missed()].concat();
    for what in &missed {
        println!("NOT REACHED: {what}");
    }
    if report.bytes == 0 || !missed.is_empty() {
        return ExitCode::FAILURE;
    }
    println!("no difference in {calls} calls");
    ExitCode::SUCCESS
}

/// Makes so many calls; an error is the step and what differed.
fn run(calls: u64, seed: u64, report: &mut Report) -> Result<(), (u64, String)> {
    let mut random = Random::new(seed);
    let mut pack = Pair::new(&[]);
    let mut other = Pair::new(&[]);
    let mut left = 0;
    for step in 0..calls {
        if left == 0 {
            pack.set(&packs::consistent(&mut random));
            left = random.between(20, 200);
        }
        left -= 1;
        if random.chance(1, 24) {
            packs::edit(&mut random, pack.model.slice_mut());
            pack.library.slice_mut().copy_from_slice(pack.model.slice());
        }
        let formatted = one_call(&mut random, &mut pack, &mut other, report).map_err(|what| (step, what))?;
        if formatted && random.chance(1, 4) {
            std::mem::swap(&mut pack, &mut other);
            left = random.between(20, 200);
        }
    }
    Ok(())
}

/// Makes a call on the pack or on another image, and says if it made a new pack of that; an error is what differed.
fn one_call(random: &mut Random, pack: &mut Pair, other: &mut Pair, report: &mut Report) -> Result<bool, String> {
    let form = form_of(pack.model.slice());
    let request = drawing::request(random);
    let drawn = drawing::call(random, request, pack.model.slice());
    let image = match other_image(random, &drawn, pack.model.slice(), report)? {
        Some(content) => {
            other.set(&content);
            other
        }
        None => &mut *pack,
    };
    let answer = compare(&drawn, image, report)?;
    report.tally.count(drawn.form().unwrap_or(form), &drawn, &answer);
    if examine(pack.model.slice()).is_err() {
        return Err(format!("{drawn:?}the pack is not consistent any more"));
    }
    Ok(request == Request::Format && answer[0] == 0)
}

fn form_of(pack: &[u8]) -> Form {
    Form::of_image(pack).expect("the pack is consistent")
}

/// The image of a call that is not made on the pack itself: one to be formatted, none, or a damaged copy of the pack.
fn other_image(random: &mut Random, call: &Call, pack: &[u8], report: &mut Report) -> Result<Option<Vec<u8>>, String> {
    if let Numbers::Format { form, blocks, .. } = call.numbers {
        return Ok(Some(unformatted(random, form, blocks)));
    }
    if !call.request.is_on_pack() {
        return Ok(Some(Vec::new()));
    }
    if !random.chance(1, 8) {
        return Ok(None);
    }
    let mut image = pack.to_vec();
    damage::damage(random, &mut image);
    report.damaged += 1;
    report.damaged_consistent += examine(&image).is_ok() as usize;
    report.reports.compare(random, form_of(pack), &image)?;
    Ok(Some(image))
}

/// An image for a Format of so many blocks, sometimes of another size.
fn unformatted(random: &mut Random, form: usize, blocks: usize) -> Vec<u8> {
    let block = Form::of_word(form).unwrap_or(Form::ONE).block_bytes();
    // Of a number that is too large, the low bits are taken.
    let blocks = blocks % 65536;
    let length = match random.below(20) {
        0 => block * blocks + random.between(1, block),
        1 => (block * blocks).saturating_sub(random.between(1, block)),
        2 => device_block(random) * blocks,
        _ => block * blocks,
    };
    random.bytes(length)
}

/// Makes a call in both ways and compares; gives the answer, or what differed.
fn compare(call: &Call, image: &mut Pair, report: &mut Report) -> Result<Said, String> {
    let (line, mut buffer) = (Pair::new(&call.line), Pair::new(&call.buffer));
    let before = image.model.slice().to_vec();
    let library = call.library(image.library.slice_mut(), line.library.slice(), buffer.library.slice_mut());
    let model = call.model(image.model.slice_mut(), line.model.slice(), buffer.model.slice_mut());
    let mut differences = Vec::new();
    if library != model {
        differences.push(String::from("the answers differ"));
    }
    for (subject, pair) in [("image", &*image), ("line", &line), ("buffer", &buffer)] {
        report.bytes += pair.model.slice().len();
        if let Some(difference) = pair.library.difference(&pair.model) {
            differences.push(format!("{subject}, library and model: {difference}"));
        }
    }
    let kept = image.model.slice() == before && buffer.model.slice() == call.buffer;
    differences.extend(faults(call, &model, kept));
    if call.request == Request::Many && model[0] == 0 {
        let made = (image.library.slice(), buffer.library.slice());
        differences.extend(report.lists.compare(before, &call.line, made));
    }
    if differences.is_empty() {
        return Ok(model);
    }
    Err(format!("{call:?}library: {}\nmodel:   {}\n{}", said(&library), said(&model), differences.join("\n")))
}

/// What the model's answer to a call cannot be, whatever the library's is; `kept` says that it changed nothing that was lent.
fn faults(call: &Call, answer: &Said, kept: bool) -> Vec<String> {
    let request = call.request;
    let code = answer[0];
    let mut faults = Vec::new();
    // "any other number in the answer 0 (but for the place with 50), and nothing in the image or a lent buffer changes".
    let numbers = if code == 0o50 { &answer[2..] } else { &answer[1..] };
    if code != 0 && numbers.iter().any(|&number| number != 0) {
        faults.push(String::from("a refusal has another number than 0"));
    }
    if code != 0 && !kept {
        faults.push(String::from("a refusal changed what was lent"));
    }
    if !request.codes().contains(&code) {
        faults.push(format!("the model gives a code that {request:?} does not have"));
    }
    if call.status(answer).is_some_and(|(mode, status)| !request.statuses()[mode].contains(&status)) {
        faults.push(format!("the model gives a status that {request:?} does not have in this mode"));
    }
    // The model has the grammar twice, and is to be of one mind about it.
    let short = request == Request::Csi2 && call.line.len() <= 128;
    if short && grammar::command().accepts(&call.line) == (code == 0o50) {
        faults.push(String::from("the model's two writings of the grammar differ"));
    }
    if request == Request::CsiWrite && writing::is_said(call.numbers, &call.line) == (code == 0o41) {
        faults.push(String::from("the model's two ways to judge records differ"));
    }
    faults
}

/// An answer as it is printed: the code octal, the numbers decimal.
fn said(answer: &Said) -> String {
    format!("{:02o} {:?}", answer[0], &answer[1..])
}
