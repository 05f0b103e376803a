//! Times the library and the model beside each other: `benchmark`, or one row in one way, `benchmark ROW WAY TIMES [FORM]`.
//!
//! The second form does nothing but the calls of its row, so that a tool outside can count their instructions.

use model::answers::{code, Answer, LookAnswer};
use model::boundary;
use model::conversions;
use model::pack::entry::{self, Entry, LINKED};
use model::pack::form::{Form, ALL};
use model::pack::map;
use model::requests::{self, File};
use model::words::set_word;
use std::hint::black_box;
use std::process::ExitCode;
use std::time::{Duration, Instant};

#[derive(Clone, Copy)]
enum Way {
    Library,
    Model,
}

/// How one row is run so many times in one way; what it needs is made before the time begins.
#[derive(Clone, Copy)]
enum Run {
    /// On a pack of a form.
    Pack(fn(Form, Way, usize) -> Duration),
    Other(fn(Way, usize) -> Duration),
}

impl Run {
    fn time(self, form: Form, way: Way, times: usize) -> Duration {
        match self {
            Run::Pack(run) => run(form, way, times),
            Run::Other(run) => run(way, times),
        }
    }

    /// The forms in which it differs, and what is shown of each.
    fn forms(self) -> Vec<(Form, String)> {
        match self {
            Run::Pack(_) => ALL.iter().map(|&form| (form, form.word.to_string())).collect(),
            Run::Other(_) => vec![(Form::ONE, String::new())],
        }
    }
}

const ROWS: &[(&str, Run)] = &[
    ("look-smallest", Run::Pack(look_smallest)),
    ("look-fullest", Run::Pack(look_fullest)),
    ("report-fullest", Run::Pack(report_fullest)),
    ("report-shared", Run::Pack(report_shared)),
    ("alloc-delet-smallest", Run::Pack(alloc_delet_smallest)),
    ("alloc-delet-largest", Run::Pack(alloc_delet_largest)),
    ("alloc-delet-500", Run::Pack(alloc_delet_500)),
    ("linked-add-until-full", Run::Pack(linked_add_until_full)),
    ("linked-read-last", Run::Pack(linked_read_last)),
    ("finish-100", Run::Pack(finish_100)),
    ("line-read-start", Run::Pack(line_read_start)),
    ("line-read-end", Run::Pack(line_read_end)),
    ("line-write-60", Run::Pack(line_write_60)),
    ("line-write-5100", Run::Pack(line_write_5100)),
    ("binary-read-128", Run::Pack(binary_read_128)),
    ("binary-write-128", Run::Pack(binary_write_128)),
    ("csi1", Run::Other(csi1)),
    ("csi2", Run::Other(csi2)),
    ("csi-write", Run::Other(csi_write)),
    ("radpk", Run::Other(radpk)),
    ("radup", Run::Other(radup)),
    ("d2bin", Run::Other(d2bin)),
    ("bin2d", Run::Other(bin2d)),
    ("o2bin", Run::Other(o2bin)),
    ("bin2o", Run::Other(bin2o)),
];

/// For how long a row is to run in one way, and how often; the shortest time is taken.
const ROUND: Duration = Duration::from_millis(30);
const ROUNDS: usize = 5;

const OWNER: usize = 0o23 * 256 + 0o10;

fn main() -> ExitCode {
    let arguments: Vec<String> = std::env::args().skip(1).collect();
    let arguments: Vec<&str> = arguments.iter().map(String::as_str).collect();
    let time = match arguments[..] {
        [] => {
            print_all();
            return ExitCode::SUCCESS;
        }
        [row, way, times] => one(row, way, times, "1"),
        [row, way, times, form] => one(row, way, times, form),
        _ => None,
    };
    let Some(time) = time else {
        let names: Vec<&str> = ROWS.iter().map(|&(name, _)| name).collect();
        eprintln!("usage: benchmark [ROW library|model TIMES [FORM]]\nrows: {}", names.join(" "));
        return ExitCode::FAILURE;
    };
    println!("{} ns", time.as_nanos());
    ExitCode::SUCCESS
}

/// The time of one row, if the arguments are such.
fn one(row: &str, way: &str, times: &str, form: &str) -> Option<Duration> {
    let &(_, run) = ROWS.iter().find(|(name, _)| *name == row)?;
    let way = match way {
        "library" => Way::Library,
        "model" => Way::Model,
        _ => return None,
    };
    Some(run.time(Form::of_word(form.parse().ok()?)?, way, times.parse().ok()?))
}

fn print_all() {
    println!("{:22} {:>4} {:>12} {:>12} {:>8}", "ns per call", "form", "library", "model", "ratio");
    for &(name, run) in ROWS {
        for (form, shown) in run.forms() {
            let times = enough(run, form);
            let mut shortest = [f64::INFINITY; 2];
            for _ in 0..ROUNDS {
                for (shortest, way) in shortest.iter_mut().zip([Way::Library, Way::Model]) {
                    *shortest = shortest.min(run.time(form, way, times).as_nanos() as f64 / times as f64);
                }
            }
            let [library, model] = shortest;
            println!("{name:22} {shown:>4} {library:12.1} {model:12.1} {:8.2}", library / model);
        }
    }
}

/// How many calls of the slower way fill a round.
fn enough(run: Run, form: Form) -> usize {
    let mut times = 16;
    while run.time(form, Way::Library, times).max(run.time(form, Way::Model, times)) < ROUND {
        times *= 2;
    }
    times
}

/// The time of so many turns of one expression or the other.
macro_rules! timed {
    ($way:expr, $times:expr, $library:expr, $model:expr) => {{
        let start = Instant::now();
        match $way {
            Way::Library => {
                for _ in 0..$times {
                    let _ = black_box($library);
                }
            }
            Way::Model => {
                for _ in 0..$times {
                    let _ = black_box($model);
                }
            }
        }
        start.elapsed()
    }};
}

/// A file of the owner's. The names of the first 512 are in no order, so that none is found sorted.
fn file(number: usize) -> File {
    let name = format!("F{:05}", 7919 * number % 99991);
    let word = |at: usize| conversions::radpk(&name.as_bytes()[at..at + 3]).expect("they are of the set");
    File { name1: word(0), name2: word(3), extension: 0, uic: 0 }
}

fn formatted(form: Form, blocks: usize, contents: usize) -> Vec<u8> {
    let mut image = vec![0; form.block_bytes() * blocks];
    requests::format(&mut image, form.word as usize, blocks, contents, &(OWNER as u16).to_le_bytes())
        .expect("the measures are good");
    image
}

/// The segments of a file of three blocks, of which the last has one.
fn three_blocks(form: Form) -> usize {
    2 * form.segments + 1
}

/// The smallest pack, with one file.
fn smallest(form: Form) -> Vec<u8> {
    let mut image = formatted(form, form.least_blocks, 1);
    requests::alloc(&mut image, OWNER, file(0), 0, three_blocks(form)).expect("there is room");
    image
}

/// The bodies and the files of the fullest pack, and the length of each file but the last, which has all the rest.
fn bodies(form: Form) -> usize {
    form.most_blocks - form.first_body(form.most_contents)
}

fn most_entries(form: Form) -> usize {
    form.most_contents * form.entries_per_block()
}

const SHORT: usize = 4;

fn long_length(form: Form) -> usize {
    bodies(form) - SHORT * (most_entries(form) - 1)
}

/// Every body once, none beside the one before.
fn scattered(form: Form) -> impl Iterator<Item = usize> {
    fn divisor(one: usize, two: usize) -> usize {
        if two == 0 {
            one
        } else {
            divisor(two, one % two)
        }
    }
    let bodies = bodies(form);
    let step = (386..).find(|&step| divisor(step, bodies) == 1).expect("there are primes");
    (0..bodies).map(move |index| form.first_body(form.most_contents) + step * index % bodies)
}

/// The largest pack, with the most files, all linked, and no free block; no block of a chain is beside the one before.
fn fullest(form: Form) -> Vec<u8> {
    let mut image = formatted(form, form.most_blocks, form.most_contents);
    let mut blocks = scattered(form);
    for number in 0..most_entries(form) {
        let length = if number + 1 < most_entries(form) { SHORT } else { long_length(form) };
        let chain: Vec<usize> = blocks.by_ref().take(length).collect();
        for pair in chain.windows(2) {
            set_word(form.block_mut(&mut image, pair[0]), 0, pair[1] as u16);
        }
        let name = file(number);
        Entry {
            name1: name.name1 as u16,
            name2: name.name2 as u16,
            extension: 0,
            uic: OWNER as u16,
            protect: 0,
            kind: LINKED,
            first: chain[0] as u16,
            length: length as u16,
            last: chain[length - 1] as u16,
            writer: 0,
            readers: 1,
        }
        .write(form.entry_mut(&mut image, number));
    }
    map::renew(&mut image);
    requests::look(&image, OWNER, file(0)).expect("the pack is consistent");
    image
}

fn look(way: Way, times: usize, image: &[u8], file: File) -> Duration {
    timed!(
        way,
        times,
        boundary::look(black_box(image), OWNER, black_box(file)),
        LookAnswer::from(requests::look(black_box(image), OWNER, black_box(file)))
    )
}

fn look_smallest(form: Form, way: Way, times: usize) -> Duration {
    look(way, times, &smallest(form), file(0))
}

fn look_fullest(form: Form, way: Way, times: usize) -> Duration {
    look(way, times, &fullest(form), file(most_entries(form) - 1))
}

fn report(way: Way, times: usize, image: &[u8]) -> Duration {
    timed!(way, times, boundary::report(black_box(image)), model::report::report(black_box(image)))
}

/// Beside `look-fullest`: a consistent pack is told by its check.
fn report_fullest(form: Form, way: Way, times: usize) -> Duration {
    report(way, times, &fullest(form))
}

/// The last entry reaches a block of the first: all is looked at before it is told.
fn report_shared(form: Form, way: Way, times: usize) -> Duration {
    let mut image = fullest(form);
    let last_entry = most_entries(form) - 1;
    let mut one = Entry::read(form.entry(&image, 0));
    let mut last = Entry::read(form.entry(&image, last_entry));
    let first = one.first;
    set_word(form.block_mut(&mut image, last.last as usize), 0, first);
    set_word(form.block_mut(&mut image, first as usize), 0, 0);
    (one.length, one.last, last.length, last.last) = (1, first, last.length + 1, first);
    one.write(form.entry_mut(&mut image, 0));
    last.write(form.entry_mut(&mut image, last_entry));
    assert_eq!(model::report::report(&image).rule, 9);
    report(way, times, &image)
}

/// A turn is an ALLOC of so many segments and a DELET of what it made.
fn alloc_delet(way: Way, times: usize, image: &mut [u8], segments: usize) -> Duration {
    let file = file(1000);
    timed!(
        way,
        times,
        {
            let answer = boundary::alloc(black_box(image), OWNER, black_box(file), 0, black_box(segments));
            (answer, boundary::delet(black_box(image), OWNER, black_box(file)))
        },
        {
            let answer =
                Answer::from(requests::alloc(black_box(image), OWNER, black_box(file), 0, black_box(segments)));
            (answer, code(requests::delet(black_box(image), OWNER, black_box(file))))
        }
    )
}

fn alloc_delet_smallest(form: Form, way: Way, times: usize) -> Duration {
    alloc_delet(way, times, &mut smallest(form), three_blocks(form))
}

/// All entries but one are of contiguous files, which leave half of the blocks free.
fn alloc_delet_largest(form: Form, way: Way, times: usize) -> Duration {
    let mut image = formatted(form, form.most_blocks, form.most_contents);
    for number in 0..most_entries(form) - 1 {
        requests::alloc(&mut image, OWNER, file(number), 0, 4 * form.segments).expect("there is room");
    }
    alloc_delet(way, times, &mut image, three_blocks(form))
}

/// A run of 500 blocks on a pack that has no other file: nearly all of the time is that of clearing its bytes.
fn alloc_delet_500(form: Form, way: Way, times: usize) -> Duration {
    alloc_delet(way, times, &mut formatted(form, form.most_blocks, 1), 500 * form.segments)
}

/// Makes the only file of a pack with a block of contents, which is linked, empty again.
fn empty(form: Form, image: &mut [u8]) {
    for word in [entry::FIRST, entry::LENGTH, entry::LAST] {
        set_word(form.entry_mut(image, 0), word, 0);
    }
    // The map of a pack without files.
    if let Some(number) = form.map_block(1) {
        form.block_mut(image, number).fill(0);
        set_word(form.block_mut(image, number), 0, (1 << form.first_body(1)) - 1);
    }
}

/// Adds to the only file of the largest pack; when no block is free any more the file is made empty again.
fn linked_add_until_full(form: Form, way: Way, times: usize) -> Duration {
    let mut image = formatted(form, form.most_blocks, 1);
    let file = file(0);
    requests::openo(&mut image, OWNER, file, 0).expect("there is an entry");
    let payload = vec![0o125; form.payload_bytes()];
    timed!(
        way,
        times,
        {
            let answer = boundary::linked_add(black_box(&mut image), OWNER, black_box(file), black_box(&payload));
            if answer.code != 0 {
                empty(form, &mut image);
            }
            answer
        },
        {
            let result = requests::linked_add(black_box(&mut image), OWNER, black_box(file), black_box(&payload));
            let answer = Answer::from(result);
            if answer.code != 0 {
                empty(form, &mut image);
            }
            answer
        }
    )
}

fn linked_read_last(form: Form, way: Way, times: usize) -> Duration {
    let image = fullest(form);
    let (file, place) = (file(most_entries(form) - 1), long_length(form) - 1);
    let mut buffer = vec![0; form.payload_bytes()];
    timed!(
        way,
        times,
        boundary::linked_read(black_box(&image), OWNER, black_box(file), black_box(place), black_box(&mut buffer)),
        {
            let buffer = black_box(&mut buffer);
            code(requests::linked_read(black_box(&image), OWNER, black_box(file), black_box(place), buffer))
        }
    )
}

/// Of 128 files 100 are deleted and 28 are kept. Each turn begins with the contents as they were, which are copied.
fn finish_100(form: Form, way: Way, times: usize) -> Duration {
    let mut image = formatted(form, form.most_blocks, 128 / form.entries_per_block());
    for number in 0..128 {
        let protect = if number % 32 < 25 { 0 } else { 0o200 };
        requests::alloc(&mut image, OWNER, file(number), protect, 4 * form.segments).expect("there is room");
    }
    let contents = image[..form.block_bytes() * form.first_body(128 / form.entries_per_block())].to_vec();
    assert_eq!(requests::finish(&mut image.clone(), OWNER), Ok(100));
    timed!(
        way,
        times,
        {
            image[..contents.len()].copy_from_slice(&contents);
            boundary::finish(black_box(&mut image), black_box(OWNER))
        },
        {
            image[..contents.len()].copy_from_slice(&contents);
            Answer::from(requests::finish(black_box(&mut image), black_box(OWNER)))
        }
    )
}

/// A line of 60 characters, its terminator included.
const TEXT: &[u8; 60] = b"STATION 23  1971-02-14 06:00 TEMPERATURE 012.5  WIND 340/07\n";

/// Reads a line of 60 characters at a position of a file of 200 blocks, which is full of such lines.
fn line_read(form: Form, way: Way, times: usize, position: usize) -> Duration {
    let mut image = formatted(form, form.first_body(1) + TEXT_BLOCKS, 1);
    let file = file(0);
    requests::openo(&mut image, OWNER, file, 0).expect("there is an entry");
    let bytes = TEXT_BLOCKS * form.payload_bytes();
    for payload in TEXT.repeat(bytes / TEXT.len()).chunks(form.payload_bytes()) {
        requests::linked_add(&mut image, OWNER, file, payload).expect("there is room");
    }
    set_word(form.entry_mut(&mut image, 0), entry::READERS, 1);
    let mut buffer = [0; 132];
    timed!(
        way,
        times,
        {
            let (file, mode, position) = black_box((file, 0, position));
            boundary::line_read(black_box(&image), OWNER, file, mode, position, black_box(&mut buffer))
        },
        {
            let (file, mode, position) = black_box((file, 0, position));
            let result = requests::line_read(black_box(&image), OWNER, file, mode, position, black_box(&mut buffer));
            model::answers::ReadAnswer::from(result)
        }
    )
}

const TEXT_BLOCKS: usize = 200;

fn line_read_start(form: Form, way: Way, times: usize) -> Duration {
    line_read(form, way, times, 0)
}

fn line_read_end(form: Form, way: Way, times: usize) -> Duration {
    line_read(form, way, times, TEXT_BLOCKS * form.payload_bytes() - TEXT.len())
}

/// Writes text to the only file of the smallest pack that has room for it, which is empty each time.
fn line_write(form: Form, way: Way, times: usize, text: &[u8]) -> Duration {
    let needed = form.first_body(1) + text.len() / form.payload_bytes();
    let mut image = formatted(form, form.least_blocks.max(needed), 1);
    let file = file(0);
    requests::openo(&mut image, OWNER, file, 0).expect("there is an entry");
    let mut gather = vec![0; form.payload_bytes()];
    timed!(
        way,
        times,
        {
            empty(form, &mut image);
            let (image, gather) = black_box((&mut image, &mut gather));
            let (file, mode, text, filled) = black_box((file, 0, text, 0));
            boundary::line_write(image, OWNER, file, mode, text, gather, filled)
        },
        {
            empty(form, &mut image);
            let (image, gather) = black_box((&mut image, &mut gather));
            let (file, mode, text, filled) = black_box((file, 0, text, 0));
            let result = requests::line_write(image, OWNER, file, mode, text, gather, filled);
            model::answers::WriteAnswer::from(result)
        }
    )
}

/// The gather buffer is not full after it.
fn line_write_60(form: Form, way: Way, times: usize) -> Duration {
    line_write(form, way, times, TEXT)
}

/// Ten blocks of forms 1 and 2, and 40 of form 3.
fn line_write_5100(form: Form, way: Way, times: usize) -> Duration {
    line_write(form, way, times, &TEXT.repeat(85))
}

/// Data as an assembler puts them out.
fn data() -> Vec<u8> {
    (0..128u8).map(|place| place.wrapping_mul(37)).collect()
}

/// Reads the line of 128 data bytes at the start of the only file of the smallest pack.
fn binary_read_128(form: Form, way: Way, times: usize) -> Duration {
    let mut image = formatted(form, form.least_blocks, 1);
    let file = file(0);
    requests::openo(&mut image, OWNER, file, 0).expect("there is an entry");
    let mut gather = vec![0; form.payload_bytes()];
    let written = requests::binary_write(&mut image, OWNER, file, &data(), &mut gather, 0).expect("there is room");
    requests::line_end(&mut image, OWNER, file, &mut gather, written.filled).expect("there is room");
    set_word(form.entry_mut(&mut image, 0), entry::READERS, 1);
    let mut buffer = [0; 132];
    timed!(
        way,
        times,
        {
            let (file, mode, position) = black_box((file, 0, 0));
            boundary::binary_read(black_box(&image), OWNER, file, mode, position, 0, 0, black_box(&mut buffer))
        },
        {
            let (file, mode, position) = black_box((file, 0, 0));
            let buffer = black_box(&mut buffer);
            let result = requests::binary_read(black_box(&image), OWNER, file, mode, position, 0, 0, buffer);
            model::answers::BinaryAnswer::from(result)
        }
    )
}

/// Writes a line of 128 data bytes to the only file of the smallest pack, which is empty each time.
fn binary_write_128(form: Form, way: Way, times: usize) -> Duration {
    let mut image = formatted(form, form.least_blocks, 1);
    let file = file(0);
    requests::openo(&mut image, OWNER, file, 0).expect("there is an entry");
    let (data, mut gather) = (data(), vec![0; form.payload_bytes()]);
    timed!(
        way,
        times,
        {
            empty(form, &mut image);
            let (image, gather) = black_box((&mut image, &mut gather));
            boundary::binary_write(image, OWNER, black_box(file), black_box(&data), gather, black_box(0))
        },
        {
            empty(form, &mut image);
            let (image, gather) = black_box((&mut image, &mut gather));
            let result = requests::binary_write(image, OWNER, black_box(file), black_box(&data), gather, black_box(0));
            model::answers::WriteAnswer::from(result)
        }
    )
}

/// A command of 120 characters with every part in it.
const LINE: &[u8; 120] = b"DT1:FREQ.DAT[23,10]/S:A1:B2,DK0:STATN1.OBJ/LONG12,PR:<DF:SOURCE.MAC[200,177]/A/B:1:2:3,\
DT2:SECOND.SRC,LAST99.B/X:YES:NO9";

fn csi1(way: Way, times: usize) -> Duration {
    let mut buffer = [0; 128];
    timed!(
        way,
        times,
        boundary::csi1(black_box(LINE), black_box(&mut buffer)),
        Answer::from(model::command::csi1(black_box(LINE), black_box(&mut buffer)))
    )
}

/// Asks for the last specification of the input side.
fn csi2(way: Way, times: usize) -> Duration {
    let mut switches = [0; 384];
    timed!(
        way,
        times,
        boundary::csi2(black_box(LINE), black_box(1), black_box(2), black_box(&mut switches)),
        model::answers::SpecificationAnswer::from(model::command::csi2(
            black_box(LINE),
            black_box(1),
            black_box(2),
            black_box(&mut switches)
        ))
    )
}

/// Writes a line of 100 characters with every part in it.
fn csi_write(way: Way, times: usize) -> Duration {
    const SHOWN: &[u8; 100] =
        b"DT1:FREQ.DAT[23,10]/S:A1:B2,DK:STATN1.OBJ/LONG12,PR:<DF:SOURCE.MAC[200,177]/A/B:1:2:3,DT2:SECOND.SRC";
    let mut records = Vec::new();
    let mut counts = [0; 2];
    let mut switches = [0; 384];
    for side in 0..2 {
        while let Ok(read) = model::command::csi2(SHOWN, side, counts[side], &mut switches) {
            let bytes = read.switches.bytes();
            let it = model::answers::SpecificationAnswer::from(Ok(read));
            let numbers =
                [it.present, it.device, it.unit, it.name1, it.name2, it.extension, it.group, it.user, it.switches];
            records.extend(numbers.iter().flat_map(|&number| (number as u16).to_le_bytes()));
            records.extend(&switches[..bytes]);
            counts[side] += 1;
        }
    }
    let mut buffer = [0; 128];
    assert_eq!(boundary::csi_write(counts[0], counts[1], &records, &mut buffer).number, SHOWN.len());
    timed!(
        way,
        times,
        {
            let [outputs, inputs] = black_box(counts);
            boundary::csi_write(outputs, inputs, black_box(&records), black_box(&mut buffer))
        },
        {
            let [outputs, inputs] = black_box(counts);
            Answer::from(model::command::csi_write(outputs, inputs, black_box(&records), black_box(&mut buffer)))
        }
    )
}

fn radpk(way: Way, times: usize) -> Duration {
    timed!(way, times, boundary::radpk(black_box(b"DS1")), Answer::from(conversions::radpk(black_box(b"DS1"))))
}

fn radup(way: Way, times: usize) -> Duration {
    let mut buffer = [0; 3];
    timed!(
        way,
        times,
        boundary::radup(black_box(7191), black_box(&mut buffer)),
        code(conversions::radup(black_box(7191), black_box(&mut buffer)))
    )
}

fn d2bin(way: Way, times: usize) -> Duration {
    timed!(way, times, boundary::d2bin(black_box(b"65535")), Answer::from(conversions::d2bin(black_box(b"65535"))))
}

fn bin2d(way: Way, times: usize) -> Duration {
    let mut buffer = [0; 5];
    timed!(
        way,
        times,
        boundary::bin2d(black_box(65535), black_box(&mut buffer)),
        code(conversions::bin2d(black_box(65535), black_box(&mut buffer)))
    )
}

fn o2bin(way: Way, times: usize) -> Duration {
    timed!(way, times, boundary::o2bin(black_box(b"177777")), Answer::from(conversions::o2bin(black_box(b"177777"))))
}

fn bin2o(way: Way, times: usize) -> Duration {
    let mut buffer = [0; 6];
    timed!(
        way,
        times,
        boundary::bin2o(black_box(65535), black_box(&mut buffer)),
        code(conversions::bin2o(black_box(65535), black_box(&mut buffer)))
    )
}
