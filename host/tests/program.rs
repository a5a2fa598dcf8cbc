//! What the programs are to write for each of the inputs in `samples`, `repair` for a recording, `receive` for a stream
//! of frames and `wav` for a WAV file: from the models of the readers, of the writer and of the scan, whose new samples
//! are the original's and whose orders the host works out. The files beside the inputs are held to that, and
//! `samples/check` holds the programs to the files. With `CATHAR_WRITE=1` recordings and files are written anew; the
//! streams and the WAV files are taken as they are, and so are the lines that turn a WAV file away, of which the number
//! alone is held to the model.
use cathar_host::draw::{Draw, SEED};
use cathar_host::frames::{read_frames, Rooms, FRAME_BYTES};
use cathar_host::inpaint::{inpaint_auto, Scan, HELD_RUN, LOST_RUN};
use cathar_host::machine;
use cathar_host::recording::{Answer, Recording};
use cathar_host::settings::OfScan;
use cathar_host::shapes::Shape;
use cathar_host::sounds::Sound;
use cathar_host::wav::{self, Areas, Call};
use std::env;
use std::fs;
use std::path::PathBuf;

/// What document 01 says of the program: the most samples, the journal's words, which request P1 of document 02 made
/// more, rate and limit.
const MOST: usize = 4096;
const JOURNAL: usize = 12_800;
const RATE: u32 = 48_000;
const LIMIT: f32 = 1.0;

/// The most bytes of frames.
const MOST_BYTES: usize = 65_536;

/// What the program `wav` takes and has: the most samples, the bytes of the largest file, the journal's words and the
/// workspace's doubles. The limit is the same, and the rate is the file's.
const MOST_OF_WAV: usize = 262_144;
const WAV_BYTES: usize = 655_360;
const WAV_JOURNAL: usize = 800_996;
const WAV_WORKSPACE: usize = 54_660;

/// The files of the crates `wav` and `wavcheck` that are to be those of `samples`.
const COPIES: [(&str, &str); 4] = [
    ("crates/wav/data/pump.wav", "samples/pump.wav"),
    ("crates/wav/stdout", "samples/pump.wav.out"),
    ("crates/wavcheck/data/pump.wav", "samples/pump.wav"),
    ("crates/wavcheck/data/expected.wav", "samples/pump.out.wav"),
];

/// The dropouts of the pump: a run of 1 does not qualify, nor does one of 49, nor one at an end.
const PUMP: [(usize, usize); 8] = [(0, 2), (137, 5), (410, 2), (600, 1), (801, 48), (1100, 49), (1500, 17), (2046, 2)];

/// The words that a bus holds, each from a sample on for so many in all: from the first sample on; 15, which are sound; 16; a
/// gap of 48, the limit, and one of 49; one directly before a run of zeros, and one directly behind it; and one up to the
/// last sample.
const HELD: [(usize, usize); 8] =
    [(0, 17), (150, 15), (200, 16), (300, 49), (400, 50), (520, 20), (543, 24), (980, 20)];
const HELD_ZEROS: (usize, usize) = (540, 3);

/// How many samples each of the soft sounds has.
const SOFT: usize = 250;

fn bytes(samples: &[u32]) -> Vec<u8> {
    samples.iter().flat_map(|word| word.to_le_bytes()).collect()
}

/// The words of an input, unless it is turned away.
fn words(input: &[u8]) -> Option<Vec<u32>> {
    if input.len() % 4 != 0 || input.len() > 4 * MOST {
        return None;
    }
    Some(input.chunks(4).map(|four| u32::from_le_bytes([four[0], four[1], four[2], four[3]])).collect())
}

/// The output of `repair` for an input.
fn output(input: &[u8]) -> String {
    let samples = match words(input) {
        Some(samples) => samples,
        None => return String::from("bad input\n"),
    };
    let n = samples.len();
    format!("samples {n}\n") + &scanned(Recording::new(samples, vec![0; n], vec![0; JOURNAL], 0))
}

/// The output of `receive` for an input.
fn received(input: &[u8]) -> String {
    if input.len() > MOST_BYTES {
        return String::from("bad input\n");
    }
    let mut rooms = Rooms { samples: vec![0; MOST], marks: vec![0; MOST] };
    let read = read_frames(input, &mut rooms);
    if read.number != 0 {
        return format!("refused {}\n", read.number);
    }
    let (samples, marks) = (rooms.samples[..read.n].to_vec(), rooms.marks[..read.n].to_vec());
    let mut recording = Recording::new(samples, marks, vec![0; JOURNAL], 0);
    assert_eq!(recording.open_received(), Answer::Accepted(0));
    let [n, missing, dropped] = read.figures();
    let frames = input.len() / FRAME_BYTES;
    format!("frames {frames} samples {n} missing {missing} dropped {dropped}\n") + &scanned(recording)
}

/// What both print of a recording that is open: what a scan of it counts, and then each sample that is not measured.
/// Request P8 of document 02: "the program adds it as a fourth number on lines with mark 1".
fn scanned(mut recording: Recording) -> String {
    let mut orders = vec![0; recording.samples.len()];
    let scan = inpaint_auto(&mut recording, OfScan::new(RATE, LIMIT), &mut vec![0; 10_000], &mut orders);
    let mut text = counted(&scan);
    for (place, mark) in recording.marks.iter().enumerate().filter(|(_, mark)| **mark != 0) {
        let order = if *mark == 1 { format!(" {}", orders[place]) } else { String::new() };
        text += &format!("{place} {mark} {:08x}{order}\n", recording.samples[place]);
    }
    text + "end\n"
}

/// The line of what a scan counts.
fn counted(scan: &Scan) -> String {
    format!("qualified {} repaired {} refused {}\n", scan.qualified(), scan.repaired(), scan.number())
}

/// What `wav` is to leave of a file: the report, the file that it writes, and the marks that the report tells.
struct Repaired {
    report: String,
    file: Vec<u8>,
    marks: Vec<u8>,
}

/// What `wav` is to leave of a file, or how the line begins that turns it away. A rate that the scan does not allow
/// turns all of it away.
fn repaired(input: &[u8]) -> Result<Repaired, String> {
    if input.len() > WAV_BYTES {
        return Err(String::from("wav: too long: "));
    }
    let (samples, marks) = (vec![0; MOST_OF_WAV], vec![0; MOST_OF_WAV]);
    let mut read = Areas { file: input.to_vec(), samples, marks };
    let wav::Answer { value: n, rate, .. } = accepted(read.make(Call::Read))?;
    let (samples, marks) = (read.samples[..n].to_vec(), read.marks[..n].to_vec());
    let mut recording = Recording::new(samples, marks, vec![0; WAV_JOURNAL], 0);
    assert_eq!(recording.open(), Answer::Accepted(0));
    let mut orders = vec![0; n];
    let scan = inpaint_auto(&mut recording, OfScan::new(rate, LIMIT), &mut vec![0; WAV_WORKSPACE], &mut orders);
    if let Scan::Refused(number) = scan {
        return Err(refused(number));
    }
    let Recording { samples, marks, .. } = recording;
    let stretches = stretches(&marks, &orders);
    let report = format!("samples {n} rate {rate}\n{}{stretches}end\n", counted(&scan));
    let mut written = Areas { file: vec![0; WAV_BYTES], samples, marks: Vec::new() };
    let bytes = accepted(written.make(Call::Write { rate }))?.value;
    written.file.truncate(bytes);
    Ok(Repaired { report, file: written.file, marks })
}

/// The answer of the reader or the writer, or how the line begins that turns the file away by it.
fn accepted(answer: wav::Answer) -> Result<wav::Answer, String> {
    match answer.number {
        0 => Ok(answer),
        number => Err(refused(number)),
    }
}

fn refused(number: u32) -> String {
    format!("wav: refused {number}: ")
}

/// A line for each stretch of samples that were made: its first place, how many there are, their mark, and the order
/// where that is 1. docs/DECISIONS.md: "a run of samples with one mark and one order: two gaps that touch and have the
/// same of both are one stretch."
fn stretches(marks: &[u8], orders: &[u32]) -> String {
    let mut text = String::new();
    let mut start = 0;
    while start < marks.len() {
        let (mark, order) = (marks[start], orders[start]);
        let len = (start..marks.len()).take_while(|at| (marks[*at], orders[*at]) == (mark, order)).count();
        match mark {
            0 => (),
            1 => text += &format!("{start} {len} 1 {order}\n"),
            _ => text += &format!("{start} {len} {mark}\n"),
        }
        start += len;
    }
    text
}

fn with_dropouts(mut samples: Vec<u32>, dropouts: &[(usize, usize)], word: u32) -> Vec<u8> {
    for (start, len) in dropouts {
        samples[*start..start + len].fill(word);
    }
    bytes(&samples)
}

/// The tone of a pump over a bus that goes silent and holds its last word.
fn held(draw: &mut Draw) -> Vec<u8> {
    let mut samples = Shape::Tone.samples(draw, 1000);
    for (start, len) in HELD {
        let word = samples[start];
        samples[start..start + len].fill(word);
    }
    with_dropouts(samples, &[HELD_ZEROS], 0)
}

/// The longest input with the densest runs: 16 equal words and two zeros, again and again, and then a sample between each two
/// zeros. They take more of the journal than any other known.
fn dense(draw: &mut Draw) -> Vec<u8> {
    let mut words = Shape::Tone.samples(draw, MOST).into_iter();
    let mut next = || words.next().expect("there are enough words");
    let mut samples = Vec::new();
    while samples.len() + HELD_RUN + LOST_RUN < MOST {
        samples.extend([next(); HELD_RUN]);
        samples.extend([0; LOST_RUN]);
    }
    samples.push(next());
    while samples.len() < MOST {
        samples.extend([0; LOST_RUN]);
        samples.push(next());
    }
    bytes(&samples)
}

/// Sounds so soft that most of their models stop early: each with two dropouts, and so far from the next that no window
/// reaches it, with next to nothing between them.
fn soft_sounds(draw: &mut Draw) -> Vec<u8> {
    let mut samples = Vec::new();
    for (sound, energy) in [(Sound::Noise, 1.3e-12), (Sound::Turns, 2e-12), (Sound::TwoTones, 1e-9)] {
        let mut part = sound.samples(draw, SOFT, 0..SOFT, energy);
        part[40..42].fill(0);
        part[150..190].fill(0);
        samples.extend(part);
        samples.extend((0..1_100).map(|place| 0x0d80_0000 | (place % 2) << 31));
    }
    samples.truncate(3 * SOFT + 2 * 1_100);
    bytes(&samples)
}

/// The recordings: a pump's tone with dropouts; *quiet*; the longest input, with a run at every third place
/// but one; a NaN that one window holds and another does not; inputs of no sample, of 3 bytes and of one
/// sample too many; a bus that holds its word; the longest input with the densest runs; and soft sounds.
fn recordings() -> Vec<(&'static str, Vec<u8>)> {
    let mut draw = Draw::new(SEED);
    let often: Vec<(usize, usize)> = (0..1364).map(|k| (1 + 3 * k, 2)).collect();
    let mut with_nan = Shape::Noise.samples(&mut draw, 3000);
    with_nan[2999] = 0x7fc0_0000;
    let soft = 0x3080_0000;
    vec![
        ("pump", with_dropouts(Shape::Tone.samples(&mut draw, 2048), &PUMP, 0x8000_0000)),
        ("quiet", bytes(&[soft, soft, 0, 0, soft, soft])),
        ("often", with_dropouts(Shape::Steps.samples(&mut draw, MOST), &often, 0)),
        ("refused", with_dropouts(with_nan, &[(500, 3), (2900, 4)], 0)),
        ("empty", Vec::new()),
        ("odd", vec![0, 0, 0x80]),
        ("over", vec![0; 4 * MOST + 4]),
        ("held", held(&mut draw)),
        ("dense", dense(&mut draw)),
        ("soft", soft_sounds(&mut draw)),
    ]
}

fn file(name: &str, ending: &str) -> PathBuf {
    machine::file("samples").join(name).with_extension(ending)
}

/// The names of the files with this ending, without it, in their order.
fn named(ending: &str) -> Vec<String> {
    let files = fs::read_dir(machine::file("samples")).expect("the folder is there");
    let names = files.map(|file| file.expect("a file").file_name().into_string().expect("a name in letters"));
    let mut named: Vec<String> = names.filter_map(|name| name.strip_suffix(ending).map(String::from)).collect();
    named.sort_unstable();
    named
}

/// The file of this ending beside an input is to have these bytes.
fn hold(name: &str, ending: &str, expected: &[u8]) {
    if env::var_os("CATHAR_WRITE").is_some() {
        fs::write(file(name, ending), expected).expect("the output is written");
    }
    assert!(fs::read(file(name, ending)).expect("the output is there") == expected, "{name}.{ending}");
}

/// The file `.out` beside an input is to have this text.
fn hold_text(name: &str, text: &str) {
    hold(name, "out", text.as_bytes());
    println!("{name}: {}", text.lines().take(2).collect::<Vec<_>>().join(", "));
}

/// The report and the file beside a WAV file are to be these. Of samples that are not marked as made the README says:
/// "All other samples have in OUT just the value that they had in IN."
fn hold_repaired(name: &str, input: &[u8], left: &Repaired) {
    hold(name, "wav.out", left.report.as_bytes());
    hold(name, "out.wav", &left.file);
    let before = wav::sound(input).expect("it was read");
    let after = wav::sound(&fs::read(file(name, "out.wav")).expect("the output is there")).expect("it is read");
    assert_eq!([before.values.len(), after.values.len()], [left.marks.len(); 2], "samples of {name}.out.wav");
    assert_eq!(after.rate, before.rate, "the rate of {name}.out.wav");
    let measured: Vec<usize> = (0..left.marks.len()).filter(|place| left.marks[*place] == 0).collect();
    let changed = measured.iter().find(|place| after.values[**place] != before.values[**place]);
    assert_eq!(changed, None, "a sample of {name}.out.wav that is measured has another value");
    let counts = left.report.lines().take(2).collect::<Vec<_>>().join(", ");
    println!("{name}.wav: {counts}; {} measured, {} bytes written", measured.len(), left.file.len());
}

/// The one line beside a WAV file that is turned away is to begin like this, and to say why.
fn hold_away(name: &str, beginning: &str) {
    let text = fs::read_to_string(file(name, "wav.out")).expect("the line is there");
    let reason = text.strip_prefix(beginning).and_then(|rest| rest.strip_suffix('\n'));
    let is_said = reason.map_or(false, |reason| !reason.is_empty() && !reason.contains('\n'));
    assert!(is_said, "{name}.wav.out is to be one line that begins with {beginning:?}, and is {text:?}");
    print!("{name}.wav: {text}");
}

fn of_repository(name: &str) -> Vec<u8> {
    fs::read(machine::file(name)).unwrap_or_else(|error| panic!("{name}: {error}"))
}

#[test]
fn what_repair_is_to_write() {
    for (name, input) in recordings() {
        if env::var_os("CATHAR_WRITE").is_some() {
            fs::write(file(name, "f32"), &input).expect("the recording is written");
        }
        assert!(fs::read(file(name, "f32")).expect("the recording is there") == input, "{name}.f32");
        hold_text(name, &output(&input));
    }
}

#[test]
fn what_receive_is_to_write() {
    let streams = named(".frames");
    assert!(!streams.is_empty(), "samples has no stream of frames");
    for name in &streams {
        hold_text(name, &received(&fs::read(file(name, "frames")).expect("the stream is there")));
    }
}

#[test]
fn what_wav_is_to_write() {
    let mut names = named(".wav");
    names.retain(|name| !name.ends_with(".out"));
    let mut written = Vec::new();
    for name in &names {
        let input = fs::read(file(name, "wav")).expect("the WAV file is there");
        match repaired(&input) {
            Ok(left) => {
                hold_repaired(name, &input, &left);
                written.push(name.as_str());
            }
            Err(beginning) => hold_away(name, &beginning),
        }
    }
    assert!(!written.is_empty(), "samples has no WAV file that is repaired");
    assert_eq!(named(".out.wav"), written, "a file beside each that is repaired, and beside no other");
    assert_eq!(named(".wav.out"), names, "a report or a line beside each, and no other");
}

#[test]
fn the_crates_have_the_wav_files_of_samples() {
    for (copy, name) in COPIES {
        assert!(of_repository(copy) == of_repository(name), "{copy} is not {name}");
    }
    let mut text = of_repository("samples/pump.wav.out");
    let bytes = of_repository("samples/pump.out.wav").len();
    text.extend(format!("output as expected: {bytes} bytes\n").bytes());
    assert!(of_repository("crates/wavcheck/stdout") == text, "crates/wavcheck/stdout");
}
