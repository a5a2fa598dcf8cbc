//! Files that other programs made, sox and ffmpeg, which have the names of Debian's packages; and what these programs
//! make of the files that the library writes.
use super::built::Expected;
use super::classes::{FFMPEG, SOX};
use super::laws;
use super::made::Made;
use super::words;
use crate::{compare, made, Change};
use cathar_host::count::{Class, Count};
use cathar_host::draw::{self, Draw};
use cathar_host::wav::{Areas, Call, HEADER};
use std::fs;
use std::path::{Path, PathBuf};
use std::process::{Command, Output};

/// A program: its name, the title of its count, how it tells its version, how it is told to make a file of a raw one,
/// and a raw one of a file; how it is asked for a file's rate; and the kinds of file that it makes.
struct Program {
    name: &'static str,
    title: &'static str,
    version: &'static str,
    makes: fn(rate: u32, raw: &Path, how: &[&str], file: &Path) -> Command,
    opens: fn(file: &Path, raw: &Path) -> Command,
    asks: fn(file: &Path) -> Command,
    kinds: &'static [Kind],
    classes: &'static [Class<Made>],
}

/// A kind of file: how the program is told to make it, the ending of its name, and what becomes of it.
struct Kind {
    how: &'static [&'static str],
    ending: &'static str,
    becomes: Becomes,
}

/// What a reader makes of a file: the samples that the program was given, at their rate; likewise up to 48,000 a
/// second, and 20 above, where the program writes an extensible header; 20 for another coding, in which each sample has
/// so many bytes, but 19 where their sum is odd; or a refusal by 19.
#[derive(Clone, Copy)]
enum Becomes {
    Same,
    SameTo48000,
    Coded(usize),
    NoWave,
}

const fn kind(how: &'static [&'static str], becomes: Becomes) -> Kind {
    Kind { how, ending: "wav", becomes }
}

/// Of a file that has another name, since the program tells the form by it.
const fn named(how: &'static [&'static str], ending: &'static str) -> Kind {
    Kind { how, ending, becomes: Becomes::NoWave }
}

const PROGRAMS: [Program; 2] = [
    Program {
        name: "sox",
        title: "files of sox against the model",
        version: "--version",
        makes: |rate, raw, how, file| {
            let mut command = Command::new("sox");
            command.args(["-V1", "-D", "-t", "raw", "-e", "signed-integer", "-b", "16", "-L", "-c", "1", "-r"]);
            command.arg(rate.to_string()).arg(raw).args(how).arg(file);
            command
        },
        opens: |file, raw| {
            let mut command = Command::new("sox");
            command
                .args(["-V1", "-D"])
                .arg(file)
                .args(["-t", "raw", "-e", "signed-integer", "-b", "16", "-L"])
                .arg(raw);
            command
        },
        asks: |file| {
            let mut command = Command::new("soxi");
            command.arg("-r").arg(file);
            command
        },
        kinds: &[
            kind(&[], Becomes::Same),
            kind(&["--comment", "a"], Becomes::Same),
            kind(&["--comment", "four"], Becomes::Same),
            kind(&["-t", "wavpcm"], Becomes::Same),
            kind(&["-b", "8", "-e", "unsigned-integer"], Becomes::Coded(1)),
            kind(&["-b", "24", "-e", "signed-integer"], Becomes::Coded(3)),
            kind(&["-b", "32", "-e", "signed-integer"], Becomes::Coded(2)),
            kind(&["-b", "32", "-e", "floating-point"], Becomes::Coded(2)),
            kind(&["-b", "64", "-e", "floating-point"], Becomes::Coded(2)),
            kind(&["-e", "a-law"], Becomes::Coded(1)),
            kind(&["-e", "mu-law"], Becomes::Coded(1)),
            kind(&["-e", "ima-adpcm"], Becomes::Coded(2)),
            kind(&["-e", "ms-adpcm"], Becomes::Coded(2)),
            kind(&["-c", "2"], Becomes::Coded(2)),
            kind(&["-c", "6"], Becomes::Coded(2)),
            kind(&["-B"], Becomes::NoWave),
            named(&[], "w64"),
            named(&[], "aiff"),
            named(&[], "au"),
        ],
        classes: SOX,
    },
    Program {
        name: "ffmpeg",
        title: "files of ffmpeg against the model",
        version: "-version",
        makes: |rate, raw, how, file| {
            let mut command = Command::new("ffmpeg");
            command.args(["-v", "error", "-nostdin", "-y", "-f", "s16le", "-ac", "1", "-ar"]).arg(rate.to_string());
            command.arg("-i").arg(raw).args(how).arg(file);
            command
        },
        opens: |file, raw| {
            let mut command = Command::new("ffmpeg");
            command.args(["-v", "error", "-nostdin", "-y", "-i"]).arg(file);
            command.args(["-f", "s16le", "-c:a", "pcm_s16le"]).arg(raw);
            command
        },
        asks: |file| {
            let mut command = Command::new("ffprobe");
            command.args(["-v", "error", "-show_entries", "stream=sample_rate", "-of", "default=nw=1:nk=1"]).arg(file);
            command
        },
        kinds: &[
            kind(&[], Becomes::SameTo48000),
            kind(&["-bitexact", "-fflags", "+bitexact"], Becomes::SameTo48000),
            kind(&["-metadata", "title=a"], Becomes::SameTo48000),
            kind(&["-metadata", "title=ab"], Becomes::SameTo48000),
            kind(&["-metadata", "title=abc", "-metadata", "artist=abcd"], Becomes::SameTo48000),
            kind(&["-bitexact", "-fflags", "+bitexact", "-metadata", "comment=12345"], Becomes::SameTo48000),
            kind(&["-write_bext", "1", "-metadata", "description=bells"], Becomes::SameTo48000),
            kind(&["-write_peak", "on"], Becomes::SameTo48000),
            kind(&["-write_peak", "on", "-peak_format", "1", "-peak_ppv", "1"], Becomes::SameTo48000),
            kind(&["-c:a", "pcm_u8"], Becomes::Coded(1)),
            kind(&["-c:a", "pcm_s24le"], Becomes::Coded(3)),
            kind(&["-c:a", "pcm_s32le"], Becomes::Coded(2)),
            kind(&["-c:a", "pcm_f32le"], Becomes::Coded(2)),
            kind(&["-c:a", "pcm_f64le"], Becomes::Coded(2)),
            kind(&["-c:a", "pcm_alaw"], Becomes::Coded(1)),
            kind(&["-c:a", "pcm_mulaw"], Becomes::Coded(1)),
            kind(&["-c:a", "adpcm_ms"], Becomes::Coded(2)),
            kind(&["-c:a", "adpcm_ima_wav"], Becomes::Coded(2)),
            kind(&["-ac", "2"], Becomes::Coded(2)),
            kind(&["-ac", "6"], Becomes::Coded(2)),
            kind(&["-rf64", "always"], Becomes::NoWave),
            kind(&["-seekable", "0"], Becomes::NoWave),
            named(&["-f", "w64"], "w64"),
            named(&["-f", "aiff"], "aiff"),
            named(&["-f", "au"], "au"),
        ],
        classes: FFMPEG,
    },
];

/// The rates at which files are made.
const RATES: [u32; 10] = [8_000, 11_025, 16_000, 22_050, 32_000, 44_100, 48_000, 88_200, 96_000, 192_000];

/// How many samples the sound has of which there are files at each rate.
const ANY: usize = 4_801;

/// How many samples the library writes for another program to open.
const WRITTEN: [usize; 4] = [1, 2, 1_001, 65_536];

/// What a command tells, if it can be run.
fn told(command: &mut Command) -> Option<Output> {
    command.output().ok()
}

impl Program {
    fn is_there(&self) -> bool {
        told(Command::new(self.name).arg(self.version)).map_or(false, |output| output.status.success())
    }
}

/// Installs the packages of these programs, where there is apt-get and this is root.
fn install(missing: &[&str]) {
    let is_root = told(Command::new("id").arg("-u")).map_or(false, |output| output.stdout == b"0\n");
    let has_apt = told(Command::new("apt-get").arg("--version")).is_some();
    if missing.is_empty() || !is_root || !has_apt {
        return;
    }
    println!("installing what is missing: {missing:?}");
    let options = ["-qq", "-o", "Acquire::http::Timeout=30"];
    told(Command::new("apt-get").args(options).arg("update"));
    let mut command = Command::new("apt-get");
    command.env("DEBIAN_FRONTEND", "noninteractive").args(options);
    told(command.args(["install", "-y", "--no-install-recommends"]).args(missing));
}

/// A file of this name among the tests' own.
fn place(name: &str) -> PathBuf {
    let folder = Path::new(env!("CARGO_TARGET_TMPDIR")).join("wav");
    fs::create_dir_all(&folder).expect("a folder for files");
    folder.join(name)
}

/// The command succeeds.
fn run(command: &mut Command) {
    let output = command.output().unwrap_or_else(|error| panic!("{command:?}: {error}"));
    assert!(output.status.success(), "{command:?}: {}", String::from_utf8_lossy(&output.stderr));
}

/// Values of sounds: all that there are, any, few, and one.
fn sounds(draw: &mut Draw) -> Vec<Vec<i16>> {
    let any = |draw: &mut Draw, count: usize| (0..count).map(|_| draw.word() as i16).collect();
    vec![(i16::MIN..=i16::MAX).collect(), any(draw, ANY), any(draw, 2), any(draw, 1)]
}

fn raw(values: &[i16]) -> Vec<u8> {
    values.iter().flat_map(|value| value.to_le_bytes()).collect()
}

/// What has to become of a file of this kind, of these values at this rate.
fn expected(kind: &Kind, rate: u32, values: &[i16]) -> Expected {
    let samples = values.iter().map(|value| laws::pattern_of(*value)).collect();
    match kind.becomes {
        Becomes::NoWave => Expected::refused(19),
        Becomes::Coded(bytes) if bytes * values.len() % 2 == 1 => Expected::refused(19),
        Becomes::Coded(_) => Expected::refused(20),
        Becomes::SameTo48000 if rate > 48_000 => Expected::refused(20),
        Becomes::Same | Becomes::SameTo48000 => Expected { number: 0, rate, samples },
    }
}

/// The program makes a file of each kind, of each sound at each rate, which both sides read.
fn read_theirs(program: &Program, draw: &mut Draw, count: &mut Count<Made>) {
    for values in sounds(draw) {
        let raw_file = place(&format!("{}.raw", program.name));
        fs::write(&raw_file, raw(&values)).expect("a raw file is written");
        for (rate, kind) in RATES.into_iter().flat_map(|rate| program.kinds.iter().map(move |kind| (rate, kind))) {
            // Of most sounds a file of each kind at one rate is enough.
            if values.len() != ANY && rate != 44_100 {
                continue;
            }
            let path = place(&format!("{}.{}", program.name, kind.ending));
            run(&mut (program.makes)(rate, &raw_file, kind.how, &path));
            let file = fs::read(&path).expect("the file is there");
            let expected = expected(kind, rate, &values);
            let more = draw.below(3) as usize;
            let before = Areas {
                file,
                samples: vec![0x0123_4567; expected.samples.len() + more],
                marks: vec![0xa5; expected.samples.len() + more],
            };
            compare(count, Call::Read, Change::Nothing, &before, Some(&expected));
        }
    }
}

/// The library writes samples at each rate, and the program opens the file and gives the same values and the rate.
fn opened_by(program: &Program, draw: &mut Draw) {
    let (mut files, mut values) = (0, 0);
    for (rate, n) in RATES.into_iter().flat_map(|rate| WRITTEN.map(|n| (rate, n))) {
        let samples = words::samples(draw, n);
        let before = Areas { file: vec![0xa5; HEADER + 2 * n], samples, marks: Vec::new() };
        let (written, left, _, wrong) = made(Call::Write { rate }, Change::Nothing, &before);
        assert!(written.writes(0) && wrong.is_empty(), "{written:?}: {wrong:?}");
        let (path, raw_file) = (place(&format!("ours-{}.wav", program.name)), place(&format!("{}.out", program.name)));
        fs::write(&path, &left.file).expect("a file is written");
        run(&mut (program.opens)(&path, &raw_file));
        let theirs = fs::read(&raw_file).expect("the raw file is there");
        let ours: Vec<i16> = left.samples.iter().map(|word| laws::value_of(*word)).collect();
        assert!(theirs == raw(&ours), "{} gives other values of {n} samples at {rate}", program.name);
        let asked = told(&mut (program.asks)(&path)).expect("the program tells the rate");
        let says = String::from_utf8_lossy(&asked.stdout).trim().to_string();
        assert_eq!(says, rate.to_string(), "{} tells another rate of {n} samples", program.name);
        files += 1;
        values += n;
    }
    println!("{} opens {files} files that the library wrote, with the same rates and {values} values", program.name);
}

/// All of it, for each program that is there.
pub fn all() {
    let missing: Vec<&str> =
        PROGRAMS.iter().filter(|program| !program.is_there()).map(|program| program.name).collect();
    install(&missing);
    let seed = draw::seed();
    for program in &PROGRAMS {
        if !program.is_there() {
            println!("there is no {} here, and it was not installed: its files are left out", program.name);
            continue;
        }
        let mut draw = Draw::new(seed);
        let mut count = Count::new(program.title, &[program.classes]);
        count.begin(program.name);
        read_theirs(program, &mut draw, &mut count);
        count.close(seed);
        opened_by(program, &mut draw);
    }
}
