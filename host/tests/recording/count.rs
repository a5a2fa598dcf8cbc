//! The count of a comparison over many calls on recordings: what they were made on, what was answered, and
//! where library and model differed.
use cathar_host::call::Call;
use cathar_host::lent::{Lent, VALUE_BEFORE};
use cathar_host::recording::{Answer, Clause, Recording, NOT_RECEIVED};
use cathar_host::tally::line;
use cathar_host::wrong;
use std::fmt::Write;

/// How many differences are written out.
const SHOWN: usize = 8;

/// The numbers of samples that every comparison meets, each group by its last.
const SIZES: [(&str, usize); 5] = [
    ("on 0 samples", 0),
    ("on 1 sample", 1),
    ("on 2 samples", 2),
    ("on 3 to 999 samples", 999),
    ("on 1,000 samples or more", usize::MAX),
];

/// One of the two ways of opening: the call, and what the model does.
pub type Opening = (Call, fn(&mut Recording) -> Answer);

pub struct Count {
    title: &'static str,
    sources: Vec<(&'static str, u64)>,
    sizes: [u64; SIZES.len()],
    answers: Vec<(u32, u64)>,
    /// For each clause how often it applied, and how often it alone did.
    clauses: [[u64; 2]; Clause::ALL.len()],
    /// How many openings left a mark 6, and how many undos brought one back.
    not_received: u64,
    /// How many undos moved the counts of several blocks, and how many left one that is not that of the marks.
    over_blocks: u64,
    wrong_kept: u64,
    differences: u64,
    shown: Vec<String>,
}

impl Count {
    /// Nothing counted yet. The numbers are all that the call can answer.
    pub fn new(title: &'static str, numbers: &[u32]) -> Count {
        Count {
            title,
            sources: Vec::new(),
            sizes: [0; SIZES.len()],
            answers: numbers.iter().map(|number| (*number, 0)).collect(),
            clauses: [[0; 2]; Clause::ALL.len()],
            not_received: 0,
            over_blocks: 0,
            wrong_kept: 0,
            differences: 0,
            shown: Vec::new(),
        }
    }

    /// The calls from here on are counted under this name.
    pub fn begin(&mut self, source: &'static str) {
        self.sources.push((source, 0));
    }

    pub fn calls(&self) -> u64 {
        self.sources.iter().map(|(_, count)| count).sum()
    }

    /// Both sides open the recording in this way. The answer is the model's.
    pub fn open(&mut self, (call, open): Opening, model: &mut Recording, lent: &mut Lent) -> Answer {
        let answer = open(model);
        let number = lent.make(call);
        self.take(model, answer, number, lent.wrong(model, VALUE_BEFORE));
        self.not_received += u64::from(answer.number() == 0 && model.marks.contains(&NOT_RECEIVED));
        answer
    }

    /// Both sides take back the last entry. The answer is the model's.
    pub fn undo(&mut self, model: &mut Recording, lent: &mut Lent) -> Answer {
        let (before, counts) = (model.marks.clone(), model.counts.clone());
        let answer = model.undo();
        let number = lent.make(Call::Undo);
        self.take(model, answer, number, lent.wrong(model, answer.value()));
        let brings_back = |(old, new): (&u8, &u8)| *old != NOT_RECEIVED && *new == NOT_RECEIVED;
        self.not_received += u64::from(before.iter().zip(&model.marks).any(brings_back));
        self.over_blocks += u64::from(counts.iter().zip(&model.counts).filter(|(old, new)| old != new).count() > 1);
        self.wrong_kept += u64::from(answer.number() == 0 && model.has_wrong_count());
        if answer.number() == 11 {
            self.take_clauses(&model.malformed());
        }
        answer
    }

    /// Counts one call: the model after it, both sides' answers, and the lent parts that are not as the
    /// model has them.
    fn take(&mut self, model: &Recording, answer: Answer, number: u32, wrong: Vec<&str>) {
        let size = SIZES.iter().position(|(_, last)| model.samples.len() <= *last).expect("the last takes all");
        self.sizes[size] += 1;
        self.sources.last_mut().expect("a source was begun").1 += 1;
        let known = self.answers.iter_mut().find(|(known, _)| *known == answer.number());
        known.unwrap_or_else(|| panic!("the model answers {answer:?}")).1 += 1;
        if number != answer.number() || !wrong.is_empty() {
            self.differences += 1;
            let described = || described(model, answer, number, &wrong);
            if self.shown.len() < SHOWN {
                self.shown.push(described());
            }
            wrong::found(self.calls(), described);
        }
    }

    fn take_clauses(&mut self, malformed: &[Clause]) {
        for (clause, [met, alone]) in Clause::ALL.iter().zip(&mut self.clauses) {
            *met += u64::from(malformed.contains(clause));
            *alone += u64::from(malformed == [*clause]);
        }
    }

    /// Prints the whole count, and panics where an answer or a size was never met or a call differed.
    pub fn close(&self, seed: u64) {
        print!("{}", self.report(seed));
        for ((size, _), count) in SIZES.iter().zip(&self.sizes) {
            assert!(*count > 0, "{}: no call {size}", self.title);
        }
        for (number, count) in &self.answers {
            assert!(*count > 0, "{}: no answer {number}", self.title);
        }
        assert_eq!(self.differences, 0, "{}: differences", self.title);
    }

    /// How many openings left a mark 6, and how many undos brought one back.
    pub fn not_received(&self) -> u64 {
        self.not_received
    }

    /// How many undos moved the counts of several blocks.
    pub fn over_blocks(&self) -> u64 {
        self.over_blocks
    }

    /// How many left a count that is not that of the marks.
    pub fn wrong_kept(&self) -> u64 {
        self.wrong_kept
    }

    /// Panics where a clause of refusal 11 was never met alone. One cannot be: more places than samples are
    /// not all below the samples and rising, and where they are not all there, 3m+2 exceeds used.
    pub fn close_clauses(&self) {
        for (clause, [met, alone]) in Clause::ALL.iter().zip(&self.clauses) {
            let words = clause.words();
            assert!(*met > 0, "{}: never refused since {words}", self.title);
            let never_alone = *clause == Clause::MoreThanSamples;
            assert_eq!(*alone == 0, never_alone, "{}: refused {alone} times since {words}, alone", self.title);
        }
    }

    fn report(&self, seed: u64) -> String {
        let mut text = format!("{}, seed {:#x}\n", self.title, seed);
        line(&mut text, "calls", self.calls());
        for (source, count) in &self.sources {
            line(&mut text, source, *count);
        }
        for ((size, _), count) in SIZES.iter().zip(&self.sizes) {
            line(&mut text, size, *count);
        }
        for (number, count) in &self.answers {
            line(&mut text, &format!("answered {number}"), *count);
        }
        for (clause, [met, alone]) in Clause::ALL.iter().zip(&self.clauses) {
            if *met > 0 {
                line(&mut text, &format!("11: {}", clause.words()), *met);
                line(&mut text, "    and nothing else", *alone);
            }
        }
        line(&mut text, "leaving or bringing back a mark 6", self.not_received);
        if self.over_blocks + self.wrong_kept > 0 {
            line(&mut text, "moving the counts of several blocks", self.over_blocks);
            line(&mut text, "leaving a wrong count of another block", self.wrong_kept);
        }
        line(&mut text, "differences", self.differences);
        for shown in &self.shown {
            writeln!(text, "    {shown}").expect("a String takes all");
        }
        text
    }
}

fn described(model: &Recording, answer: Answer, number: u32, wrong: &[&str]) -> String {
    let Recording { samples, marks, counts, journal, used } = model;
    let sizes = format!("{} samples, {} marks, {} counts", samples.len(), marks.len(), counts.len());
    let of = format!("of {sizes}, {} journal words, used {used} after it", journal.len());
    format!("{of}: library {number}, model {answer:?}, differing {wrong:?}")
}
