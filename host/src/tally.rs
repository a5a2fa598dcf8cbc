//! The count of a comparison over many values: what kinds of value it met, and where the two sides
//! differed.
use crate::float::Format;
use crate::original;
use crate::wrong;
use std::fmt::Write;

/// A kind of value, told by its pattern.
#[derive(Clone, Copy)]
pub struct Class {
    pub name: &'static str,
    pub holds: fn(Format, u64) -> bool,
}

/// The kinds that every comparison meets.
const COMMON: [Class; 9] = [
    Class { name: "zeros", holds: Format::is_zero },
    Class { name: "subnormals", holds: Format::is_subnormal },
    Class { name: "normals", holds: Format::is_normal },
    Class { name: "infinities", holds: Format::is_infinite },
    Class { name: "quiet NaN", holds: Format::is_quiet_nan },
    Class { name: "signalling NaN", holds: Format::is_signalling_nan },
    Class { name: "first of a binade", holds: |f, b| f.is_normal(b) && f.tail(b) == 0 },
    Class { name: "second of a binade", holds: |f, b| f.is_normal(b) && f.tail(b) == 1 },
    Class { name: "last of a binade", holds: |f, b| f.is_normal(b) && f.tail(b) == f.last_tail() },
];

/// The kinds that every comparison meets, and then these.
pub fn with_common(classes: &[Class]) -> Vec<Class> {
    COMMON.iter().chain(classes).copied().collect()
}

/// How many differences are written out.
const SHOWN: usize = 8;

pub struct Tally {
    title: &'static str,
    format: Format,
    classes: Vec<(Class, u64)>,
    tops: Vec<u64>,
    values: u64,
    differences: u64,
    shown: Vec<[u64; 3]>,
}

impl Tally {
    /// Nothing counted yet. The classes are the common ones and then these.
    pub fn new(title: &'static str, format: Format, classes: &[Class]) -> Tally {
        Tally {
            title,
            format,
            classes: with_common(classes).into_iter().map(|class| (class, 0)).collect(),
            tops: vec![0; format.tops() as usize],
            values: 0,
            differences: 0,
            shown: Vec::new(),
        }
    }

    pub fn values(&self) -> u64 {
        self.values
    }

    /// Counts one value: its pattern, and the patterns of what both sides made of it.
    pub fn take(&mut self, bits: u64, ours: u64, theirs: u64) {
        self.values += 1;
        self.tops[self.format.top(bits) as usize] += 1;
        for (class, count) in &mut self.classes {
            *count += u64::from((class.holds)(self.format, bits));
        }
        if ours != theirs {
            self.differences += 1;
            if self.shown.len() < SHOWN {
                self.shown.push([bits, ours, theirs]);
            }
            wrong::found(self.values, || described([bits, ours, theirs]));
        }
    }

    /// Prints the whole count, and panics where a class or a field was never met or a value differed.
    pub fn close(&self, seed: u64) {
        print!("{}", self.report(seed));
        original::print_agreed();
        for (class, count) in &self.classes {
            assert!(*count > 0, "{}: no value of the class \"{}\"", self.title, class.name);
        }
        assert_eq!(self.tops_met(), self.tops.len(), "{}: not every field with each sign", self.title);
        assert_eq!(self.differences, 0, "{}: differences", self.title);
    }

    fn report(&self, seed: u64) -> String {
        let mut text = format!("{}, seed {:#x}\n", self.title, seed);
        line(&mut text, "values", self.values);
        line(&mut text, "exponent fields, each sign", self.tops_met() as u64);
        for (class, count) in &self.classes {
            line(&mut text, class.name, *count);
        }
        line(&mut text, "differences", self.differences);
        for shown in &self.shown {
            writeln!(text, "    {}", described(*shown)).expect("a String takes all");
        }
        text
    }

    fn tops_met(&self) -> usize {
        self.tops.iter().filter(|count| **count > 0).count()
    }
}

/// A pattern, and what both sides made of it.
fn described([bits, ours, theirs]: [u64; 3]) -> String {
    format!("of {bits:#x}: ours {ours:#x}, theirs {theirs:#x}")
}

/// Adds the line of one count.
pub fn line(text: &mut String, name: &str, count: u64) {
    writeln!(text, "  {name:<48}{count:>12}").expect("a String takes all");
}
