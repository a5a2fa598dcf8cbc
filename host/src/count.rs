//! The count of a comparison over many calls, or over many sequences of them: what they were made on, what was
//! answered, and where library and model differed.
use crate::original;
use crate::tally::line;
use crate::wrong;
use std::fmt::Write;

/// How many differences are written out.
const SHOWN: usize = 8;

/// A kind of call, and how many of that kind there have to be.
pub struct Class<C> {
    pub name: &'static str,
    pub least: u64,
    pub holds: fn(&C) -> bool,
}

pub struct Count<C: 'static> {
    title: &'static str,
    sources: Vec<(&'static str, u64)>,
    classes: Vec<(&'static Class<C>, u64)>,
    differences: u64,
    shown: Vec<String>,
}

impl<C: std::fmt::Debug> Count<C> {
    /// Nothing counted yet. The classes come in several lists.
    pub fn new(title: &'static str, classes: &[&'static [Class<C>]]) -> Count<C> {
        let classes = classes.iter().flat_map(|list| list.iter()).map(|class| (class, 0)).collect();
        Count { title, sources: Vec::new(), classes, differences: 0, shown: Vec::new() }
    }

    /// The calls from here on are counted under this name.
    pub fn begin(&mut self, source: &'static str) {
        self.sources.push((source, 0));
    }

    /// Counts one call, after which these parts were not as the model has them.
    pub fn take(&mut self, call: &C, wrong: &[&str]) {
        self.sources.last_mut().expect("a source was begun").1 += 1;
        for (class, count) in &mut self.classes {
            *count += u64::from((class.holds)(call));
        }
        if !wrong.is_empty() {
            self.differences += 1;
            let source = self.sources.last().expect("a source was begun").0;
            let described = || format!("{source}: differing {wrong:?}: {call:?}");
            if self.shown.len() < SHOWN {
                self.shown.push(described());
            }
            wrong::found(self.in_all(), described);
        }
    }

    /// Prints the whole count, and panics where there are too few calls of a class or a call differed.
    pub fn close(&self, seed: u64) {
        self.print(seed);
        original::print_agreed();
        self.hold();
    }

    /// Prints the whole count.
    pub fn print(&self, seed: u64) {
        print!("{}", self.report(seed));
    }

    /// Panics where there are too few calls of a class or a call differed.
    pub fn hold(&self) {
        for (class, count) in &self.classes {
            assert!(*count >= class.least, "{}: {}: {count}, fewer than {}", self.title, class.name, class.least);
        }
        assert_eq!(self.differences, 0, "{}: differences", self.title);
    }

    fn in_all(&self) -> u64 {
        self.sources.iter().map(|(_, count)| count).sum()
    }

    fn report(&self, seed: u64) -> String {
        let mut text = format!("{}, seed {:#x}\n", self.title, seed);
        line(&mut text, "in all", self.in_all());
        for (source, count) in &self.sources {
            line(&mut text, source, *count);
        }
        for (class, count) in &self.classes {
            line(&mut text, class.name, *count);
        }
        line(&mut text, "differences", self.differences);
        for shown in &self.shown {
            writeln!(text, "    {shown}").expect("a String takes all");
        }
        text
    }
}
