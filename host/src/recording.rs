//! A recording as document 01 has it: samples, marks, journal and used, and what opening, undo and the end of a repair
//! make of them; and of document 02 the second opening, of request P2, the counts, of request P5, mark 7, of request
//! P7, and mark 8, of request P9. It is written from the documents' text alone, and to be seen right rather than to be
//! fast, so that the library can be held to it.

/// The most samples of a recording that is not turned away.
pub const MOST_SAMPLES: usize = 1_048_576;

/// The mark of a sample that did not arrive. No repair sets it.
pub const NOT_RECEIVED: u8 = 6;

/// How many samples share a count: "a count for each block of 256 samples"; "the last block may be short".
pub const BLOCK: usize = 256;

/// What a call answers.
#[derive(Clone, Copy, Debug, PartialEq, Eq)]
pub enum Answer {
    /// Accepted, and how many samples it named or took back: m. For opening, which names none, 0.
    Accepted(usize),
    /// Refused, by the number in the document's table.
    Refused(u32),
    /// Refusals 7, 8 and 15 carry the sample's place.
    RefusedAt(u32, usize),
}

impl Answer {
    /// The number of the refusal, or 0.
    pub fn number(self) -> u32 {
        match self {
            Answer::Accepted(_) => 0,
            Answer::Refused(number) | Answer::RefusedAt(number, _) => number,
        }
    }

    /// What a call hands back beside the number: m, or the place, or 0.
    pub fn value(self) -> usize {
        match self {
            Answer::Accepted(value) | Answer::RefusedAt(_, value) => value,
            Answer::Refused(_) => 0,
        }
    }
}

/// What makes the last entry malformed, by the document's words on refusal 11, in their order.
#[derive(Clone, Copy, Debug, PartialEq, Eq)]
pub enum Clause {
    UsedIsOne,
    NothingNamed,
    MoreThanSamples,
    LongerThanUsed,
    PlacePastEnd,
    PlacesDoNotRise,
    OldMarkTooLarge,
    NoSuchMark,
}

impl Clause {
    pub const ALL: [Clause; 8] = [
        Clause::UsedIsOne,
        Clause::NothingNamed,
        Clause::MoreThanSamples,
        Clause::LongerThanUsed,
        Clause::PlacePastEnd,
        Clause::PlacesDoNotRise,
        Clause::OldMarkTooLarge,
        Clause::NoSuchMark,
    ];

    /// The document's words.
    pub fn words(self) -> &'static str {
        match self {
            Clause::UsedIsOne => "used is 1",
            Clause::NothingNamed => "m is 0",
            Clause::MoreThanSamples => "m is more than the samples",
            Clause::LongerThanUsed => "3m+2 exceeds used",
            Clause::PlacePastEnd => "a place is not below the samples",
            Clause::PlacesDoNotRise => "places do not strictly rise",
            Clause::OldMarkTooLarge => "an old mark exceeds 255",
            Clause::NoSuchMark => "the set mark is not 1 to 5, 7 or 8",
        }
    }

    /// Whether it applies, for a recording whose used is at least 1 and within the journal. Of an entry that
    /// is not there whole, what is said about its parts does not apply.
    fn applies(self, to: &Recording) -> bool {
        let samples = to.samples.len();
        match self {
            Clause::UsedIsOne => to.used == 1,
            Clause::NothingNamed => to.last_m() == Some(0),
            Clause::MoreThanSamples => to.last_m().map_or(false, |m| m > samples),
            Clause::LongerThanUsed => to.last_m().map_or(false, |m| entry_words(m) > to.used),
            Clause::PlacePastEnd => to.last_named().iter().any(|named| named.place as usize >= samples),
            Clause::PlacesDoNotRise => to.last_named().windows(2).any(|two| two[0].place >= two[1].place),
            Clause::OldMarkTooLarge => to.last_named().iter().any(|named| named.old_mark > 255),
            Clause::NoSuchMark => !u8::try_from(to.last_mark()).map_or(false, is_made),
        }
    }
}

/// What an entry holds for each sample that it names.
struct Named {
    place: u32,
    old_word: u32,
    old_mark: u32,
}

#[derive(Clone, Debug, PartialEq, Eq)]
pub struct Recording {
    /// Each the pattern of an f32.
    pub samples: Vec<u32>,
    /// One for each sample: 0 is measured, 1 to 5, 7 and 8 say which repair made it, and 6 is not received.
    pub marks: Vec<u8>,
    /// One for each block of samples: how many of its marks are not 0.
    pub counts: Vec<u16>,
    /// The entries of the accepted repairs that named a sample, and then words that are free.
    pub journal: Vec<u32>,
    /// How many journal words the entries take.
    pub used: usize,
}

/// An entry's words: for each named sample its place, old word and old mark; then m; then the set mark.
pub fn entry_words(m: usize) -> usize {
    3 * m + 2
}

/// "A sample is in range if finite and of magnitude at most 65,536."
pub fn in_range(word: u32) -> bool {
    let x = f32::from_bits(word);
    x.is_finite() && x.abs() <= 65536.0
}

/// Whether a mark is that of a repair: 1 to 5, by request P7 "refusal 11 now allows a set mark of 7", and by request P9
/// "refusal 11 now allows 8".
pub fn is_made(mark: u8) -> bool {
    matches!(mark, 1..=5 | 7 | 8)
}

/// How many blocks so many samples make.
pub fn blocks(n: usize) -> usize {
    (n / BLOCK) + usize::from(n % BLOCK > 0)
}

/// How many of these marks are not 0.
pub fn not_measured(marks: &[u8]) -> u16 {
    marks.iter().map(|mark| u16::from(*mark != 0)).sum()
}

/// The counts as they are worked out from the marks.
pub fn counted(marks: &[u8]) -> Vec<u16> {
    marks.chunks(BLOCK).map(not_measured).collect()
}

/// "The lowest number that applies is the answer", but that 14 comes directly "after 1". The numbers come in their
/// order.
pub(crate) fn first_of<const N: usize>(refusals: [(u32, bool); N]) -> Option<u32> {
    refusals.into_iter().find(|(_, applies)| *applies).map(|(number, _)| number)
}

impl Recording {
    /// A recording of these parts, with as many counts as its samples have blocks, worked out from the marks.
    pub fn new(samples: Vec<u32>, marks: Vec<u8>, journal: Vec<u32>, used: usize) -> Recording {
        let mut counts = counted(&marks);
        counts.resize(blocks(samples.len()), 0);
        Recording { samples, marks, counts, journal, used }
    }

    /// "Opening sets all marks and all journal words to 0 and used to 0. It gives refusals 1 and 2 only", and 14.
    pub fn open(&mut self) -> Answer {
        self.open_with(|_| 0)
    }

    /// "The recording opens from the result, keeping these marks, so demand 3's raw marks are 0 or 6": mark 6 stays
    /// where it stands, and every other becomes 0. All else is as in the opening above.
    pub fn open_received(&mut self) -> Answer {
        self.open_with(|mark| if mark == NOT_RECEIVED { NOT_RECEIVED } else { 0 })
    }

    /// What the two openings share: each mark becomes the raw mark that this makes of it, and "opening sets" the counts.
    fn open_with(&mut self, raw: impl Fn(u8) -> u8) -> Answer {
        let refusals = [(1, self.marks_differ()), (14, self.counts_differ()), (2, self.too_many_samples())];
        if let Some(number) = first_of(refusals) {
            return Answer::Refused(number);
        }
        for mark in &mut self.marks {
            *mark = raw(*mark);
        }
        self.counts = counted(&self.marks);
        self.journal.fill(0);
        self.used = 0;
        Answer::Accepted(0)
    }

    /// "Undo takes back the last entry: words and marks return, used falls by 3m+2, and the freed journal
    /// words become 0." It "can give 1, 2, 3, 10, 11", and 14.
    pub fn undo(&mut self) -> Answer {
        if let Some(number) = self.refused_by_any_call() {
            return Answer::Refused(number);
        }
        if self.used == 0 {
            return Answer::Refused(10);
        }
        if !self.malformed().is_empty() {
            return Answer::Refused(11);
        }
        let last = self.last_named();
        for named in &last {
            self.samples[named.place as usize] = named.old_word;
            self.marks[named.place as usize] = named.old_mark as u8;
        }
        self.recount(last.iter().map(|named| named.place as usize));
        let kept = self.used - entry_words(last.len());
        self.journal[kept..self.used].fill(0);
        self.used = kept;
        Answer::Accepted(last.len())
    }

    /// The end of a repair that sets this mark and names these samples, each with its place and its new
    /// word, ascending. It gives refusals 8 and 9, and before them 1, 14, 2 and 3, which every repair gives.
    pub fn commit(&mut self, mark: u8, named: &[(usize, u32)]) -> Answer {
        assert!(is_made(mark), "no repair sets the mark {mark}");
        assert!(named.windows(2).all(|two| two[0].0 < two[1].0), "the places do not ascend");
        assert!(named.iter().all(|(place, _)| *place < self.samples.len()), "a place is past the end");
        if let Some(number) = self.refused_by_any_call() {
            return Answer::Refused(number);
        }
        if let Some((place, _)) = named.iter().find(|(_, word)| !in_range(*word)) {
            return Answer::RefusedAt(8, *place);
        }
        if !named.is_empty() && self.journal.len() - self.used < entry_words(named.len()) {
            return Answer::Refused(9);
        }
        if !named.is_empty() {
            self.append_entry(mark, named);
        }
        for (place, word) in named {
            self.samples[*place] = *word;
            self.marks[*place] = mark;
        }
        self.recount(named.iter().map(|(place, _)| *place));
        Answer::Accepted(named.len())
    }

    /// "An accepted repair or undo recounts the blocks of its samples and no others." The places are those of the samples.
    fn recount(&mut self, places: impl Iterator<Item = usize>) {
        let mut named: Vec<usize> = places.map(|place| place / BLOCK).collect();
        named.dedup();
        for block in named {
            let marks = self.marks.chunks(BLOCK).nth(block).expect("each sample has a mark, and each mark a block");
            self.counts[block] = not_measured(marks);
        }
    }

    /// Whether a count is not that of its block's marks.
    pub fn has_wrong_count(&self) -> bool {
        self.counts != counted(&self.marks)
    }

    /// All that is wrong with the last entry; nothing, where there is none within the journal.
    pub fn malformed(&self) -> Vec<Clause> {
        if self.used == 0 || self.used_exceeds_journal() {
            return Vec::new();
        }
        Clause::ALL.into_iter().filter(|clause| clause.applies(self)).collect()
    }

    /// Refusals 1, 14, 2 and 3, which every repair gives, and undo.
    pub fn refused_by_any_call(&self) -> Option<u32> {
        first_of([
            (1, self.marks_differ()),
            (14, self.counts_differ()),
            (2, self.too_many_samples()),
            (3, self.used_exceeds_journal()),
        ])
    }

    /// Refusal 1: "marks and samples differ in number".
    fn marks_differ(&self) -> bool {
        self.marks.len() != self.samples.len()
    }

    /// Refusal 14: "wrong number of counts".
    fn counts_differ(&self) -> bool {
        self.counts.len() != blocks(self.samples.len())
    }

    /// Refusal 2: "more than 1,048,576 samples".
    fn too_many_samples(&self) -> bool {
        self.samples.len() > MOST_SAMPLES
    }

    /// Refusal 3: "used exceeds the journal's length".
    fn used_exceeds_journal(&self) -> bool {
        self.used > self.journal.len()
    }

    /// The last used word: the mark that the last entry set.
    fn last_mark(&self) -> u32 {
        self.journal[self.used - 1]
    }

    /// The used word before it: how many samples the last entry names.
    fn last_m(&self) -> Option<usize> {
        let at = self.used.checked_sub(2)?;
        Some(self.journal[at] as usize)
    }

    /// The samples that the last entry names; none, where fewer words are used than it would take.
    fn last_named(&self) -> Vec<Named> {
        let start = self.last_m().and_then(|m| self.used.checked_sub(entry_words(m)));
        let words = start.map_or(&[][..], |start| &self.journal[start..self.used - 2]);
        words.chunks(3).map(|of| Named { place: of[0], old_word: of[1], old_mark: of[2] }).collect()
    }

    /// "For each named sample, ascending, its place, old word and old mark; then m; then the mark it set."
    fn append_entry(&mut self, mark: u8, named: &[(usize, u32)]) {
        let mut entry = Vec::new();
        for (place, _) in named {
            entry.extend([*place as u32, self.samples[*place], u32::from(self.marks[*place])]);
        }
        entry.extend([named.len() as u32, u32::from(mark)]);
        let end = self.used + entry.len();
        self.journal[self.used..end].copy_from_slice(&entry);
        self.used = end;
    }
}
