//! A crackle detector written by hand, by rules of which a stand-in has one wrong.
use crate::crackle::{word, Areas, Call, Run, RUN_WORDS, STATE_WORDS};
use crate::lent::crackle::Crackle;
use crate::lent::GUARDS;
use crate::recording::{in_range, Answer, MOST_SAMPLES};
use crate::whole::{Start, MEAN_OVER};
use crate::wrong::opening;

/// What is not allowed of a call: the run does not go on, there are too many samples or, at the end, too few, the room
/// is short, a sample is not in range; and whether the piece is empty.
pub(super) struct Not {
    pub closed: bool,
    pub more: bool,
    pub lacks: bool,
    pub short: bool,
    pub bad: bool,
    pub empty: bool,
}

/// What a detector goes by.
#[derive(Clone, Copy)]
pub(super) struct Rules {
    /// The fewest words of a state, by its start, and whether they are tested before what is announced.
    pub words: fn(Start) -> usize,
    pub words_first: bool,
    /// The most samples; how a total is read; which sensitivities are not allowed, and what the others are held to.
    pub most: usize,
    pub total: fn(usize) -> usize,
    pub no_setting: fn(f32) -> bool,
    pub held: fn(f32) -> f32,
    /// The number of an announcement's refusal, by whether there are too many samples and the setting is not allowed;
    /// and which start it takes for the one that it is told.
    pub announced: fn(bool, bool) -> u32,
    pub begins: fn(Start) -> Start,
    /// Of the third word, whether the run goes on, and of the eighth, where its floor starts.
    pub goes_on: fn(u32) -> bool,
    pub start: fn(u32) -> Start,
    /// Whether so many samples more are too many, and whether too few are in at the end.
    pub over: fn(&Run, usize) -> bool,
    pub lacks: fn(&Run) -> bool,
    pub in_range: fn(u32, &Run) -> bool,
    /// How much room so many samples need, and the end; and which of its flags the end gives.
    pub needs: fn(&Run, usize) -> usize,
    pub end_needs: fn(&Run) -> usize,
    pub end_gives: fn(&Run, Vec<u8>) -> Vec<u8>,
    /// The numbers of the refusals, or 0; and the place that 7 tells.
    pub refused: fn(&Not) -> u32,
    pub end_refused: fn(&Not) -> u32,
    pub place: fn(&Run, &[usize]) -> usize,
    /// Whether a refusal stops the run, or the end ends it; and whether 6 does.
    pub closes: fn(Call, u32) -> bool,
    pub six_closes: fn(Call) -> bool,
    /// What becomes of the run before so many samples are taken in.
    pub at_piece: fn(&mut Run, usize),
    /// Whether the next sample is the very first.
    pub is_first: fn(&Run) -> bool,
    /// The detector's value at place 0, elsewhere, at the last sample of a piece where that is another, and at the end.
    pub first: fn(&Run, f32) -> f32,
    pub value: fn(&Run, f32) -> f32,
    pub at_cut: Option<fn(&Run, f32) -> f32>,
    pub at_end: fn(&Run) -> f32,
    pub magnitude: fn(f32) -> f32,
    /// Whether the flag of the last sample is held back; whether its value is written, and how, and whether it is at
    /// the end; and whether the flags are given when so many values are known.
    pub holds: fn(&Run) -> bool,
    pub writes: fn(&Run) -> bool,
    pub written: fn(f32) -> u32,
    pub end_writes: bool,
    pub releases: fn(usize) -> bool,
    /// What the floor starts from, by the values that were held back; and what is left of it when they are judged, by
    /// that and by the floor then. Whether it moves as long as they are held back.
    pub opening: fn(&[f32]) -> f32,
    pub left: fn(f32, f32) -> f32,
    pub moves_in_hold: bool,
    /// The floor once it has taken in a magnitude, and whether it does so at place 0.
    pub floor: fn(f32, f32) -> f32,
    pub floor_at_0: bool,
    /// What the factor is multiplied by, by the floor before and after; and whether a magnitude exceeds the product.
    pub limit: fn(f32, f32) -> f32,
    pub stands_out: fn(f32, f32) -> bool,
    /// Whether a flag may be set at all, with a piece of so many samples; and whether at the ends.
    pub may_flag: fn(&Run, usize) -> bool,
    pub ends_flagged: bool,
    /// Whether from the old start the flag of a piece's last sample is given with the piece.
    pub at_once: bool,
}

/// What it is to go by.
pub(super) const RULES: Rules = Rules {
    words: |_| STATE_WORDS,
    words_first: true,
    most: MOST_SAMPLES,
    total: |total| total,
    no_setting: f32::is_nan,
    held: |sensitivity| sensitivity.clamp(1.0, 10.0),
    announced: |over, setting| first(&[(2, over), (4, setting)]),
    begins: |start| start,
    goes_on: |word| word == 1,
    start: |word| if word == 1 { Start::Mean } else { Start::Old },
    over: more,
    lacks: |run| run.taken != run.total,
    in_range: |word, _| in_range(word),
    needs: |run, n| run.brought_by(n),
    end_needs: |run| run.brought_by_end(),
    end_gives: |_, flags| flags,
    refused: |not| first(&[(13, not.closed || not.more), (6, not.short), (7, not.bad)]),
    end_refused: |not| first(&[(13, not.closed || not.lacks), (6, not.short)]),
    place: |run, bad| run.taken as usize + bad[0],
    closes: |_, _| true,
    six_closes: |_| false,
    at_piece: |_, _| (),
    is_first: |run| run.taken == 0,
    first: |_, _| 0.0,
    value: |run, x| run.last - 0.5 * (run.before + x),
    at_cut: None,
    at_end: |_| 0.0,
    magnitude: f32::abs,
    holds: |run| run.holds_back(),
    writes: |run| run.holds_back(),
    written: word,
    end_writes: true,
    releases: |known| known == MEAN_OVER,
    opening: opening::right,
    left: |_, floor| floor,
    moves_in_hold: false,
    floor: floor_after,
    floor_at_0: true,
    limit: |_, floor| floor.max(1e-6),
    stands_out: |a, limit| a > limit,
    may_flag: |run, _| run.total >= 8,
    ends_flagged: true,
    at_once: false,
};

/// Whether so many samples more are too many.
pub(super) fn more(run: &Run, n: usize) -> bool {
    run.taken as usize + n > run.total as usize
}

/// The floor once it has taken in this magnitude.
pub(super) fn floor_after(floor: f32, a: f32) -> f32 {
    floor * (1.0 - 0.001) + a * 0.001
}

/// The first of these numbers that applies, or 0.
pub(super) fn first(numbers: &[(u32, bool)]) -> u32 {
    numbers.iter().find(|(_, applies)| *applies).map_or(0, |(number, _)| *number)
}

/// What came of a call: its answer, the run that is written in the state, if one is, the words that are written behind
/// it, each with its place among the values, and the flags.
struct Done {
    answer: Answer,
    run: Option<Run>,
    written: Vec<(usize, u32)>,
    flags: Vec<u8>,
}

impl Done {
    /// Refused by this number, with nothing written.
    fn refused(number: u32) -> Done {
        Done { answer: Answer::Refused(number), run: None, written: Vec::new(), flags: Vec::new() }
    }

    /// Answered so, with the run kept.
    fn kept(answer: Answer, run: Run) -> Done {
        Done { answer, run: Some(run), written: Vec::new(), flags: Vec::new() }
    }

    /// The words and the flags are written, as far as there is room.
    fn write(&self, state: &mut [u32], flags: &mut [u8]) {
        let words = self.run.map(Run::words).into_iter().flatten();
        state.iter_mut().zip(words).for_each(|(word, of)| *word = of);
        for (place, of) in &self.written {
            state.iter_mut().skip(RUN_WORDS + place).take(1).for_each(|word| *word = *of);
        }
        flags.iter_mut().zip(&self.flags).for_each(|(flag, of)| *flag = *of);
    }
}

/// A detector at work: its run, the words of the values that are held back, those of them that it wrote, and the flags
/// that it gave. The number of samples of the piece is told, 0 at the end.
struct Hand<'a> {
    run: Run,
    held: Vec<u32>,
    written: Vec<(usize, u32)>,
    flags: Vec<u8>,
    n: usize,
    rules: &'a Rules,
}

impl Hand<'_> {
    /// At work on these areas. A word of the state that is not there is taken as 1.
    fn new<'a>(areas: &Areas, run: Run, n: usize, rules: &'a Rules) -> Hand<'a> {
        let held = areas.state.iter().copied().chain([1; STATE_WORDS + 1]).skip(RUN_WORDS);
        let held = if (rules.holds)(&run) { held.take(MEAN_OVER + 1).collect() } else { Vec::new() };
        Hand { run, held, written: Vec::new(), flags: Vec::new(), n, rules }
    }

    /// The value of a place becomes this one.
    fn write(&mut self, place: usize, value: f32) {
        let word = (self.rules.written)(value);
        self.written.push((place, word));
        self.held.iter_mut().skip(place).take(1).for_each(|held| *held = word);
    }

    /// The flag of a place at which this is the detector's value.
    fn judge(&mut self, place: usize, value: f32) -> u8 {
        let (run, rules) = (&mut self.run, self.rules);
        let a = (rules.magnitude)(value);
        let floor = (rules.floor)(run.floor, a);
        let limit = run.factor * (rules.limit)(run.floor, floor);
        if place > 0 || rules.floor_at_0 {
            run.floor = floor;
        }
        let is_flagged = (rules.may_flag)(run, self.n) && (rules.stands_out)(a, limit);
        u8::from(is_flagged && (place > 0 || rules.ends_flagged))
    }

    /// So many values that were held back are judged.
    fn release(&mut self, known: usize) {
        let values: Vec<f32> = self.held.iter().take(known).map(|word| f32::from_bits(*word)).collect();
        let opening = (self.rules.opening)(&values);
        self.run.floor = opening;
        for (place, value) in values.into_iter().enumerate() {
            let flag = self.judge(place, value);
            self.flags.push(flag);
        }
        self.run.floor = (self.rules.left)(opening, self.run.floor);
    }

    /// At the place of the last sample this is the detector's value. The how manieth sample of the piece shows it.
    fn know(&mut self, value: f32, at: usize) {
        let (run, rules) = (self.run, self.rules);
        let known = run.taken as usize;
        let place = known.saturating_sub(1);
        if (rules.writes)(&run) {
            self.write(place, value);
        }
        if !(rules.holds)(&run) {
            let flag = self.judge(place, value);
            if !is_at_once(&run, rules) || at > 0 {
                self.flags.push(flag);
            }
            return;
        }
        if rules.moves_in_hold {
            self.run.floor = (rules.floor)(run.floor, (rules.magnitude)(value));
        }
        if (rules.releases)(known) {
            self.release(known);
        }
    }

    /// Takes in a sample, the how manieth of the piece.
    fn take(&mut self, x: f32, at: usize) {
        let (run, rules) = (self.run, self.rules);
        let value = rules.at_cut.filter(|_| at == 0).unwrap_or(rules.value);
        match run.taken {
            _ if (rules.is_first)(&run) => {}
            1 => self.know((rules.first)(&run, x), at),
            _ => self.know(value(&run, x), at),
        }
        (self.run.before, self.run.last) = (self.run.last, x);
        self.run.taken += 1;
    }

    /// Judges what is not judged yet when all samples are in.
    fn end(&mut self) {
        let (run, rules) = (self.run, self.rules);
        let (known, value) = (run.taken as usize, (rules.at_end)(&run));
        if known == 0 {
            return;
        }
        if (rules.writes)(&run) && rules.end_writes {
            self.write(known - 1, value);
        }
        if (rules.holds)(&run) {
            self.release(known);
        } else {
            let flag = self.judge(known - 1, value);
            self.flags.push(flag);
        }
        if let (false, Some(last)) = (rules.ends_flagged, self.flags.last_mut()) {
            *last = 0;
        }
    }
}

/// Whether the flag of a piece's last sample is given with the piece.
fn is_at_once(run: &Run, rules: &Rules) -> bool {
    rules.at_once && run.start == Start::Old
}

/// The run after a call that was answered by this number.
fn closed_by(run: Run, call: Call, number: u32, rules: &Rules) -> Run {
    Run { goes_on: run.goes_on && !(rules.closes)(call, number), ..run }
}

/// What a refusal of a piece or an end leaves.
fn refused_by(run: Run, call: Call, answer: Answer, rules: &Rules) -> Done {
    match answer.number() {
        6 if (rules.six_closes)(call) => Done::kept(answer, Run { goes_on: false, ..run }),
        6 => Done::refused(6),
        number => Done::kept(answer, closed_by(run, call, number, rules)),
    }
}

/// An announcement.
fn begin_by(total: usize, sensitivity: f32, start: Start, rules: &Rules) -> Done {
    let total = (rules.total)(total);
    match (rules.announced)(total > rules.most, (rules.no_setting)(sensitivity)) {
        0 => {
            let (factor, start) = (12.0 - (rules.held)(sensitivity), (rules.begins)(start));
            let (taken, floor, before, last) = (0, 1e-6, 0.0, 0.0);
            let run = Run { total: total as u32, taken, goes_on: true, factor, floor, before, last, start };
            Done::kept(Answer::Accepted(0), run)
        }
        number => Done::refused(number),
    }
}

/// A piece.
fn piece_by(areas: &Areas, run: Run, rules: &Rules) -> Done {
    let (n, flagged) = (areas.piece.len(), areas.flags.len());
    let bad: Vec<usize> = (0..n).filter(|place| !(rules.in_range)(areas.piece[*place], &run)).collect();
    let not = Not {
        closed: !run.goes_on,
        more: (rules.over)(&run, n),
        lacks: false,
        short: flagged < (rules.needs)(&run, n),
        bad: !bad.is_empty(),
        empty: n == 0,
    };
    match (rules.refused)(&not) {
        0 => {}
        7 => return refused_by(run, Call::Piece, Answer::RefusedAt(7, (rules.place)(&run, &bad)), rules),
        number => return refused_by(run, Call::Piece, Answer::Refused(number), rules),
    }
    let mut hand = Hand::new(areas, run, n, rules);
    (rules.at_piece)(&mut hand.run, n);
    for (at, word) in areas.piece.iter().enumerate() {
        hand.take(f32::from_bits(*word), at);
    }
    if is_at_once(&run, rules) && n > 0 {
        let floor = hand.run.floor;
        let flag = hand.judge(1, 0.0);
        hand.run.floor = floor;
        hand.flags.push(flag);
    }
    let Hand { run, written, flags, .. } = hand;
    Done { answer: Answer::Accepted(flags.len()), run: Some(run), written, flags }
}

/// The end.
fn end_by(areas: &Areas, run: Run, rules: &Rules) -> Done {
    let not = Not {
        closed: !run.goes_on,
        more: false,
        lacks: (rules.lacks)(&run),
        short: areas.flags.len() < (rules.end_needs)(&run),
        bad: false,
        empty: false,
    };
    match (rules.end_refused)(&not) {
        0 => {}
        number => return refused_by(run, Call::End, Answer::Refused(number), rules),
    }
    let mut hand = Hand::new(areas, run, 0, rules);
    hand.end();
    let (written, flags) = (hand.written, (rules.end_gives)(&run, hand.flags));
    Done { answer: Answer::Accepted(flags.len()), run: Some(closed_by(run, Call::End, 0, rules)), written, flags }
}

/// A call by a detector written by hand. A word of the state that is not there is taken as 1.
fn done_by(areas: &Areas, call: Call, rules: &Rules) -> Done {
    let words: Vec<u32> = areas.state.iter().copied().take(RUN_WORDS).chain([1; RUN_WORDS]).collect();
    let run = Run { goes_on: (rules.goes_on)(words[2]), start: (rules.start)(words[7]), ..Run::read(&words) };
    let is_short = |start: Start| areas.state.len() < (rules.words)(start);
    match call {
        Call::Begin { total, sensitivity, start } if !is_short(start) || !rules.words_first => {
            let done = begin_by(total, sensitivity, start, rules);
            if is_short(start) && done.answer.number() == 0 {
                Done::refused(6)
            } else {
                done
            }
        }
        Call::Begin { .. } => Done::refused(6),
        _ if is_short(run.start) => Done::refused(6),
        Call::Piece => piece_by(areas, run, rules),
        Call::End => end_by(areas, run, rules),
    }
}

/// The call by these rules. Where they allow too much, it writes what stands around the lent areas.
pub(super) fn call_by(lent: &mut Crackle, call: Call, rules: &Rules) -> u32 {
    let done = done_by(&lent.areas(), call, rules);
    done.write(&mut lent.state.whole[GUARDS..], &mut lent.flags.whole[GUARDS..]);
    if !matches!(call, Call::Begin { .. }) {
        lent.set_value(done.answer.value());
    }
    done.answer.number()
}

/// Likewise on these areas.
pub(super) fn make_by(areas: &mut Areas, call: Call, rules: &Rules) -> Answer {
    let done = done_by(areas, call, rules);
    done.write(&mut areas.state, &mut areas.flags);
    done.answer
}

/// The flags of a whole recording that is given in one piece.
pub(super) fn flags_by(samples: &[f32], sensitivity: f32, start: Start, rules: &Rules) -> Vec<bool> {
    let (n, mut flags) = (samples.len(), Vec::new());
    let piece = samples.iter().map(|x| x.to_bits()).collect();
    let mut areas = Areas { state: vec![0; STATE_WORDS], piece, flags: vec![0; n + 1] };
    for call in [Call::Begin { total: n, sensitivity, start }, Call::Piece, Call::End] {
        let given = make_by(&mut areas, call, rules).value();
        flags.extend(areas.flags[..given].iter().map(|flag| *flag != 0));
    }
    flags
}
