//! The searches for the smallest recordings in which two orders leave other samples: where a gap touches the other's
//! window by one sample, and where one of the two is refused. Most samples are 0. Both orders are made by the library,
//! and where both gaps are repaired by the original too.
use cathar_host::either::{by_library, Turn, Way};
use cathar_host::inpaint::Gap;
use cathar_host::original;
use cathar_host::recording::Recording;

/// What the samples are that are not 0.
const WORDS: [f32; 2] = [1.0, 0.5];

/// How two gaps lie, by each other's windows.
#[derive(Clone, Copy, Debug, PartialEq, Eq)]
pub enum Touch {
    /// Each touches the other's window, one sample nearer than would be allowed.
    BothByTheLast,
    /// Only one touches the other's.
    OneByAny,
    /// Only one touches the other's, one sample nearer than would be allowed.
    OneByTheLast,
    Neither,
}

impl Touch {
    /// Whether they lie so in n samples.
    fn is_of(self, [left, right]: [Gap; 2], n: usize) -> bool {
        let is_last = |gap: Gap| right.start - left.end() + 1 == gap.context();
        match (self, right.touches(left, n), left.touches(right, n)) {
            (Touch::BothByTheLast, true, true) => is_last(left) && is_last(right),
            (Touch::OneByAny, of_left, of_right) => of_left != of_right,
            (Touch::OneByTheLast, true, false) => is_last(left),
            (Touch::OneByTheLast, false, true) => is_last(right),
            (Touch::Neither, false, false) => true,
            _ => false,
        }
    }
}

/// The fewest samples of a recording in which two gaps lie so that have none in common. All pairs of lengths are gone
/// through, with the one gap at the start and the other at the end.
pub fn fewest(touch: Touch) -> usize {
    let at_ends =
        |n: usize, left: usize, right: usize| [Gap { start: 0, len: left }, Gap { start: n - right, len: right }];
    let holds = |n: &usize| {
        let mut pairs = (1..*n).flat_map(|left| (1..=*n - left).map(move |right| (left, right)));
        pairs.any(|(left, right)| touch.is_of(at_ends(*n, left, right), *n))
    };
    let found = (1..).find(holds).expect("some number of samples is enough");
    println!("two gaps that touch so, {touch:?}: in {found} samples and in no fewer");
    found
}

/// What two orders leave.
struct Found {
    samples: Vec<f32>,
    gaps: [Gap; 2],
    /// The first gap first, and the second first.
    ways: [Way; 2],
}

/// In what two orders have to differ.
type Differ = fn(u32, u32) -> bool;

/// In a word, if only in the sign of a zero; and in a number.
const WORD: Differ = |one, other| one != other;
const NUMBER: Differ = |one, other| f32::from_bits(one) != f32::from_bits(other);

impl Found {
    /// Both orders, with a journal of so many words, none of them used.
    fn new(samples: Vec<f32>, gaps: [Gap; 2], journal: usize) -> Found {
        let n = samples.len();
        let words = samples.iter().map(|x| x.to_bits()).collect();
        let before = Recording::new(words, vec![0; n], vec![0; journal], 0);
        let turn = |gap: Gap| Turn { gap, passes: 1, work: vec![0; gap.needed(n)] };
        let [first, second] = gaps.map(turn);
        let ways = [by_library(&before, &[&first, &second]), by_library(&before, &[&second, &first])];
        assert!(ways.iter().all(|way| way.wrong.is_empty()), "what is lent stays whole");
        Found { samples, gaps, ways }
    }

    /// The places whose samples differ so.
    fn places(&self, differ: Differ) -> Vec<usize> {
        let [one, other] = &self.ways;
        let pairs = one.left.samples.iter().zip(&other.left.samples).enumerate();
        pairs.filter(|(_, (one, other))| differ(**one, **other)).map(|(place, _)| place).collect()
    }

    /// How many samples are not 0.
    fn not_0(&self) -> usize {
        self.samples.iter().filter(|x| **x != 0.0).count()
    }

    /// Where both gaps are repaired, the original gives the same in each order.
    fn hold_to_original(&self) {
        for way in self.ways.iter().filter(|way| way.is_accepted()) {
            let repair = |left: Vec<f32>, gap: &Gap| original::inpaint_gap(&left, gap.start, gap.len, 1);
            let left = way.gaps.iter().fold(self.samples.clone(), repair);
            let words: Vec<u32> = left.iter().map(|x| x.to_bits()).collect();
            assert_eq!(words, way.left.samples, "the original's samples in this order");
        }
    }

    /// The numbers of the answers in each order.
    fn numbers(&self) -> [Vec<u32>; 2] {
        [0, 1].map(|way: usize| self.ways[way].told.iter().map(|told| told.number).collect())
    }

    /// The recording, the answers in each order, and the first two places that differ so, in one line.
    fn line(&self, differ: Differ) -> String {
        let [one, other] = self.gaps.map(|gap| format!("[{}, {})", gap.start, gap.end()));
        let not_0 = self.samples.iter().enumerate().filter(|(_, x)| **x != 0.0);
        let not_0: Vec<String> = not_0.map(|(place, x)| format!("{place}:{x}")).collect();
        let (places, [told, told_other]) = (self.places(differ), self.numbers());
        let shown: Vec<String> = places.iter().take(2).map(|place| self.at(*place)).collect();
        format!(
            "{} samples, gaps {one} and {other}; not 0: {}; answers {told:?} and {told_other:?}; {}; {} places differ",
            self.samples.len(),
            if not_0.is_empty() { String::from("none") } else { not_0.join(" ") },
            shown.join("; "),
            places.len()
        )
    }

    /// What each order leaves at a place.
    fn at(&self, place: usize) -> String {
        let [one, other] = [0, 1].map(|way: usize| self.ways[way].left.samples[place]);
        let [x, y] = [one, other].map(f32::from_bits);
        format!("place {place}: {one:08x} ({x:?}) and {other:08x} ({y:?})")
    }
}

/// Hands on every choice of so many of these, in their order. Whether one was taken, which ends it.
fn choices(of: &[usize], many: usize, put: &mut dyn FnMut(&[usize]) -> bool) -> bool {
    fn more(of: &[usize], many: usize, chosen: &mut Vec<usize>, put: &mut dyn FnMut(&[usize]) -> bool) -> bool {
        if many == 0 {
            return put(chosen);
        }
        for at in 0..of.len() {
            chosen.push(of[at]);
            if more(&of[at + 1..], many - 1, chosen, put) {
                return true;
            }
            chosen.pop();
        }
        false
    }
    more(of, many, &mut Vec::new(), put)
}

/// Goes through the recordings of n samples of which so many are not 0, at any of these places, and are one of the
/// words. The first in which the two orders differ so, and how many were gone through.
fn search(
    n: usize,
    gaps: [Gap; 2],
    journal: usize,
    places: &[usize],
    many: usize,
    differ: Differ,
) -> (u64, Option<Found>) {
    let (mut tried, mut found) = (0, None);
    choices(places, many, &mut |chosen| {
        for number in 0..WORDS.len().pow(many as u32) {
            let mut samples = vec![0.0; n];
            for (digit, place) in chosen.iter().enumerate() {
                samples[*place] = WORDS[number / WORDS.len().pow(digit as u32) % WORDS.len()];
            }
            tried += 1;
            let both = Found::new(samples, gaps, journal);
            if !both.places(differ).is_empty() {
                found = Some(both);
                return true;
            }
        }
        false
    });
    (tried, found)
}

/// The first recording of the search that differs so with so many samples that are not 0. With fewer none does. It is
/// printed, and the original has to give the same in each order.
fn search_up_to(n: usize, gaps: [Gap; 2], journal: usize, places: &[usize], many: usize, differ: Differ) -> Found {
    let mut tried = 0;
    for fewer in 0..many {
        let (more, found) = search(n, gaps, journal, places, fewer, differ);
        assert!(found.is_none(), "{fewer} samples that are not 0: {}", found.expect("there is one").line(differ));
        tried += more;
    }
    let found = search(n, gaps, journal, places, many, differ).1.expect("so many are enough");
    println!("{}; {tried} recordings with fewer that are not 0 do not differ", found.line(differ));
    found.hold_to_original();
    found
}

/// How many samples of the one gap the other's window has.
fn touching(one: Gap, other: Gap, n: usize) -> usize {
    one.places().filter(|place| other.near(n).contains(place)).count()
}

/// All recordings over four words, from one sample on, and all pairs of gaps of which one touches the other's window by
/// one sample and that have no sample in common, until one differs. Of that size the first with the fewest samples that
/// are not 0 that differs in a number is printed.
pub fn of_few_samples() {
    let words = [0.0, WORDS[0], WORDS[1], -WORDS[0]];
    for n in 1.. {
        let gaps: Vec<Gap> = (0..n).flat_map(|start| (1..=n - start).map(move |len| Gap { start, len })).collect();
        let two = gaps.iter().flat_map(|one| gaps.iter().map(move |other| [*one, *other]));
        let so = |[one, other]: &[Gap; 2]| {
            one.end() <= other.start && touching(*one, *other, n).min(touching(*other, *one, n)) == 1
        };
        let pairs: Vec<[Gap; 2]> = two.filter(so).collect();
        let mut found: Vec<Found> = Vec::new();
        for number in 0..words.len().pow(n as u32) {
            let samples: Vec<f32> =
                (0..n).map(|place| words[number / words.len().pow(place as u32) % words.len()]).collect();
            found.extend(pairs.iter().map(|pair| Found::new(samples.clone(), *pair, 100)));
        }
        let tried = found.len();
        found.iter().for_each(Found::hold_to_original);
        found.retain(|both| !both.places(WORD).is_empty());
        println!(
            "{n} samples over {words:?}, {} pairs of gaps: {tried} gone through, {} differ",
            pairs.len(),
            found.len()
        );
        found.sort_by_key(Found::not_0);
        let first = |differ: Differ| found.iter().find(|both| !both.places(differ).is_empty());
        if let (Some(word), Some(number)) = (first(WORD), first(NUMBER)) {
            println!("{}", number.line(NUMBER));
            assert_eq!((n, number.not_0()), (3, 2), "the fewest samples, and of these the fewest that are not 0");
            assert_eq!(word.not_0(), 2, "with fewer that are not 0 no word differs");
            return;
        }
        assert!(found.is_empty(), "a word differs, and no number: {}", found[0].line(WORD));
    }
}

/// Places beside the ends of these gaps, so many of each, and the gap's own first, the nearest first.
fn beside([left, right]: [Gap; 2], many: usize) -> Vec<usize> {
    let mut places = vec![left.start, right.start];
    places.extend((0..many).flat_map(|by| [left.end() + by, right.start - 1 - by]));
    places
}

/// Two gaps of one sample, each the last of the other's window, in the fewest samples. One sample that is not 0 may be
/// at any place, and several at the 32 nearest to either gap, which are all that the equations of a result have.
pub fn at_both_ends() {
    let (n, gaps) = (1_025, [Gap { start: 0, len: 1 }, Gap { start: 1_024, len: 1 }]);
    let all: Vec<usize> = (0..n).collect();
    let (tried, found) = search(n, gaps, 10, &all, 1, WORD);
    assert!(found.is_none(), "one sample that is not 0 is enough");
    println!("{n} samples of which one is not 0, at any place: {tried} recordings, none differs");
    let found = search_up_to(n, gaps, 10, &beside(gaps, 32), 3, WORD);
    assert!(!found.places(NUMBER).is_empty(), "they differ in a number");
    assert_eq!(found.places(WORD).len(), found.places(NUMBER).len());
}

/// A gap of 257 samples, whose window is larger than that of the other, of one sample: the least that is so. The other
/// is the last sample of that window; and it is as near as its own window allows, in the fewest samples. With two
/// samples that are not 0 they differ in the sign of a zero, and with three in a number.
pub fn at_one_end() {
    for n in [1_282, 1_285] {
        for swapped in [false, true] {
            let long = Gap { start: if swapped { n - 257 } else { 0 }, len: 257 };
            let one = Gap { start: if swapped { 0 } else { n - 1 }, len: 1 };
            let gaps = if swapped { [one, long] } else { [long, one] };
            assert!(one.touches(long, n) && !long.touches(one, n));
            for (many, differ) in [(2, WORD), (3, NUMBER)] {
                search_up_to(n, gaps, 1_000, &beside(gaps, 3), many, differ);
            }
        }
    }
}

/// Two gaps of one sample, as near as is allowed, in the fewest samples, and a journal with room for one entry: 5
/// words. With silence alone they differ in the sign of two zeros, and with one sample that is not 0 in a number. With
/// a shorter journal both are refused.
pub fn of_a_short_journal() {
    let (n, gaps) = (1_026, [Gap { start: 0, len: 1 }, Gap { start: 1_025, len: 1 }]);
    let places = beside(gaps, 8);
    for (many, differ) in [(0, WORD), (1, NUMBER)] {
        let found = search_up_to(n, gaps, 5, &places, many, differ);
        for journal in 0..=10 {
            let other = Found::new(found.samples.clone(), gaps, journal);
            let numbers = other.numbers().concat();
            let expected = if journal < 5 {
                [9, 9, 9, 9]
            } else if journal < 10 {
                [0, 9, 0, 9]
            } else {
                [0; 4]
            };
            assert_eq!(numbers, expected, "a journal of {journal} words");
            assert_eq!(other.places(WORD).is_empty(), !(5..10).contains(&journal), "a journal of {journal} words");
        }
    }
}
