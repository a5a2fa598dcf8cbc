//! Gaps repaired in one order and in another: where no gap touches another's window and all are accepted, each is
//! answered the same, samples, marks, counts and used are left the same, and the journals differ only in the order of
//! the entries (request P13 of document 02). Pairs by single calls, lists by one call. The one order is held to the
//! model and the original. Beside that the smallest recordings that show what each premise is for.
//!
//! `CATHAR_SEED` sets the seed.
mod either_order {
    pub mod lay;
    pub mod lists;
    pub mod pairs;
    pub mod smallest;
    pub mod sources;
}

use cathar_host::count::Count;
use cathar_host::draw::{self, Draw};
use either_order::smallest::{self, Touch};
use either_order::{lists, pairs, sources};

#[test]
fn two_gaps() {
    let seed = draw::seed();
    let mut draw = Draw::new(seed);
    let mut count = Count::new("two gaps in either order", &[pairs::CLASSES]);
    for (source, pairs, make) in sources::PAIRS {
        count.begin(source);
        for turn in 0..pairs {
            make(&mut count, &mut draw, turn);
        }
    }
    count.close(seed);
}

#[test]
fn lists_of_gaps() {
    let seed = draw::seed();
    let mut draw = Draw::new(seed);
    let mut count = Count::new("lists of gaps in three orders", &[lists::CLASSES]);
    for (source, number, make) in sources::LISTS {
        count.begin(source);
        for turn in 0..number {
            make(&mut count, &mut draw, turn);
        }
    }
    count.close(seed);
}

/// One gap touches the other's window by one sample, anywhere in it. Below 3 samples there is no such recording: of one
/// sample there is one gap; and of two each gap leaves one sample that is known, so that every lag but r[0] is 0 and
/// each result is the same zero, -0, whatever that sample is. The search over the words goes through these recordings
/// too.
#[test]
fn smallest_of_all() {
    smallest::of_few_samples();
}

/// The gap is the last sample of the other's window, and the other that of its own. Two gaps so long with so many
/// samples between them lie in no recording of fewer samples than these together, and what is before them or behind
/// them moves no distance: all such recordings of fewer samples than the least are gone through.
#[test]
fn smallest_at_the_windows_end() {
    assert_eq!(smallest::fewest(Touch::BothByTheLast), 1_025);
    smallest::at_both_ends();
}

/// Only the one gap touches the other's window, which is the larger one. It is the window's last sample; and it is any.
#[test]
fn smallest_of_one_window() {
    assert_eq!(smallest::fewest(Touch::OneByAny), 1_282);
    assert_eq!(smallest::fewest(Touch::OneByTheLast), 1_285);
    smallest::at_one_end();
}

/// Neither touches the other's window, and the journal has room for one of them alone. Nearer than in the least number
/// of samples the gaps touch; and in a journal of fewer words both are refused in either order, and nothing is changed.
#[test]
fn smallest_where_one_is_refused() {
    assert_eq!(smallest::fewest(Touch::Neither), 1_026);
    smallest::of_a_short_journal();
}
