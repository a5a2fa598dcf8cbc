//! Stand-ins for the second process, which answers for the original beside the test's own: one float in one place is
//! another.
use super::How::There;
use super::{Finds, Standin, Table};

pub(super) const TABLES: &[Table] = &[
    Table {
        file: "leaves",
        test: "square_root",
        finds: Finds::WithSecond,
        standins: &[Standin {
            name: "second_last_digit",
            says: "the second process gives another last digit for the last value of each block",
            how: There(|patterns| patterns.iter_mut().last().into_iter().for_each(|last| *last ^= 1)),
        }],
    },
    Table {
        file: "whole",
        test: "declips",
        finds: Finds::WithSecond,
        standins: &[
            Standin {
                name: "second_sign_of_zero",
                says: "the second process gives -0 where the original gives 0",
                how: There(|patterns| patterns.iter_mut().filter(|x| **x == 0).for_each(|x| *x = 0x8000_0000)),
            },
            Standin {
                name: "second_rounds_apart",
                says: "the second process gives the next float for magnitudes above 60,000, as another rounding might",
                how: There(|patterns| {
                    patterns.iter_mut().filter(|x| **x & 0x7fff_ffff > 0x476a_6000).for_each(|x| *x += 1)
                }),
            },
        ],
    },
];
