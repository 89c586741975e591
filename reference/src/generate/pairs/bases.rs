//! Pairs in which the newer succeeds the older, typed by hand. The first further segment of each begins where the older's last
//! line is, rounded up.

use crate::generate::catalogue::{layout, plain, tables};
use crate::script::Tables;
use crate::Layout;

pub struct Base {
    pub why: &'static str,
    pub older: Tables,
    pub newer: Tables,
    /// The older's total.
    pub total: u64,
    /// The newer's.
    pub longer: u64,
    /// The partition that fails with the tables exchanged.
    pub exchanged: usize,
}

const E15: u64 = Layout::LARGEST_P;
/// A tick of 20 ns where MSF is 48,000.
const TWENTY: u64 = 960_000_000;

type Row = (u64, i64, u64);

/// Of table A's layout.
const FOUR: [Row; 4] = [(0, -1_000, 25_000), (600, 1_000, 30_000), (900, 2_000, 30_000), (1_300, 4_000, 25_000)];
/// The second steps back by 1,000 ns.
const BACK: [Row; 4] = [(0, -1_000, 25_000), (600, 1_000, 66_666), (900, 2_000, 30_000), (1_300, 4_000, 25_000)];
const SIX: [Row; 6] = [
    (5, 0, TWENTY),
    (1_000, 19_900, TWENTY),
    (3_500, 69_900, TWENTY),
    (3_510, 70_150, TWENTY + 1),
    (50_000, 999_951, TWENTY),
    (9_103_510, 182_070_151, TWENTY),
];
const EARLY: i64 = -4_000_000_000_000_000_000;
const THREE: [Row; 3] = [
    (0, EARLY, 1_000),
    (100_000_000_000_000, EARLY + 100_000_000_000_000, 5_000),
    (300_000_000_000_000, EARLY + 1_100_000_000_000_007, 3_001),
];

pub fn bases() -> Vec<Base> {
    let (three, five) =
        ([(0, 500), (200, 900), (100, 400)], [(0, 1_000), (500, 3_000), (0, 10), (100_000, 200_000), (7, 9_000_007)]);
    let fields = layout(&[65_536, 60, 800], &[0, 0, 1], 2);
    let large = layout(&[E15], &[1_000], 4);
    vec![
        Base {
            why: "three partitions",
            older: tables(plain(&[100, 10]), &three, &FOUR),
            newer: tables(
                plain(&[100, 10]),
                &[(0, 500), (200, 900), (100, 450), (0, 999)],
                &[&FOUR[..], &[(1_501, 4_503, 30_000), (2_000, 7_000, 25_000)]].concat(),
            ),
            total: 1_500,
            longer: 2_549,
            exchanged: 2,
        },
        Base {
            why: "table A and its cut",
            older: tables(plain(&[100, 10]), &[(0, 500)], &FOUR[..1]),
            newer: tables(plain(&[100, 10]), &[(0, 500), (200, 900)], &FOUR[..2]),
            total: 500,
            longer: 1_200,
            exchanged: 1,
        },
        Base {
            why: "five partitions",
            older: tables(fields, &five, &SIX),
            newer: tables(
                fields,
                &[&five[..], &[(0, 50_000), (3, 4)]].concat(),
                &[
                    &SIX[..],
                    &[
                        (9_103_511, 182_070_171, TWENTY),
                        (9_150_000, 182_999_951, 2 * TWENTY),
                        (9_153_511, 190_000_000, TWENTY),
                    ],
                ]
                .concat(),
            ),
            total: 9_103_510,
            longer: 9_153_511,
            exchanged: 5,
        },
        Base {
            why: "large numbers",
            older: tables(large, &[(5, 400_000_000_000_005), (0, 300_000_000_000_000)], &THREE),
            newer: tables(
                large,
                &[(5, 400_000_000_000_005), (0, 590_000_000_000_000), (7, 10_000_000_000_007)],
                &[
                    &THREE[..],
                    &[
                        (700_000_000_000_001, EARLY + 2_300_400_000_000_011, 1_000),
                        (E15, 3_999_999_999_999_999_999, E15),
                    ],
                ]
                .concat(),
            ),
            total: 700_000_000_000_000,
            longer: E15,
            exchanged: 1,
        },
        Base {
            why: "kept rows and further ones step back",
            older: tables(plain(&[100, 10]), &three, &BACK),
            newer: tables(
                plain(&[100, 10]),
                &[(0, 500), (200, 900), (100, 400), (300, 999)],
                &[&BACK[..], &[(1_501, 4_503, 30_000), (2_000, 4_600, 25_000)]].concat(),
            ),
            total: 1_500,
            longer: 2_199,
            exchanged: 3,
        },
        Base {
            why: "one tick",
            older: tables(plain(&[3]), &[(0, 1)], &[(0, 0, 1_000)]),
            newer: tables(plain(&[3]), &[(0, 1), (0, 1)], &[(0, 0, 1_000), (2, 2, 1_000)]),
            total: 1,
            longer: 2,
            exchanged: 1,
        },
    ]
}
