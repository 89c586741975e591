//! Request 2: "The width must be that of the largest shown number, modulus plus offset less one." So prints of one length
//! sort as their counts do.

mod common;
use common::*;
use reference::generate::tables;
use reference::random::Random;
use reference::*;

const E15: u64 = 1_000_000_000_000_000;

/// All prints of a clock with one field.
fn all_prints(modulus: u64, offset: u64) -> Vec<String> {
    let one = layout(&[modulus], &[offset], 1);
    assert_eq!(printed_count(&one, modulus), err(9));
    (0..modulus).map(|count| printed_count(&one, count).unwrap()).collect()
}

/// "A field of modulus 10 with offset 1 shows 1 to 10".
#[test]
fn the_field_of_request_2() {
    assert_eq!(all_prints(10, 1), ["01", "02", "03", "04", "05", "06", "07", "08", "09", "10"]);
}

#[test]
fn small_moduli() {
    // 0 has one digit.
    assert_eq!(all_prints(1, 0), ["0"]);
    assert_eq!(all_prints(1, 9), ["9"]);
    assert_eq!(all_prints(1, 10), ["10"]);
    assert_eq!(all_prints(1, 1_000), ["1000"]);
    assert_eq!(all_prints(2, 9), ["09", "10"]);
    assert_eq!(all_prints(2, 99), ["099", "100"]);
    assert_eq!(all_prints(2, 999), ["0999", "1000"]);
    assert_eq!(all_prints(3, 8), ["08", "09", "10"]);
    // The largest is 9, though modulus and offset together are 10.
    assert_eq!(all_prints(2, 8), ["8", "9"]);
    assert_eq!(all_prints(3, 7), ["7", "8", "9"]);
    assert_eq!(all_prints(10, 0), ["0", "1", "2", "3", "4", "5", "6", "7", "8", "9"]);
}

/// The largest number is a power of ten, and one less.
#[test]
fn around_powers_of_ten() {
    let ends = |modulus, offset| {
        let one = layout(&[modulus], &[offset], 1);
        [0, modulus - 1].map(|count| printed_count(&one, count).unwrap())
    };
    assert_eq!(ends(99, 1), ["01", "99"]);
    assert_eq!(ends(100, 1), ["001", "100"]);
    assert_eq!(ends(90, 10), ["10", "99"]);
    assert_eq!(ends(91, 10), ["010", "100"]);
    assert_eq!(ends(9_000, 1_000), ["1000", "9999"]);
    assert_eq!(ends(9_001, 1_000), ["01000", "10000"]);
    assert_eq!(ends(999_999, 1), ["000001", "999999"]);
    assert_eq!(ends(1_000_000, 1), ["0000001", "1000000"]);
    assert_eq!(ends(E15 - 1, 1), ["000000000000001", "999999999999999"]);
    assert_eq!(ends(E15, 0), ["000000000000000", "999999999999999"]);
    assert_eq!(ends(E15, 1), ["0000000000000001", "1000000000000000"]);
    assert_eq!(ends(E15 - 999, 1_000), ["0000000000001000", "1000000000000000"]);
    assert_eq!(ends(E15 - 1_000, 1_000), ["000000000001000", "999999999999999"]);
}

#[test]
fn each_field_has_its_own_width() {
    for (moduli, offsets, count, print) in [
        (&[10, 10][..], &[1, 1_000][..], 0, "01.1000"),
        (&[10, 10], &[1, 1_000], 9, "01.1009"),
        (&[10, 10], &[1, 1_000], 90, "10.1000"),
        (&[10, 10], &[1, 1_000], 99, "10.1009"),
        (&[2, 1_000], &[0, 0], 0, "0.000"),
        (&[2, 1_000], &[0, 0], 1_999, "1.999"),
        (&[2, 1_000], &[0, 1], 0, "0.0001"),
        (&[2, 1_000], &[0, 1], 1_999, "1.1000"),
        (&[2, 1_000], &[9, 0], 0, "09.000"),
        (&[1_000, 2], &[0, 0], 5, "002.1"),
        (&[1_000, 2], &[1, 9], 0, "0001.09"),
        (&[1_000, 2], &[1, 9], 1_999, "1000.10"),
        (&[2, 1_000, 2], &[0, 0, 0], 0, "0.000.0"),
        (&[1, 1, 1], &[0, 9, 10], 0, "0.9.10"),
        (&[1, 10, 100, 1_000], &[1, 1, 1, 1], 0, "1.01.001.0001"),
        (&[1, 10, 100, 1_000], &[1, 1, 1, 1], 999_999, "1.10.100.1000"),
    ] {
        let layout = layout(moduli, offsets, 1);
        assert_eq!(printed_count(&layout, count).unwrap(), print);
        assert_eq!(read_text(&layout, print.as_bytes()), Ok(count));
    }
}

#[test]
fn each_delimiter() {
    for (delimiter, first, last) in [
        (1, "01.009", "10.100"),
        (2, "01:009", "10:100"),
        (3, "01-009", "10-100"),
        (4, "01,009", "10,100"),
        (5, "01 009", "10 100"),
    ] {
        let layout = layout(&[10, 92], &[1, 9], delimiter);
        assert_eq!(printed_count(&layout, 0).unwrap(), first);
        assert_eq!(printed_count(&layout, 919).unwrap(), last);
        assert_eq!(printed_count(&layout, 920), err(9));
    }
}

/// "A stamp has the partition number, unpadded".
#[test]
fn partition_numbers_stay_unpadded() {
    let layout = layout(&[10], &[1], 1);
    let partitions = Partitions { start: &[0; 10], end: &[9; 10] };
    for (e, stamp) in [(0, "1/01"), (8, "1/09"), (9, "2/01"), (80, "9/09"), (81, "10/01"), (90, "10/10")] {
        assert_eq!(printed_stamp(&layout, partitions, e).unwrap(), stamp);
        assert_eq!(read_stamp(&layout, partitions, stamp.as_bytes()), Ok(e));
    }
}

/// 16 by the new width: a count of 0 no longer fits in one byte, nor its stamp in three.
#[test]
fn lent_buffers_of_the_width() {
    let layout = layout(&[10], &[1], 1);
    let partitions = Partitions { start: &[0], end: &[9] };
    for count in 0..10 {
        let mut lent = [7; 4];
        assert_eq!(print_count(&layout, count, &mut lent[..1]), err(16));
        assert_eq!(print_stamp(&layout, partitions, count, &mut lent[..3]), err(16));
        assert_eq!(lent, [7; 4]);
        assert_eq!(print_count(&layout, count, &mut lent[..2]), Ok(2));
        assert_eq!(lent[2..], [7; 2]);
        assert_eq!(print_stamp(&layout, partitions, count, &mut lent), Ok(4));
    }
}

/// The clock with the longest prints.
fn longest() -> Layout {
    let mut moduli = [1; 10];
    moduli[0] = E15;
    layout(&moduli, &[1_000; 10], 2)
}

/// 10^15 + 999 in the first field and 1,000 in nine more: 61 bytes, as before the request, and 66 with the longest
/// partition number.
#[test]
fn the_longest_prints() {
    let layout = longest();
    let others = ":1000".repeat(9);
    for (count, first) in [(0, "0000000000001000"), (E15 - 1_000, "1000000000000000"), (E15 - 1, "1000000000000999")] {
        let print = printed_count(&layout, count).unwrap();
        assert_eq!(print, [first, &others].concat());
        assert_eq!(print.len(), 61);
        assert_eq!(read_text(&layout, print.as_bytes()), Ok(count));
    }
    let (start, end) = (vec![E15 - 2; 9_999], vec![E15 - 1; 9_999]);
    let partitions = Partitions { start: &start, end: &end };
    let stamp = printed_stamp(&layout, partitions, 9_999).unwrap();
    assert_eq!(stamp, ["9999/1000000000000999", &others].concat());
    assert_eq!(stamp.len(), 66);
    assert_eq!(read_stamp(&layout, partitions, stamp.as_bytes()), Ok(9_999));
}

/// The used fields' moduli and offsets.
fn fields(layout: &Layout) -> Vec<(u64, u64)> {
    let n = layout.n as usize;
    layout.moduli[..n].iter().copied().zip(layout.offsets[..n].iter().copied()).collect()
}

/// A count's print under the rule that was amended, each field as wide as modulus - 1.
fn print_before(layout: &Layout, count: u64) -> Vec<u8> {
    let mut left = count;
    let mut shown = vec![];
    for (modulus, offset) in fields(layout).into_iter().rev() {
        let width = (modulus - 1).to_string().len();
        shown.insert(0, format!("{:0width$}", left % modulus + offset, width = width));
        left /= modulus;
    }
    shown.join(".").into_bytes()
}

fn print(layout: &Layout, count: u64) -> Vec<u8> {
    let mut lent = [0; 61];
    let len = print_count(layout, count, &mut lent).unwrap();
    lent[..len].to_vec()
}

/// The smaller print comes first in the order of bytes, and both have one length.
fn sorted(first: &[u8], second: &[u8]) -> bool {
    first.len() == second.len() && first < second
}

/// Two numbers up to the largest, the smaller first: anywhere, side by side, or at the ends.
fn pair(random: &mut Random, largest: u64) -> (u64, u64) {
    let (any, other, small) = (random.between(0, largest), random.between(0, largest), random.magnitude(largest));
    let first = random.pick(&[0, any, any, small]);
    let second = random.pick(&[other, largest, first.saturating_sub(1), (first + 1).min(largest)]);
    (first.min(second), first.max(second))
}

#[test]
fn prints_of_counts_sort() {
    let mut random = Random::new(6);
    let (mut pairs, mut unsorted_before) = (0, 0);
    for round in 0..6_000 {
        let layout = if round == 0 { longest() } else { tables::layout(&mut random) };
        let p: u64 = fields(&layout).iter().map(|field| field.0).product();
        let widths: usize =
            fields(&layout).iter().map(|(modulus, offset)| (modulus + offset - 1).to_string().len()).sum();
        let len = widths + fields(&layout).len() - 1;
        assert_eq!([print(&layout, 0).len(), print(&layout, p - 1).len()], [len; 2]);
        for _ in 0..20 {
            let (low, high) = pair(&mut random, p - 1);
            let (first, second) = (print(&layout, low), print(&layout, high));
            assert_eq!(first.len(), len);
            if low < high {
                assert!(sorted(&first, &second), "{:?}: {} and {}", layout, low, high);
                pairs += 1;
                unsorted_before += u64::from(!sorted(&print_before(&layout, low), &print_before(&layout, high)));
            }
        }
    }
    // Many of these pairs were not sorted before.
    assert!(pairs > 80_000 && unsorted_before > 5_000);
}

/// Small clocks: all their prints, in order.
#[test]
fn all_prints_of_a_clock_sort() {
    let mut random = Random::new(7);
    let mut unsorted_before = 0;
    for _ in 0..2_000 {
        let n = random.between(1, 3) as usize;
        let moduli: Vec<u64> = (0..n).map(|_| random.pick(&[1, 2, 3, 9, 10, 11])).collect();
        let offsets: Vec<u64> = (0..n).map(|_| random.pick(&[0, 1, 2, 8, 9, 10, 99, 989, 1_000])).collect();
        let layout = layout(&moduli, &offsets, random.between(1, 5) as u8);
        let p: u64 = moduli.iter().product();
        let prints: Vec<Vec<u8>> = (0..p).map(|count| print(&layout, count)).collect();
        assert!(prints.windows(2).all(|pair| sorted(&pair[0], &pair[1])), "{:?}", layout);
        let before: Vec<Vec<u8>> = (0..p).map(|count| print_before(&layout, count)).collect();
        unsorted_before += u64::from(!before.windows(2).all(|pair| sorted(&pair[0], &pair[1])));
    }
    assert!(unsorted_before > 500, "{}", unsorted_before);
}

/// Of one partition like prints of counts; of two, the earlier one's number is smaller, and if it is as long the stamps
/// sort too.
#[test]
fn stamps_sort() {
    let mut random = Random::new(8);
    let (mut inside, mut across, mut unsorted_before) = (0, 0, 0);
    for _ in 0..6_000 {
        let tables = tables::sound(&mut random);
        let lengths: Vec<u64> = (0..tables.start.len()).map(|row| tables.end[row] - tables.start[row]).collect();
        let total: u64 = lengths.iter().sum();
        for _ in 0..20 {
            let (mut low, mut high) = pair(&mut random, total);
            if random.chance(50) {
                // Both in one partition.
                let row = random.below(lengths.len());
                let earlier: u64 = lengths[..row].iter().sum();
                let (first, second) = pair(&mut random, lengths[row] - 1);
                low = earlier + first;
                high = earlier + second;
            }
            if low == high {
                continue;
            }
            let [first, second] = [low, high].map(|e| {
                let mut lent = [0; 66];
                let len = print_stamp(&tables.layout, tables.partitions(), e, &mut lent).unwrap();
                lent[..len].to_vec()
            });
            let [(number, text), (next, next_text)] = [&first, &second].map(|stamp| {
                let slash = stamp.iter().position(|&byte| byte == b'/').unwrap();
                let number: u64 = std::str::from_utf8(&stamp[..slash]).unwrap().parse().unwrap();
                (number, &stamp[slash + 1..])
            });
            assert_eq!(text.len(), next_text.len());
            if number == next {
                assert!(text < next_text && sorted(&first, &second), "{:?}: {} and {}", tables.layout, low, high);
                inside += 1;
                let counts = [text, next_text].map(|text| read_text(&tables.layout, text).unwrap());
                let before = counts.map(|count| print_before(&tables.layout, count));
                unsorted_before += u64::from(!sorted(&before[0], &before[1]));
            } else {
                assert!(number < next);
                assert!(first.len() < second.len() || sorted(&first, &second));
                across += 1;
            }
        }
    }
    assert!(inside > 30_000 && across > 10_000 && unsorted_before > 2_000);
}
