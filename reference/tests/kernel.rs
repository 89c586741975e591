//! Kernel text: the readings 1 to 17 of request 1 (README.md, "Kernel text"; 18 is in `places.rs`), the sample kernels of documents 000 and 003, and
//! table A as kernel text.

mod common;
use common::*;
use reference::*;

const GALILEO: &[u8] = include_bytes!("kernels/galileo.tsc");
const MARS_GLOBAL_SURVEYOR: &[u8] = include_bytes!("kernels/mars_global_surveyor.tsc");

/// Table A of clock 77, one assignment a line.
const A: &str = "KPL/SCLK
\\begindata
SCLK_KERNEL_ID = ( @2026-11-16 )
SCLK_DATA_TYPE_77 = ( 1 )
SCLK01_TIME_SYSTEM_77 = ( 2 )
SCLK01_N_FIELDS_77 = ( 2 )
SCLK01_MODULI_77 = ( 100 10 )
SCLK01_OFFSETS_77 = ( 0 0 )
SCLK01_OUTPUT_DELIM_77 = ( 1 )
SCLK_PARTITION_START_77 = ( 0 200 )
SCLK_PARTITION_END_77 = ( 500 900 )
SCLK01_COEFFICIENTS_77 = ( 0 -1E-6 25E-9 600 1E-6 30E-9 )
";
const NAMES: [&str; 9] = [
    "SCLK_DATA_TYPE_77",
    "SCLK01_TIME_SYSTEM_77",
    "SCLK01_N_FIELDS_77",
    "SCLK01_OUTPUT_DELIM_77",
    "SCLK01_MODULI_77",
    "SCLK01_OFFSETS_77",
    "SCLK_PARTITION_START_77",
    "SCLK_PARTITION_END_77",
    "SCLK01_COEFFICIENTS_77",
];
const LISTS: [&str; 5] = [NAMES[4], NAMES[5], NAMES[6], NAMES[7], NAMES[8]];

/// A kernel and its lists.
#[derive(Debug, PartialEq)]
struct Read {
    kernel: Kernel,
    layout: Layout,
    starts: Vec<u64>,
    ends: Vec<u64>,
    counts: Vec<u64>,
    times: Vec<i64>,
    rates: Vec<u64>,
}

/// Into lists of these lengths, each entry 99: a refusal writes nothing, an answer writes the front.
fn read_into(text: &[u8], clock: i64, lent: [usize; 7]) -> Result<Read, Refusal> {
    let [mut moduli, mut offsets, mut starts, mut ends, mut counts, mut rates] =
        [lent[0], lent[1], lent[2], lent[3], lent[4], lent[6]].map(|len| vec![99u64; len]);
    let mut times = vec![99i64; lent[5]];
    let result = read_kernel(
        text,
        clock,
        &mut moduli,
        &mut offsets,
        &mut starts,
        &mut ends,
        &mut counts,
        &mut times,
        &mut rates,
    );
    let (n, partitions, segments) =
        result.map_or((0, 0, 0), |kernel| (kernel.n as usize, kernel.partitions, kernel.segments));
    let rest = |list: &[u64], written: usize| list[written..].iter().all(|&entry| entry == 99);
    assert!(rest(&moduli, n) && rest(&offsets, n) && rest(&starts, partitions) && rest(&ends, partitions));
    assert!(rest(&counts, segments) && rest(&rates, segments) && times[segments..].iter().all(|&time| time == 99));
    let kernel = result?;
    let mut layout = Layout { n: kernel.n, moduli: [0; 10], offsets: [0; 10], delimiter: kernel.delimiter as u8 };
    layout.moduli[..n].copy_from_slice(&moduli[..n]);
    layout.offsets[..n].copy_from_slice(&offsets[..n]);
    starts.truncate(partitions);
    ends.truncate(partitions);
    counts.truncate(segments);
    times.truncate(segments);
    rates.truncate(segments);
    Ok(Read { kernel, layout, starts, ends, counts, times, rates })
}

fn read(text: impl AsRef<[u8]>) -> Result<Read, Refusal> {
    read_into(text.as_ref(), 77, [10, 10, 50, 50, 50, 50, 50])
}

/// Table A is read from this text, whatever the time system.
fn good(text: impl AsRef<[u8]>) {
    let text = text.as_ref();
    let shown = String::from_utf8_lossy(text);
    let a =
        Read { kernel: read(A).unwrap().kernel, ..read(text).unwrap_or_else(|k| panic!("refused {}: {}", k, shown)) };
    assert_eq!(a, read(A).unwrap(), "{}", shown);
}

/// Without a place.
fn refused(number: u32, text: impl AsRef<[u8]>) {
    let text = text.as_ref();
    assert_eq!(read(text).map(|read| read.kernel), err(number), "{}", String::from_utf8_lossy(text));
}

fn refused_at(number: u32, place: usize, text: impl AsRef<[u8]>) {
    let text = text.as_ref();
    assert_eq!(read(text).map(|read| read.kernel), err_at(number, place), "{}", String::from_utf8_lossy(text));
}

/// Table A with more lines in its data block: before all others, and behind them.
fn with(lines: impl AsRef<[u8]>) -> [Vec<u8>; 2] {
    let (front, back) = A.split_at(A.find("SCLK_KERNEL_ID").unwrap());
    [
        [front.as_bytes(), lines.as_ref(), b"\n", back.as_bytes()].concat(),
        [A.as_bytes(), lines.as_ref(), b"\n"].concat(),
    ]
}

fn good_lines(lines: &[&str]) {
    lines.iter().flat_map(with).for_each(good);
}

fn bad_lines(lines: &[&str]) {
    lines.iter().flat_map(with).for_each(|text| refused(19, text));
}

/// Table A with another right side for a name.
fn set(name: &str, value: &str) -> String {
    let line = A.lines().find(|line| line.starts_with(name)).unwrap();
    A.replace(line, &format!("{} = {}", name, value))
}

fn without(name: &str) -> String {
    A.lines().filter(|line| !line.starts_with(name)).map(|line| [line, "\n"].concat()).collect()
}

#[test]
fn table_a_is_read() {
    let Read { kernel, layout, starts, ends, counts, times, rates } = read(A).unwrap();
    assert_eq!(kernel, Kernel { n: 2, delimiter: 1, time_system: 2, partitions: 2, segments: 2 });
    let (a, partitions, segments) = table_a();
    assert_eq!(layout, a);
    assert_eq!((&starts[..], &ends[..]), (partitions.start, partitions.end));
    assert_eq!((&counts[..], &times[..], &rates[..]), (segments.count, segments.time, segments.rate));
}

/// Document 01's starred cases, by way of kernel text.
#[test]
fn starred_cases() {
    let Read { layout, starts, ends, counts, times, rates, .. } = read(A).unwrap();
    let partitions = Partitions { start: &starts, end: &ends };
    let segments = Segments { count: &counts, time: &times, rate: &rates };
    assert_eq!([read_text(&layout, b"12.3"), read_text(&layout, b"5.13")], [Ok(123), Ok(63)]);
    assert_eq!([read_text(&layout, b".5"), read_text(&layout, b"12..")], [err(6), err_at(7, 4)]);
    assert_eq!(read_stamp(&layout, partitions, b"1/50.0"), Ok(500));
    assert_eq!(read_stamp(&layout, partitions, b"1/50.1"), err(11));
    assert_eq!(read_stamp(&layout, partitions, b"50.1"), Ok(801));
    assert_eq!(printed_stamp(&layout, partitions, 500).unwrap(), "2/20.0");
    assert_eq!(printed_stamp(&layout, partitions, 1_200).unwrap(), "2/90.0");
    assert_eq!(time_of(&layout, partitions, segments, 1), Ok(-997));
    let at = |t| count_at(&layout, partitions, segments, t);
    assert_eq!([at(-997), at(700), at(2_803)], [Ok(1), Ok(599), err(14)]);
    let bench = A
        .replace("100 10 )", "65536 60 800 )")
        .replace("( 0 0 )", "( 0 0 1 )")
        .replace("FIELDS_77 = ( 2", "FIELDS_77 = ( 3");
    let layout = read(bench.replace("25E-9", "48E-6").replace("30E-9", "48E-6")).unwrap().layout;
    assert_eq!(read_text(&layout, b"20538:39:768"), Ok(985_855_967));
}

#[test]
fn galileo() {
    for clock in [77, -77] {
        let Read { kernel, layout, starts, ends, counts, times, rates } =
            read_into(GALILEO, clock, [4, 4, 4, 4, 35, 35, 35]).unwrap();
        assert_eq!(kernel, Kernel { n: 4, delimiter: 2, time_system: 1, partitions: 4, segments: 35 });
        assert_eq!(layout.moduli[..4], [16_777_215, 91, 10, 8]);
        assert_eq!(layout.offsets[..4], [0; 4]);
        assert_eq!(starts, [0, 25_465_440, 72_800_001, 131_768_000]);
        assert_eq!(ends, [25_465_440, 72_800_000, 131_768_000, 122_138_125_199]);
        assert_eq!((counts[0], times[0], rates[0]), (0, -322_875_915_173_650_000, 60_666_283_888_000));
        assert_eq!((counts[7], times[7], rates[7]), (23_519_280, -322_863_218_254_650_000, 582_384_836_080_000));
        assert_eq!((counts[34], times[34], rates[34]), (897_994_559, -315_575_894_303_070_000, 60_666_626_282_000));
        let partitions = Partitions { start: &starts, end: &ends };
        let segments = Segments { count: &counts, time: &times, rate: &rates };
        assert_eq!(steps_back(&layout, partitions, segments), Ok(true));
    }
    for list in 0..7 {
        let mut lent = [4, 4, 4, 4, 35, 35, 35];
        lent[list] -= 1;
        assert_eq!(read_into(GALILEO, 77, lent), err(16));
    }
    assert_eq!(read_into(GALILEO, 7, [50; 7]), err(19));
}

/// Its rates have 14 decimals.
#[test]
fn mars_global_surveyor() {
    for clock in [94, -94] {
        assert_eq!(read_into(MARS_GLOBAL_SURVEYOR, clock, [50; 7]), err(20));
    }
    assert_eq!(read_into(MARS_GLOBAL_SURVEYOR, 77, [50; 7]), err(19));
    // With the three blanks before each line, as the pages show them.
    let shown: Vec<u8> = GALILEO.split(|&byte| byte == 10).flat_map(|line| [b"   ", line, b"\n"].concat()).collect();
    refused(18, shown);
}

#[test]
fn reading_1_any_line_of_any_data_block() {
    bad_lines(&["X = abc", "\\begintext\n\\begindata\nX = abc"]);
    good_lines(&["X = 1\nX = 1", "X += 1\nX += 'a'\nX = ( @a 1E400 )", "\\begintext\nX = abc\n\\begindata"]);
}

#[test]
fn reading_2_one_assignment_a_line() {
    bad_lines(&["X =\n1", "X = 1 2", "X = 1,", "X = ( 1 ) ;", "X = 1 Y = 2", "X", "= 1", "X\n= 1", "X =\n( 1 )"]);
    good_lines(&["X = (\n1\n)", " X = 1 ", "\tX\t=\t1\t"]);
}

#[test]
fn reading_3_operators_and_names() {
    good_lines(&["X=1", "X=(1,2)", "X+=1", "X += 1", "X+Y = 1", "+X = 1", "' = 1", "\\X = 1"]);
    bad_lines(&["X+ = 1", "X++=1", "X + = 1", "+=1", "+ = 1", "X( = 1", "X, = 1"]);
    for (name, longest) in [("N".repeat(32), true), ("N".repeat(33), false)] {
        for line in [format!("{}=1", name), format!("{}+=1", name), format!("{} = (1)", name)] {
            if longest {
                good_lines(&[&line]);
            } else {
                bad_lines(&[&line]);
            }
        }
    }
}

#[test]
fn reading_4_commas_and_parentheses() {
    good_lines(&["X = ( 1,,2 )", "X = ( ,1 2, )"]);
    good(set("SCLK01_MODULI_77", "( ,100,,10, )"));
    bad_lines(&["X = ( )", "X = ( , )", "X = (( 1 ))", "X = )", "X = ( 1 ( 2 )", "X = 1(2)"]);
    for list in LISTS {
        refused(19, set(list, "( )"));
    }
}

#[test]
fn reading_5_blocks() {
    bad_lines(&["X = (\n\\begintext\n\\begindata\n1 )", "X = ( 1\n\\begintext\n\\begindata\n)"]);
    refused(19, [A, "X = ("].concat());
    refused(19, [A, "X = ( 1\n\\begindata\n"].concat());
    good_lines(&["\\begindata", "X = ( 1\n\\begindata\n2 )"]);
    good(A.replace("( 100 10 )", "( 100\n\\begindata\n10 )"));
    good(A.replace("SCLK01_OFFSETS", "\\begintext\nX =\n\\begindata\nSCLK01_OFFSETS"));
    good([A, "\\begintext\nanything ("].concat());
    refused(19, A.replace("\\begindata", ""));
    refused(19, A.replace("SCLK01_OFFSETS", "\\begintext\nSCLK01_OFFSETS"));
    refused(19, "KPL/SCLK");
    refused(19, "KPL/SCLK\n\\begindata\n");
}

#[test]
fn reading_6_markers() {
    bad_lines(&["\\begintext x", "\\BEGINTEXT", "\\begindata x", "x \\begintext", "\\begintext,"]);
    good(A.replace("\\begindata", "\\begindata x\n\\BEGINDATA\n \t\\begindata\t "));
    good_lines(&["X = '= ( , \\begintext'", "\t\\begintext \r \nX =\n \\begindata\t"]);
    // However long.
    good_lines(&[
        &format!("{:>200}\n\\begindata", "\\begintext"),
        &format!("{}\\begintext\nX =\n\\begindata", "\t".repeat(200)),
    ]);
}

#[test]
fn reading_7_bytes() {
    for byte in (0..=255u8).filter(|&byte| byte != 10) {
        let data = byte == 9 || (32..=126).contains(&byte);
        // In a string, and in a date, which a blank, tab, comma or parenthesis ends.
        let string = [&b"X = '"[..], &[byte], b"a'"].concat();
        let date = [&b"X = @a"[..], &[byte], b"b"].concat();
        for (line, expected) in [(string, data && byte != b'\''), (date, data && !b" \t,()".contains(&byte))] {
            for text in with(line) {
                if expected {
                    good(text);
                } else {
                    refused(19, text);
                }
            }
        }
        let comment =
            [&b"KPL/SCLK\n"[..], &[byte, b'x', byte], &A.as_bytes()[8..], b"\\begintext\n", &[byte; 200]].concat();
        good(comment);
    }
    bad_lines(&["X = 1\r\r", "X = 1\r\t", "X = \r1"]);
    good_lines(&["X = 1\r", "X = 1 \r ", "X = (1\r\n2)\r"]);
    good(A.replace('\n', "\r\n"));
    good(A.replace('\n', " \r  \n"));
    good(A.replace(")\n", ")\t\n"));
}

#[test]
fn lengths_of_lines_and_strings() {
    for (len, is_good) in [(131, true), (132, true), (133, false)] {
        let lines = [
            format!("X = {:0>1$}", 1, len - 4),
            format!("X = ( 1\n{:0>1$} )", 1, len - 2),
            format!("X = 1{}", "\t".repeat(len - 5)),
            "\t".repeat(len),
        ];
        let lines: Vec<String> = lines.iter().flat_map(|line| [line.clone(), [line, "   \r  "].concat()]).collect();
        for line in &lines {
            if is_good {
                good_lines(&[line]);
            } else {
                bad_lines(&[line]);
            }
        }
        good(A.replace("\\begindata", &format!("{}\n\\begindata", "x".repeat(len))));
    }
    for len in [0, 1, 79, 80, 81] {
        for line in [
            format!("X = '{}'", "a".repeat(len)),
            format!("X = ( '{}' )", " ".repeat(len)),
            format!("X='{}{}'", "a".repeat(len.saturating_sub(20)), "''".repeat(len.min(20))),
        ] {
            if len <= 80 {
                good_lines(&[&line]);
            } else {
                bad_lines(&[&line]);
            }
        }
    }
    bad_lines(&[
        "X = '",
        "X = 'a",
        "X = 'a''",
        "X = ( 'a\nb' )",
        "X = 'a'b",
        "X = ( 'a' 1 )",
        "X = ( 1 'a' )",
        "X = ( @a 'b' )",
    ]);
    good_lines(&["X = ''''", "X = 'a''b'", "X = ( 'a' 'b' )", "X = ( @a 1 )", "X = ('a','b')"]);
}

#[test]
fn reading_8_dates() {
    good_lines(&["X = @", "X = @a'b=c", "X = ( @ @a )", "X=(@a,@b)"]);
    bad_lines(&["X = @a b", "X = @a(b)", "X = @a,"]);
}

#[test]
fn reading_9_first_line() {
    let first = |first: &str| A.replacen("KPL/SCLK", first, 1);
    for line in ["KPL/SCLK  ", "KPL/SCLK\r", "KPL/SCLK \r "] {
        good(first(line));
    }
    for line in
        [" KPL/SCLK", "\tKPL/SCLK", "KPL/SCLK\t", "KPL/SCLK\r\r", "kpl/sclk", "", "\nKPL/SCLK", "KPL/SCLK x", "KPL/LSK"]
    {
        refused(18, first(line));
    }
    refused(18, "");
    refused(18, "KPL/SCL");
}

#[test]
fn reading_10_names() {
    refused(19, A.replace("SCLK_KERNEL_ID", "sclk_kernel_id"));
    refused(19, A.replace("SCLK_DATA_TYPE_77", "SCLK_DATA_TYPE_077"));
    good_lines(&[
        "sclk_kernel_id = 1",
        "SCLK_DATA_TYPE_077 = 2",
        "SCLK_DATA_TYPE = 2",
        "SCLK_DATA_TYPE_-77 = 2",
        "SCLK_DATA_TYPE_770 = 2",
        "XSCLK_DATA_TYPE_77 = 2",
    ]);
    for (clock, ending) in
        [(0, "_0"), (7, "_7"), (-7, "_7"), (99_999_999_999, "_99999999999"), (-99_999_999_999, "_99999999999")]
    {
        let text = A.replace("_77", ending);
        assert!(read_into(text.as_bytes(), clock, [2; 7]).is_ok(), "{}", clock);
        assert_eq!(read_into(text.as_bytes(), 77, [2; 7]), err(19));
    }
    for clock in [100_000_000_000, -100_000_000_000, i64::MAX, i64::MIN] {
        let text = A.replace("_77", &format!("_{}", clock.unsigned_abs()));
        assert_eq!(read_into(text.as_bytes(), clock, [2; 7]), err(19));
    }
    for name in NAMES.iter().chain(&["SCLK_KERNEL_ID"]) {
        let line = A.lines().find(|line| line.starts_with(name)).unwrap();
        // Missing, but for the time system; twice; with `+=`, alone and behind another.
        if *name == "SCLK01_TIME_SYSTEM_77" {
            good(without(name));
            assert_eq!(read(without(name)).unwrap().kernel.time_system, 1);
        } else {
            refused(19, without(name));
        }
        bad_lines(&[line, &format!("\\begintext\n\\begindata\n{}", line), &line.replace('=', "+=")]);
        refused(19, A.replace(line, &line.replace('=', "+=")));
        refused(19, A.replace(line, &line.replace(" =", "+=")));
        let value = line.split(" = ").nth(1).unwrap().trim_matches(|byte| "( )".contains(byte));
        if !LISTS.contains(name) {
            refused(19, set(name, &format!("( {} {} )", value, value)));
            good(set(name, value));
        }
    }
    for name in NAMES {
        for value in ["@", "@1", "'1'", "''", "1E", "a"] {
            refused(19, set(name, value));
        }
    }
    for list in LISTS {
        refused(19, set(list, "( 0 @a )"));
        refused(19, set(list, "( 'a' )"));
        refused(19, set(list, "( 'a' 'b' )"));
    }
}

#[test]
fn reading_11_the_id() {
    for id in ["@", "( @x )", "1", "1E400", "-0.5D-400", "'a'", "( 'a (' )"] {
        good(set("SCLK_KERNEL_ID", id));
    }
    for id in ["a", "( @a @b )", "( 1 2 )", "( 'a' 'b' )", "1E"] {
        refused(19, set("SCLK_KERNEL_ID", id));
    }
    bad_lines(&["SCLK_KERNEL_ID = @", "SCLK_KERNEL_ID += @"]);
}

#[test]
fn reading_12_type_and_time_system() {
    for one in ["1.0D0", "1", "+1", "10E-1", ".1E1", "0.1e+1", "1000000000000000000000000000000E-30"] {
        good(set("SCLK_DATA_TYPE_77", one));
        assert_eq!(read(set("SCLK01_TIME_SYSTEM_77", one)).unwrap().kernel.time_system, 1);
    }
    assert_eq!(read(set("SCLK01_TIME_SYSTEM_77", "0.02E2")).unwrap().kernel.time_system, 2);
    for other in ["1.5", "-1", "1E400", "0", "3", "1E-400", "18446744073709551617", "257"] {
        refused(19, set("SCLK_DATA_TYPE_77", other));
        refused(19, set("SCLK01_TIME_SYSTEM_77", other));
    }
    refused(19, set("SCLK_DATA_TYPE_77", "2"));
}

#[test]
fn reading_13_19_before_20_before_others() {
    let half = set("SCLK_PARTITION_START_77", "( 0.5 200 )");
    refused(20, &half);
    refused(19, [&half, "X =\n"].concat());
    refused(19, half.replace("SCLK_KERNEL_ID", "X =\nSCLK_KERNEL_ID"));
    refused(19, half.replace("TYPE_77 = ( 1 )", "TYPE_77 = ( 2 )"));
    refused(20, half.replace("DELIM_77 = ( 1 )", "DELIM_77 = ( 6 )"));
    refused(20, half.replace("900", "1000"));
    refused(20, half.replace("25E-9", "1E-12"));
    assert_eq!(read_into(half.as_bytes(), 77, [0; 7]), err(20));
    good_lines(&["X = 1E400", "X = ( 1E-400 0.5 -1 )"]);
    // 1 before 2 before 3 before 16.
    let one = set("SCLK01_OUTPUT_DELIM_77", "6").replace("900", "1000").replace("25E-9", "1E-12");
    let two = A.replace("900", "1000").replace("25E-9", "1E-12");
    let three = A.replace("25E-9", "1E-12");
    for (refusal, text) in [
        (err(1), one),
        (err_at(2, 1), two),
        (err_at(3, 0), three),
        (err(16), A.to_string()),
        (err(18), A[1..].replace("DELIM", "X")),
    ] {
        assert_eq!(read_into(text.as_bytes(), 77, [0; 7]), refusal);
    }
}

#[test]
fn reading_14_64_bits() {
    refused(20, set("SCLK_PARTITION_START_77", "( -1 200 )"));
    refused(20, A.replace("25E-9", "-25E-9"));
    refused(20, set("SCLK01_N_FIELDS_77", "2.5"));
    refused(20, set("SCLK01_N_FIELDS_77", "-2"));
    good(set("SCLK_PARTITION_START_77", "( -0 200 )"));
    refused(1, set("SCLK01_N_FIELDS_77", "11"));
    for delimiter in ["257", "256", "0", "6", "18446744073709551615"] {
        refused(1, set("SCLK01_OUTPUT_DELIM_77", delimiter));
    }
    refused(20, set("SCLK01_OUTPUT_DELIM_77", "18446744073709551616"));
    refused_at(3, 0, A.replace("-1E-6", "-9223372036.854775808"));
    refused(20, A.replace("-1E-6", "-9223372036.854775809"));
    refused_at(3, 1, A.replace(" 1E-6", " 9223372036.854775807"));
    refused(20, A.replace(" 1E-6", " 9223372036.854775808"));
    refused_at(3, 0, A.replace("25E-9", "18446744.073709551615"));
    refused(20, A.replace("25E-9", "18446744.073709551616"));
    refused_at(2, 1, A.replace("900", "18446744073709551615"));
    refused(20, A.replace("900", "18446744073709551616"));
}

#[test]
fn reading_15_exactly_as_written() {
    good(A.replace("900", &format!("900{}E-80", "0".repeat(80))));
    assert_eq!(read(A.replace("25E-9", "25.001E-9")).unwrap().rates, [25_001, 30_000]);
    refused(20, A.replace("25E-9", "25.0001E-9"));
    refused_at(3, 0, A.replace("25E-9", "0E99999999999999999999"));
    for rate in ["1E99999999999999999999", "1E-99999999999999999999"] {
        refused(20, A.replace("25E-9", rate));
    }
    for (number, form) in [
        ("200", "2E2"),
        ("200", "2D+2"),
        ("200", "2.e2"),
        ("200", ".2d03"),
        ("200", "+200.000"),
        ("900", "9.0E+0000000000000000000000000002"),
        ("-1E-6", "-0.000001000"),
        ("-1E-6", "-1000E-9"),
    ] {
        good(A.replace(number, form));
    }
    for form in ["2E", "2E+", "E2", ".", "2.0.0", "--2", "2F2", "2E2.0", "0x2", "+", "2-"] {
        refused(19, A.replace("200", form));
    }
}

#[test]
fn reading_16_lengths_of_lists() {
    for more in ["700", "700 0.000000001"] {
        refused_at(3, 2, A.replace("30E-9", &["30E-9 ", more].concat()));
    }
    refused(20, A.replace("30E-9", "30E-9 700 0.0000000001"));
    refused(20, A.replace("30E-9", "30E-9 0.000000001"));
    refused_at(3, 1, A.replace(" 1E-6 30E-9", ""));
    for name in ["SCLK01_MODULI_77", "SCLK01_OFFSETS_77"] {
        refused(1, set(name, "0"));
        refused(1, set(name, "( 5 5 5 )"));
    }
    refused(1, set("SCLK01_N_FIELDS_77", "1"));
    refused(1, set("SCLK01_N_FIELDS_77", "3"));
    refused_at(2, 1, set("SCLK_PARTITION_START_77", "0"));
    refused_at(2, 2, set("SCLK_PARTITION_END_77", "( 500 900 900 )"));
}

#[test]
fn reading_17_lent_lists() {
    assert!(read_into(A.as_bytes(), 77, [2; 7]).is_ok());
    for list in 0..7 {
        for short in [0, 1] {
            for others in [2, 3, 40] {
                let mut lent = [others; 7];
                lent[list] = short;
                assert_eq!(read_into(A.as_bytes(), 77, lent), err(16));
            }
        }
    }
}

/// 9,999 partitions and 10,000 segments, one more of each.
#[test]
fn the_longest_lists() {
    let text = |partitions: u64, segments: u64| {
        let rows =
            |rows: u64, row: &dyn Fn(u64) -> String| (0..rows).map(|i| format!("{}\n", row(i))).collect::<String>();
        set("SCLK_PARTITION_START_77", &format!("(\n{})", rows(partitions, &|_| "0".to_string())))
            .replace("( 500 900 )", &format!("(\n{})", rows(partitions, &|_| "999".to_string())))
            .replace(
                "( 0 -1E-6 25E-9 600 1E-6 30E-9 )",
                &format!("(\n{})", rows(segments, &|i| format!("{} {}E-6 1E-8", i, i))),
            )
    };
    let lent = [2, 2, 10_000, 10_000, 10_001, 10_001, 10_001];
    let read =
        |partitions, segments, lent| read_into(text(partitions, segments).as_bytes(), 77, lent).map(|read| read.kernel);
    let kernel = read(9_999, 10_000, lent).unwrap();
    assert_eq!((kernel.partitions, kernel.segments), (9_999, 10_000));
    assert_eq!(read(10_000, 10_000, lent), err_at(2, 10_000));
    assert_eq!(read(9_999, 10_001, lent), err_at(3, 10_001));
    assert_eq!(read(9_999, 10_000, [2, 2, 9_999, 9_999, 10_000, 10_000, 9_999]), err(16));
}

/// However the digits and the exponent share the number out.
#[test]
fn exponents() {
    for shift in 0..100usize {
        let zeros = "0".repeat(shift);
        for form in [
            format!("900{}E-{}", zeros, shift),
            format!("0.{}9E{}", zeros, shift + 3),
            format!("{}900", zeros),
            format!("900.{}", zeros),
        ] {
            good(A.replace("500 900", &["500\n", &form].concat()));
        }
        let form = format!("900{}1E-{}", zeros, shift + 1);
        refused(20, A.replace("500 900", &["500\n", &form].concat()));
    }
    // The last three would be 0, 2 and 7 in 64 bits if each digit's step wrapped.
    for exponent in [
        "400",
        "9223372036854775807",
        "9223372036854775808",
        "18446744073709551616",
        "18446744073709551618",
        "92233720368547758080",
        "92233720368547758082",
        "92233720368547758087",
    ] {
        refused(20, A.replace("200", &["2E", exponent].concat()));
        refused(20, A.replace("200", &["2E-", exponent].concat()));
        good(A.replace("( 0 200", &["( 0E", exponent, " 200"].concat()));
        good(A.replace("( 0 200", &["( -0.0E-", exponent, " 200"].concat()));
    }
}
