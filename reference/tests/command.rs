//! The operator's command, line by line of what it must print.

use std::io::Write;
use std::process::{Command, Stdio};

use reference::command::{run, Contents, Run, LARGEST_FILE};

/// Table A: ticks of 2.5 ns, then 3 ns; a total of 1,200. Time system 2, clock -7.
const A: &str = "KPL/SCLK\n\\begindata\nSCLK_KERNEL_ID=@\nSCLK_DATA_TYPE_7=1\nSCLK01_TIME_SYSTEM_7=2\nSCLK01_N_FIELDS_7=2\n\
                 SCLK01_MODULI_7=(100 10)\nSCLK01_OFFSETS_7=(0 0)\nSCLK01_OUTPUT_DELIM_7=1\nSCLK_PARTITION_START_7=(0 200)\n\
                 SCLK_PARTITION_END_7=(500 900)\nSCLK01_COEFFICIENTS_7=(0 -1E-6 25E-9 600 1E-6 30E-9)\n\\begintext\n";

/// Table A with other numbers in place of these.
fn other(changes: &[(&str, &str)]) -> String {
    changes.iter().fold(A.to_string(), |text, (from, to)| {
        assert!(text.contains(from), "{}", from);
        text.replace(from, to)
    })
}

/// Table A cut to its first partition and segment.
fn cut() -> String {
    other(&[("(0 200)", "(0)"), ("(500 900)", "(500)"), (" 600 1E-6 30E-9)", ")")])
}

/// Three fields, the first and the last with an offset, the first segment at 100.
fn offsets() -> String {
    other(&[
        ("N_FIELDS_7=2", "N_FIELDS_7=3"),
        ("(100 10)", "(100 5 2)"),
        ("(0 0)", "(1 0 1)"),
        ("(0 -1E-6", "(100 -1E-6"),
        ("DELIM_7=1", "DELIM_7=2"),
    ])
}

/// The files `a`, `cut`, `offsets` and what else is named.
fn files(more: &[(&str, &str)], path: &[u8]) -> Contents {
    let more = more.iter().find(|(name, _)| name.as_bytes() == path).map(|(_, text)| text.to_string());
    let text = match path {
        _ if more.is_some() => more.unwrap(),
        b"a" => A.to_string(),
        b"cut" => cut(),
        b"offsets" => offsets(),
        _ => return Err("no such file".to_string()),
    };
    Ok(text.into_bytes())
}

/// Words apart by blanks.
fn run_with(more: &[(&str, &str)], words: &str, input: &[u8]) -> Run {
    let words: Vec<Vec<u8>> = words.split(' ').map(|word| word.as_bytes().to_vec()).collect();
    run(&words, |path| files(more, path), || Ok(input.to_vec()))
}

#[track_caller]
fn prints(words: &str, input: &str, output: &str, status: u8) {
    let run = run_with(&[], words, input.as_bytes());
    assert_eq!(String::from_utf8(run.output).unwrap(), output);
    assert_eq!((run.errors, run.status), (vec![], status));
}

/// One line of input, one of output, without its byte 10.
#[track_caller]
fn line(words: &str, input: &str, output: &str) {
    let status = u8::from(output.starts_with("refused"));
    prints(words, &format!("{}\n", input), &format!("{}\n", output), status);
}

#[track_caller]
fn wrong(words: &str) {
    let words: Vec<Vec<u8>> = words.split(' ').map(|word| word.as_bytes().to_vec()).collect();
    let run = run(&words, |_| panic!("no file is read"), || panic!("no input is read"));
    assert_eq!((run.output, run.status), (vec![], 2));
    assert!(run.errors.starts_with(b"usage: sclk time"));
}

#[test]
fn usage() {
    for words in [
        "",
        "times a -7",
        "Time a -7",
        "a -7",
        "--hex time a -7",
        "time",
        "time a",
        "time -7",
        "time a -7 -7",
        "time a a -7",
        "time -7 a",
        "time a -7 b",
        "compare a -7",
        "compare a",
        "compare a a a -7",
        "compare -7 a a",
        "stamp a a -7",
        // Options: unknown ones, one twice, another command's.
        "time a -7 --Hex",
        "time a -7 --",
        "time --hex --hex a -7",
        "time --seconds a -7 --seconds",
        "time --hex=1 a -7",
        "stamp --hex a -7",
        "stamp --seconds a -7",
        "count --hex a -7",
        "describe --hex a -7",
        "describe a -7 --places",
        // The clock's number.
        "time a 7a",
        "time a +7",
        "time a --7",
        "time a -",
        "time a ",
        "time a 7.0",
        "time a 9223372036854775808",
        "time a -9223372036854775809",
        // Help behind no command.
        "times --help",
        "-h",
        "help",
    ] {
        wrong(words);
    }
    let none = run(&[], |_| panic!("no file is read"), || panic!("no input is read"));
    assert_eq!((none.output.len(), none.status), (0, 2));
}

#[test]
fn help() {
    for words in [
        "--help",
        "time --help",
        "time a --help -7",
        "compare --hex --hex --help",
        "--help --help x",
        "stamp a b c --help",
    ] {
        let run = run_with(&[], words, b"");
        assert!(run.output.starts_with(b"Turns stamps") && run.errors.is_empty(), "{}", words);
        assert_eq!(run.status, 0);
    }
}

#[test]
fn options_anywhere() {
    for words in ["time --seconds a -7", "time a --seconds -7", "time a -7 --seconds"] {
        line(words, "1/5.3", "53\t-0.000000867\t1/05.3");
    }
    for words in ["time --seconds --hex a -7", "time --hex a -7 --seconds", "time a --seconds -7 --hex"] {
        line(words, "312f352e330005", "53\t-0.000000867\t1/05.3");
    }
    prints("compare --hex a --seconds a -7", "", "succeeds\tyes\nhorizon\t1200\n", 0);
}

/// "CLOCK is a decimal number with `-` in front of a negative one": the sign plays no part in the names.
#[test]
fn clocks() {
    for clock in ["-7", "7", "007", "-0007"] {
        line(&format!("time a {}", clock), "1/5.3", "53\t-867\t1/05.3");
    }
    for (clock, said) in [("-7", "-7"), ("7", "7"), ("-007", "-7")] {
        let run = run_with(&[], &format!("describe a {}", clock), b"");
        assert!(run.output.starts_with(format!("clock\t{}\n", said).as_bytes()));
    }
    for clock in ["-9223372036854775808", "9223372036854775807", "-0", "8"] {
        assert_eq!(run_with(&[], &format!("time a {}", clock), b"").status, 3);
    }
}

/// "Every line, also an empty one, has exactly one line of output, in order."
#[test]
fn lines_of_input() {
    let missing = "refused\t6\t-\tthe first field is missing\n";
    prints("time a -7", "", "", 0);
    prints("time a -7", "1/5.3", "53\t-867\t1/05.3\n", 0);
    prints("time a -7", "1/5.3\n", "53\t-867\t1/05.3\n", 0);
    prints("time a -7", "\n", missing, 1);
    prints("time a -7", "\n\n", &missing.repeat(2), 1);
    prints("time a -7", "1/0.1\r\n50.1\r\n", "1\t-997\t1/00.1\n801\t1603\t2/50.1\n", 0);
    // The last line, and one of a 13 alone.
    prints("time a -7", "1/0.1\r", "1\t-997\t1/00.1\n", 0);
    prints("time a -7", "\r\n\r", &missing.repeat(2), 1);
    // One 13 and no more; none in the middle.
    prints("time a -7", "1/0.1\r\r\n", "refused\t5\t5\ta byte that is not allowed\n", 1);
    prints("time a -7", "1/0\r.1\n", "refused\t5\t3\ta byte that is not allowed\n", 1);
    // A blank or a 0 is no line's end.
    prints("time a -7", "1/0.1 \n1/0.1\0", "1\t-997\t1/00.1\nrefused\t5\t5\ta byte that is not allowed\n", 1);
}

#[test]
fn time() {
    for (stamp, output) in [
        ("1/5.3", "53\t-867\t1/05.3"),
        ("50.1", "801\t1603\t2/50.1"),
        // The stamp that it prints as is another.
        ("1/50.0", "500\t250\t2/20.0"),
        ("2/90", "1200\t2800\t2/90.0"),
        (" 1 / 5 3 ", "53\t-867\t1/05.3"),
        ("1/5x3", "refused\t5\t3\ta byte that is not allowed"),
        ("", "refused\t6\t-\tthe first field is missing"),
        ("1/", "refused\t6\t-\tthe first field is missing"),
        ("1.2.3", "refused\t7\t4\ttoo many fields"),
        ("1000000000001001.0", "refused\t9\t0\ta number that is too large"),
        ("999999999999999.9", "refused\t9\t17\ta number that is too large"),
        ("3/1", "refused\t10\t-\tno such partition"),
        ("1/50.1", "refused\t11\t-\tthe count is in no such partition"),
        ("95", "refused\t11\t-\tthe count is in no such partition"),
    ] {
        line("time a -7", stamp, output);
    }
    let long = "0".repeat(95);
    line("time a -7", &format!("{}5", long), "50\t-875\t1/05.0");
    line("time a -7", &format!("{}05", long), "refused\t4\t-\tthe text is too long");
    line("time offsets -7", "5:0:0", "refused\t8\t4\ta field below its offset");
    line("time offsets -7", "2:0:1", "refused\t13\t-\tbefore the first segment");
    line("time offsets -7", "1/11:0:1", "100\t-1000\t1/011:0:1");
}

#[test]
fn hex() {
    let text = |bytes: &str| bytes.bytes().map(|byte| format!("{:02x}", byte)).collect::<String>();
    for (message, output) in [
        // "Message 07 D0, `1/5.3`, 00 05", in either case.
        ("07D0312F352E330005".to_string(), "53\t-867\t1/05.3"),
        ("07d0312f352e330005".to_string(), "53\t-867\t1/05.3"),
        ("07d0312f352e330008".to_string(), "refused\t23\t-\ta message shorter than the text it claims"),
        (String::new(), "refused\t21\t-\ta message under two bytes"),
        ("31".to_string(), "refused\t21\t-\ta message under two bytes"),
        ("0000".to_string(), "refused\t22\t-\ta message without a text"),
        ("0061".to_string(), "refused\t23\t-\ta message shorter than the text it claims"),
        // The place counts in the text, or where the line is no hex in the line.
        (text("..1/5x3") + "0005", "refused\t5\t3\ta byte that is not allowed"),
        ("31 2f".to_string(), "refused\t5\t2\ta byte that is not allowed"),
        ("g".to_string(), "refused\t5\t0\ta byte that is not allowed"),
        ("3".to_string(), "refused\t5\t1\ta byte that is not allowed"),
        ("312".to_string(), "refused\t5\t3\ta byte that is not allowed"),
        // A bad byte comes before an odd number.
        ("31x".to_string(), "refused\t5\t2\ta byte that is not allowed"),
        ("0x31".to_string(), "refused\t5\t1\ta byte that is not allowed"),
        (text("1/50.1") + "0006", "refused\t11\t-\tthe count is in no such partition"),
    ] {
        line("time --hex a -7", &message, output);
    }
    let message = |digits: usize| "ff".repeat((digits - 14) / 2) + "312f352e330005";
    line("time --hex a -7", &message(4_000), "53\t-867\t1/05.3");
    line("time --hex a -7", &message(4_002), "refused\t4\t-\tthe text is too long");
    line("time --hex a -7", &format!("{}x", message(4_000)), "refused\t4\t-\tthe text is too long");
    line("time --hex a -7", &"3".repeat(3_999), "refused\t5\t3999\ta byte that is not allowed");
    line("time --hex offsets -7", &(text("2:0:1") + "0005"), "refused\t13\t-\tbefore the first segment");
}

#[test]
fn stamp() {
    for (number, output) in [
        ("0", "1/00.0"),
        ("499", "1/49.9"),
        ("500", "2/20.0"),
        ("1200", "2/90.0"),
        ("0001200", "2/90.0"),
        ("1201", "refused\t12\t-\tthe encoded count is above the total"),
        ("18446744073709551616", "refused\t12\t-\tthe encoded count is above the total"),
        ("18446744073709552116", "refused\t12\t-\tthe encoded count is above the total"),
        ("", "refused\t6\t-\tthe first field is missing"),
        ("-1", "refused\t5\t0\ta byte that is not allowed"),
        ("-0", "refused\t5\t0\ta byte that is not allowed"),
        (" 1", "refused\t5\t0\ta byte that is not allowed"),
        ("1 ", "refused\t5\t1\ta byte that is not allowed"),
        ("1x2x", "refused\t5\t1\ta byte that is not allowed"),
        ("1/00.0", "refused\t5\t1\ta byte that is not allowed"),
    ] {
        line("stamp a -7", number, output);
    }
    line("stamp a -7", &["0".repeat(93), "500".to_string()].concat(), "2/20.0");
    line("stamp a -7", &["0".repeat(94), "500".to_string()].concat(), "refused\t4\t-\tthe text is too long");
    line("stamp a -7", &"9".repeat(96), "refused\t12\t-\tthe encoded count is above the total");
    line("stamp a -7", &"x".repeat(97), "refused\t4\t-\tthe text is too long");
    // No segment is asked.
    line("stamp offsets -7", "0", "1/001:0:1");
}

#[test]
fn count() {
    for (number, output) in [
        ("-998", "0"),
        ("-997", "1"),
        ("700", "599"),
        ("1000", "600"),
        ("-0", "400"),
        ("0", "400"),
        ("00700", "599"),
        ("-00997", "1"),
        ("2802", "1200"),
        ("2803", "refused\t14\t-\tthe time or its count is out of range"),
        ("-1001", "refused\t13\t-\tbefore the first segment"),
        ("-4000000000000000000", "refused\t13\t-\tbefore the first segment"),
        ("-4000000000000000001", "refused\t14\t-\tthe time or its count is out of range"),
        ("4000000000000000001", "refused\t14\t-\tthe time or its count is out of range"),
        ("-9223372036854775809", "refused\t14\t-\tthe time or its count is out of range"),
        ("18446744073709551616", "refused\t14\t-\tthe time or its count is out of range"),
        ("-18446744073709552613", "refused\t14\t-\tthe time or its count is out of range"),
        ("", "refused\t6\t-\tthe first field is missing"),
        ("-", "refused\t6\t-\tthe first field is missing"),
        ("--1", "refused\t5\t1\ta byte that is not allowed"),
        ("+1", "refused\t5\t0\ta byte that is not allowed"),
        ("-1-", "refused\t5\t2\ta byte that is not allowed"),
        ("- 1", "refused\t5\t1\ta byte that is not allowed"),
        ("1.0", "refused\t5\t1\ta byte that is not allowed"),
    ] {
        line("count a -7", number, output);
    }
    line("count a -7", &["-", &"0".repeat(92), "997"].concat(), "1");
    line("count a -7", &["-", &"0".repeat(93), "997"].concat(), "refused\t4\t-\tthe text is too long");
    line("count a -7", &"9".repeat(96), "refused\t14\t-\tthe time or its count is out of range");
    line("count a -7", &"-".repeat(97), "refused\t4\t-\tthe text is too long");
}

#[test]
fn count_of_seconds() {
    for (number, output) in [
        ("-0.000000998", "0"),
        ("-0.000000997", "1"),
        ("0.0000007", "599"),
        ("0.000001", "600"),
        ("0.0000010000000000000", "600"),
        ("0", "400"),
        ("0.", "400"),
        ("-0.0", "400"),
        ("000.000000700", "599"),
        ("0.000002802", "1200"),
        ("0.000002803", "refused\t14\t-\tthe time or its count is out of range"),
        ("-0.000001001", "refused\t13\t-\tbefore the first segment"),
        ("-4000000000", "refused\t13\t-\tbefore the first segment"),
        ("-4000000000.000000001", "refused\t14\t-\tthe time or its count is out of range"),
        ("4000000000.000000001", "refused\t14\t-\tthe time or its count is out of range"),
        ("18446744073.709551616", "refused\t14\t-\tthe time or its count is out of range"),
        ("18446744073709551616", "refused\t14\t-\tthe time or its count is out of range"),
        (".5", "refused\t6\t-\tthe first field is missing"),
        ("-", "refused\t6\t-\tthe first field is missing"),
        ("", "refused\t6\t-\tthe first field is missing"),
        ("-.5", "refused\t6\t-\tthe first field is missing"),
        (".", "refused\t6\t-\tthe first field is missing"),
        // 5 comes before 6 and 20, 6 before 20, 20 before 14.
        (".x", "refused\t5\t1\ta byte that is not allowed"),
        (".5.", "refused\t5\t2\ta byte that is not allowed"),
        ("1.5.0", "refused\t5\t3\ta byte that is not allowed"),
        ("1,5", "refused\t5\t1\ta byte that is not allowed"),
        ("1e3", "refused\t5\t1\ta byte that is not allowed"),
        ("+1", "refused\t5\t0\ta byte that is not allowed"),
        ("--1", "refused\t5\t1\ta byte that is not allowed"),
        ("0.0000000001x", "refused\t5\t12\ta byte that is not allowed"),
        (".0000000001", "refused\t6\t-\tthe first field is missing"),
        ("0.0000000001", "refused\t20\t-\ta number that is not exact in its unit"),
        ("0.00000000000000001", "refused\t20\t-\ta number that is not exact in its unit"),
        ("9999999999.0000000001", "refused\t20\t-\ta number that is not exact in its unit"),
        ("-9999999999.0000000001", "refused\t20\t-\ta number that is not exact in its unit"),
    ] {
        line("count --seconds a -7", number, output);
    }
    line("count --seconds a -7", &["0.", &"0".repeat(94)].concat(), "400");
    line("count --seconds a -7", &["0.", &"0".repeat(95)].concat(), "refused\t4\t-\tthe text is too long");
}

/// "`-` where negative, the whole seconds, `.`, nine digits".
#[test]
fn decimal_seconds() {
    let late = other(&[("-1E-6", "-12345678.000000001"), ("600 1E-6", "600 -5")]);
    let more = [("late", &late[..])];
    for (stamp, time) in [
        ("1/0.0", "-12345678.000000001"),
        ("1/40.0", "-12345677.999999001"),
        ("2/30.0", "-5.000000000"),
        ("2/90.0", "-4.999998200"),
    ] {
        let run = run_with(&more, "time --seconds late -7", stamp.as_bytes());
        assert_eq!(String::from_utf8(run.output).unwrap().split('\t').nth(1), Some(time));
    }
    line("time --seconds a -7", "1/40.0", "400\t0.000000000\t1/40.0");
    line("time --seconds a -7", "1/40.4", "404\t0.000000010\t1/40.4");
}

/// The verdicts, and the status of each.
#[test]
fn compare() {
    let tables = "succeeds\tyes\nhorizon\t500\n";
    #[track_caller]
    fn verdict(words: &str, tables: &str, stamp: &str, output: &str) {
        let answered = output.starts_with("same") && !output.starts_with("same\trefused");
        prints(words, stamp, &format!("{}{}\n", tables, output), u8::from(!answered));
    }
    for (stamp, output) in [
        ("1/5.3", "same\t53\t-867"),
        ("50.0", "same\t500\t250"),
        ("1/5x", "same\trefused\t5\t3\ta byte that is not allowed"),
        ("3/1", "same\trefused\t10\t-\tno such partition"),
        ("50.1", "older refuses\t11\t-\tthe count is in no such partition\t801\t1603"),
        ("2/30", "older refuses\t10\t-\tno such partition\t600\t1000"),
        ("2/10", "refused\t10\t-\tno such partition\t11\t-\tthe count is in no such partition"),
    ] {
        verdict("compare cut a -7", tables, stamp, output);
    }
    // Exchanged.
    let exchanged = "succeeds\tno\tpartition\t1\nhorizon\t0\n";
    for (stamp, output) in [
        ("50.1", "newer refuses\t11\t-\tthe count is in no such partition\t801\t1603"),
        ("2/10", "refused\t11\t-\tthe count is in no such partition\t10\t-\tno such partition"),
        ("1/5.3", "same\t53\t-867"),
    ] {
        verdict("compare a cut -7", exchanged, stamp, output);
    }
    verdict(
        "compare --seconds a cut -7",
        exchanged,
        "50.1",
        "newer refuses\t11\t-\tthe count is in no such partition\t801\t0.000001603",
    );
    prints("compare cut a -7", "", tables, 0);
    prints("compare cut a -7", "1/5.3\n1/0\n", "succeeds\tyes\nhorizon\t500\nsame\t53\t-867\nsame\t0\t-1000\n", 0);
    // Messages: what is no hex is refused alike.
    verdict("compare --hex cut a -7", tables, "312f352e330005", "same\t53\t-867");
    verdict("compare --hex cut a -7", tables, "312", "same\trefused\t5\t3\ta byte that is not allowed");
    verdict("compare --hex cut a -7", tables, "\n", "same\trefused\t21\t-\ta message under two bytes");
}

/// "differ": older's, newer's, and the newer's time less the older's, with its sign. Another count is enough.
#[test]
fn compare_differences() {
    let early = other(&[("600 1E-6", "600 0.9E-6")]);
    let other_partitions = other(&[("(500 900)", "(501 900)")]);
    // Places that are not the older's: one field fewer in the newer.
    let one = other(&[("N_FIELDS_7=2", "N_FIELDS_7=1"), ("(100 10)", "(1000)"), ("(0 0)", "(0)")]);
    let more = [("early", &early[..]), ("other", &other_partitions[..]), ("one", &one[..])];
    for (words, input, output) in [
        ("compare a early -7", "2/30\n", "succeeds\tno\tsegment\t1\nhorizon\t600\ndiffer\t600\t1000\t600\t900\t-100\n"),
        ("compare early a -7", "2/30\n", "succeeds\tno\tsegment\t1\nhorizon\t600\ndiffer\t600\t900\t600\t1000\t100\n"),
        (
            "compare --seconds a early -7",
            "2/30\n",
            "succeeds\tno\tsegment\t1\nhorizon\t600\ndiffer\t600\t0.000001000\t600\t0.000000900\t-0.000000100\n",
        ),
        (
            "compare a other -7",
            "2/20\n50\n",
            "succeeds\tno\tpartition\t0\nhorizon\t0\ndiffer\t500\t250\t501\t253\t3\nsame\t500\t250\n",
        ),
        // 7 under one field, 11 under two; 7 under both, at other places.
        (
            "compare one a -7",
            "1x\n",
            "succeeds\tno\tlayout\t0\nhorizon\t0\nsame\trefused\t5\t1\ta byte that is not allowed\n",
        ),
        (
            "compare one a -7",
            "95.0\n",
            "succeeds\tno\tlayout\t0\nhorizon\t0\n\
             refused\t7\t3\ttoo many fields\t11\t-\tthe count is in no such partition\n",
        ),
        ("compare one a -7", "9.9.9\n", "succeeds\tno\tlayout\t0\nhorizon\t0\nsame\trefused\t7\t2\ttoo many fields\n"),
        ("compare a one -7", "9.9.9\n", "succeeds\tno\tlayout\t0\nhorizon\t0\nsame\trefused\t7\t4\ttoo many fields\n"),
    ] {
        let run = run_with(&more, words, input.as_bytes());
        assert_eq!(String::from_utf8(run.output).unwrap(), output);
        assert_eq!(run.status, 1);
    }
    // Times as far apart as they may be.
    let first = other(&[("(0 -1E-6 25E-9 600 1E-6 30E-9)", "(0 -4E9 25E-9)")]);
    let last = other(&[("(0 -1E-6 25E-9 600 1E-6 30E-9)", "(0 3999999999.5 25E-9)")]);
    let run = run_with(&[("first", &first), ("last", &last)], "compare first last -7", b"1/0");
    assert!(run.output.ends_with(b"differ\t0\t-4000000000000000000\t0\t3999999999500000000\t7999999999500000000\n"));
}

/// Succession and horizon, by name; whether NEWER succeeds OLDER plays no part in the status.
#[test]
fn compare_tables() {
    let layout = other(&[("DELIM_7=1", "DELIM_7=2")]);
    let segment = other(&[("25E-9", "25.001E-9")]);
    let further = other(&[("30E-9)", "30E-9 1200 9E-6 25E-9)")]);
    let longer = [("(0 200)", "(0 200 0)"), ("(500 900)", "(500 900 9)")];
    let seam = other(&[&longer[..], &[("30E-9)", "30E-9 1201 2.802E-6 25E-9)")]].concat());
    let yes = other(&[&longer[..], &[("30E-9)", "30E-9 1201 2.803E-6 25E-9)")]].concat());
    let system = other(&[("SYSTEM_7=2", "SYSTEM_7=1")]);
    for (newer, output) in [
        (&layout, "succeeds\tno\tlayout\t0\nhorizon\t0\n"),
        (&segment, "succeeds\tno\tsegment\t0\nhorizon\t0\n"),
        (&further, "succeeds\tno\tfurther\t2\nhorizon\t1200\n"),
        (&seam, "succeeds\tno\tseam\t1\nhorizon\t1200\n"),
        (&yes, "succeeds\tyes\nhorizon\t1200\n"),
        // The time system plays no part.
        (&system, "succeeds\tyes\nhorizon\t1200\n"),
    ] {
        let run = run_with(&[("newer", newer)], "compare a newer -7", b"");
        assert_eq!((String::from_utf8(run.output).unwrap(), run.status), (output.to_string(), 0));
    }
}

#[test]
fn describe() {
    // A gap of 500 ns, a line that meets the next row, a step back of 3 ns.
    let rows = "(0 -1E-6 25E-9 600 1E-6 30E-9 800 1.6E-6 30.001E-9 1000 2.198E-6 30E-9)";
    let text = other(&[("(0 -1E-6 25E-9 600 1E-6 30E-9)", rows), ("DELIM_7=1", "DELIM_7=5"), ("(0 0)", "(3 1000)")]);
    let run = run_with(&[("rows", &text)], "describe rows -7", b"nothing is read");
    let output = "clock\t-7\ntime system\t2\tTDT\ndelimiter\t5\t \nfield\t1\t100\t3\nfield\t2\t10\t1000\n\
                  partition\t1\t0\t500\t0\npartition\t2\t200\t900\t500\n\
                  segment\t0\t0\t-1000\t25000\tgap\t500\nsegment\t1\t600\t1000\t30000\n\
                  segment\t2\t800\t1600\t30001\tback\t3\nsegment\t3\t1000\t2198\t30000\n\
                  fields\t2\npartitions\t2\ntotal\t1200\nsegments\t4\ngaps\t1\nsteps back\t1\n";
    assert_eq!((String::from_utf8(run.output).unwrap(), run.status), (output.to_string(), 0));
    let run = run_with(&[("rows", &text)], "describe --seconds rows 7", b"");
    let output = String::from_utf8(run.output).unwrap();
    let segments: Vec<&str> = output.lines().filter(|line| line.starts_with("segment\t")).collect();
    assert_eq!(
        segments,
        [
            "segment\t0\t0\t-0.000001000\t0.000000025000\tgap\t0.000000500",
            "segment\t1\t600\t0.000001000\t0.000000030000",
            "segment\t2\t800\t0.000001600\t0.000000030001\tback\t0.000000003",
            "segment\t3\t1000\t0.000002198\t0.000000030000",
        ]
    );
    // Each delimiter's byte; time system 1.
    for (code, byte) in [("1", "."), ("2", ":"), ("3", "-"), ("4", ","), ("5", " ")] {
        let text = other(&[("DELIM_7=1", &format!("DELIM_7={}", code)), ("SYSTEM_7=2", "SYSTEM_7=1")]);
        let run = run_with(&[("text", &text)], "describe text -7", b"");
        let head = format!("clock\t-7\ntime system\t1\tTDB\ndelimiter\t{}\t{}\n", code, byte);
        assert!(run.output.starts_with(head.as_bytes()));
    }
}

/// "`sclk: PATH: refused` number place sentence on standard error, nothing on standard output (compare: OLDER is read first)".
#[test]
fn kernels() {
    let bad = |changes: &[(&str, &str)]| other(changes);
    for (text, refusal) in [
        (bad(&[("DELIM_7=1", "DELIM_7=6")]), "1\t-\tthe layout breaks its rules"),
        (bad(&[("(0 200)", "(0 900)")]), "2\t1\tthe partitions break their rules"),
        (bad(&[("30E-9)", "9E-9)")]), "3\t1\tthe segments break their rules"),
        (bad(&[("KPL/SCLK", "KPL/CK")]), "18\t-\tthe first line is not KPL/SCLK"),
        (bad(&[("N_FIELDS_7=2", "N_FIELDS_7=")]), "19\t-\tthe text is not of a kernel's form"),
        (bad(&[("25E-9", "25.0001E-9")]), "20\t-\ta number that is not exact in its unit"),
        (String::new(), "18\t-\tthe first line is not KPL/SCLK"),
    ] {
        for words in [
            "time bad -7",
            "stamp bad -7",
            "count bad -7",
            "describe bad -7",
            "compare bad none -7",
            "compare a bad -7",
        ] {
            let words: Vec<Vec<u8>> = words.split(' ').map(|word| word.as_bytes().to_vec()).collect();
            let run = run(&words, |path| files(&[("bad", &text)], path), || panic!("no input is read"));
            let errors = format!("sclk: bad: refused\t{}\n", refusal);
            assert_eq!((run.output.len(), run.status), (0, 3));
            assert_eq!(String::from_utf8(run.errors).unwrap(), errors);
        }
    }
}

#[test]
fn files_that_cannot_be_read() {
    for words in ["time none -7", "describe none -7", "compare none a -7", "compare a none -7"] {
        let words: Vec<Vec<u8>> = words.split(' ').map(|word| word.as_bytes().to_vec()).collect();
        let run = run(&words, |path| files(&[], path), || panic!("no input is read"));
        assert_eq!((run.output.len(), run.status), (0, 4));
        assert_eq!(run.errors, b"sclk: none: no such file\n");
    }
    let words = ["time", "a", "-7"].map(|word| word.as_bytes().to_vec());
    let run = run(&words, |path| files(&[], path), || Err("it is closed".to_string()));
    assert_eq!((run.output.len(), run.status), (0, 4));
    assert_eq!(run.errors, b"sclk: standard input: it is closed\n");
    // As large as may be, and a byte more.
    let padded = |len: usize| format!("{}{}", A, "x".repeat(len - A.len()));
    assert_eq!(run_with(&[("large", &padded(LARGEST_FILE))], "time large -7", b"1/0.1").output, b"1\t-997\t1/00.1\n");
    let run = run_with(&[("large", &padded(LARGEST_FILE + 1))], "time large -7", b"1/0.1");
    assert_eq!((run.output.len(), run.status), (0, 4));
}

/// The program itself, on files.
fn program(words: &[&str], input: Stdio, output: Stdio) -> (Vec<u8>, Vec<u8>, i32) {
    let child = Command::new(env!("CARGO_BIN_EXE_sclk"))
        .args(words)
        .stdin(input)
        .stdout(output)
        .stderr(Stdio::piped())
        .spawn()
        .unwrap();
    let done = child.wait_with_output().unwrap();
    (done.stdout, done.stderr, done.status.code().unwrap())
}

#[test]
fn the_program() {
    let folder = std::env::temp_dir().join(format!("sclk-{}", std::process::id()));
    std::fs::create_dir_all(&folder).unwrap();
    let path = |name: &str| folder.join(name).to_str().unwrap().to_string();
    let write = |name: &str, bytes: &[u8]| std::fs::write(path(name), bytes).unwrap();
    write("a", A.as_bytes());
    write("stamps", b"1/0.1\n50.1\n");
    write("large", &[A.as_bytes(), &vec![b'x'; LARGEST_FILE - A.len()]].concat());
    write("larger", &[A.as_bytes(), &vec![b'x'; LARGEST_FILE + 1 - A.len()]].concat());
    let open = |name: &str| Stdio::from(std::fs::File::open(path(name)).unwrap());

    let answered = (b"1\t-997\t1/00.1\n801\t1603\t2/50.1\n".to_vec(), vec![], 0);
    assert_eq!(program(&["time", &path("a"), "-7"], open("stamps"), Stdio::piped()), answered);
    assert_eq!(program(&["time", &path("large"), "-7"], open("stamps"), Stdio::piped()), answered);
    for name in ["larger", "none", "."] {
        let (output, errors, status) = program(&["time", &path(name), "-7"], open("stamps"), Stdio::piped());
        assert_eq!((output.len(), status), (0, 4), "{}", name);
        assert!(errors.starts_with(format!("sclk: {}: ", path(name)).as_bytes()));
        assert_eq!(errors.iter().filter(|&&byte| byte == 10).count(), 1);
    }
    // Standard input that is a directory, standard output that is full.
    let (output, errors, status) = program(&["time", &path("a"), "-7"], open("."), Stdio::piped());
    assert_eq!((output.len(), status), (0, 4));
    assert!(errors.starts_with(b"sclk: standard input: "));
    let full = || Stdio::from(std::fs::OpenOptions::new().write(true).open("/dev/full").unwrap());
    for words in [vec!["time", "-7"], vec!["describe", "-7"], vec!["--help"]] {
        let a = path("a");
        let words: Vec<&str> = if words.len() > 1 { vec![words[0], &a, words[1]] } else { words };
        let (_, errors, status) = program(&words, open("stamps"), full());
        assert_eq!(status, 4);
        assert!(errors.starts_with(b"sclk: standard output: "));
    }
    // describe reads no standard input.
    let (output, _, status) = program(&["describe", &path("a"), "-7"], open("."), Stdio::piped());
    assert_eq!((output.starts_with(b"clock\t-7\n"), status), (true, 0));
    let (_, errors, status) = program(&["time"], open("stamps"), Stdio::piped());
    assert_eq!((errors.starts_with(b"usage: "), status), (true, 2));
    std::fs::remove_dir_all(&folder).unwrap();
}

/// A long input comes out whole.
#[test]
fn a_long_input() {
    let lines = 20_000;
    let mut input = vec![];
    for e in 0..lines {
        writeln!(input, "{}", e % 1_203).unwrap();
    }
    let run = run_with(&[], "stamp a -7", &input);
    assert_eq!(run.output.iter().filter(|&&byte| byte == 10).count(), lines);
    assert_eq!(run.status, 1);
}
