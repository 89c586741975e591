//! The script protocol.

use reference::script::answers;

fn ask(script: &str) -> String {
    String::from_utf8(answers(script.as_bytes())).unwrap()
}

const A: &str = "layout 2 1 100 10 0 0 0 0 0 0 0 0 0 0 0 0 0 0 0 0 0 0
partitions
start 0
end 500
start 200
end 900
segments
count 0
count 600
time -1000
time 1000
rate 25000
rate 30000
";

fn ask_a(questions: &str) -> String {
    ask(&[A, questions].concat())
}

#[test]
fn each_kind_of_answer() {
    let answers = ask_a(
        "read-text 31322e33\nread-stamp 35302e31\nread-message 07d0312f352e330005\nprint-count 7 255 6\n\
         print-stamp 500 0 8\ntime-of 1\ncount-at -997\nsteps-back\n\
         forward 0000000000000000 4059000000000000 3ff0000000000000 256 512\n\
         back 0000000000000000 4059000000000000 3ff0000000000000 256 4059800000000000\n",
    );
    let expected = "ok 123\nok 801\nok 53\nok 4 30302e37ffff\nok 6 322f32302e300000\nok -997\nok 1\nok no\n\
                    ok 4059800000000000\nok 4080000000000000\n";
    assert_eq!(answers, expected);
}

#[test]
fn refusals() {
    let answers = ask_a(
        "read-text .\nread-stamp 312f35302e31\nread-message 07d0312f352e330008\nprint-count 1000 1 2\nprint-count 7 255 3\n\
         print-stamp 500 9 0\nprint-stamp 1201 9 0\ntime-of 1201\ncount-at 2803\ncount-at -1001\n\
         forward 7ff8000000000001 4059000000000000 3ff0000000000000 256 512\n",
    );
    let expected = "refused 6\nrefused 11\nrefused 23\nrefused 9 0101\nrefused 16 ffffff\nrefused 16 .\nrefused 12 .\n\
                    refused 12\nrefused 14\nrefused 13\nrefused 15\n";
    assert_eq!(answers, expected);
}

/// Request 3: "A refusal with a place has it behind the number."
#[test]
fn places() {
    let answers = ask_a(
        "read-text 312e322e33\nread-stamp 312e322f33\nread-message 07d031780002\nread-text 31303030303030303030303030303031\n\
         read-message 00\nread-message 0000\nread-message 310003\nend 1000\nprint-stamp 5 46 3\nread-stamp 2f\nstart 0\n\
         print-stamp 5 46 3\nprint-stamp 5 46 0\nsteps-back\nprint-count 1000 46 2\n",
    );
    let expected = "refused 7 4\nrefused 5 1\nrefused 5 1\nrefused 9 16\n\
                    refused 21\nrefused 22\nrefused 23\nrefused 2 2 2e2e2e\nrefused 2 2\n\
                    refused 2 2 2e2e2e\nrefused 2 2 .\nrefused 2 2\nrefused 9 2e2e\n";
    assert_eq!(answers, expected);
    let answers = ask_a("count 1201\ntime-of 0\ntime 5000\nrate 10000\ncount-at 0\nsegments\nsteps-back\n");
    assert_eq!(answers, "refused 3 2\nrefused 3 2\nrefused 3 0\n");
}

#[test]
fn at_the_start_nothing_is_there() {
    assert_eq!(ask("read-text 31\nprint-stamp 0 1 1\nsteps-back"), "refused 1\nrefused 1 01\nrefused 1\n");
    assert_eq!(
        ask("layout 1 1 5 0 0 0 0 0 0 0 0 0 0 0 0 0 0 0 0 0 0 0\nread-text 31\nsteps-back\n"),
        "ok 1\nrefused 2 0\n"
    );
}

#[test]
fn lines_that_are_passed_over() {
    assert_eq!(ask(""), "");
    assert_eq!(ask("\n\n#\n# read-text 31\n#\n"), "");
    assert_eq!(ask("#"), "");
    assert_eq!(ask(" #\n \n"), "bad line\nbad line\n");
}

#[test]
fn bad_lines_change_nothing() {
    let bad = "layout 1 1 5 0 0 0 0 0 0 0 0 0 0 0 0 0 0 0 0 0 0\npartitions \nstart 18446744073709551616\nend -1\n\
               segments 0\ncount\ntime 9223372036854775808\nrate 1 2\ntime-of  600\nTime-of 600\ntime-of 600\r\n";
    let questions = ask_a(&[bad, "time-of 600\nprint-stamp 1200 0 6"].concat());
    assert_eq!(questions, ["bad line\n".repeat(11), "ok 1000\nok 6 322f39302e30\n".to_string()].concat());
}

#[test]
fn the_range_of_numbers() {
    assert_eq!(ask_a("count-at 9223372036854775807\ncount-at -9223372036854775808"), "refused 14\nrefused 14\n");
    assert_eq!(ask_a("count-at 9223372036854775808\ncount-at -9223372036854775809"), "bad line\nbad line\n");
    assert_eq!(ask_a("time-of 18446744073709551615\ntime-of 18446744073709551616"), "refused 12\nbad line\n");
    assert_eq!(ask_a("time-of 000000000000000000000000000600\ncount-at -00997"), "ok 1000\nok 1\n");
    assert_eq!(ask_a("time-of -1\ntime-of +1\ncount-at +1\ncount-at -\ncount-at --1"), "bad line\n".repeat(5));
    assert_eq!(
        ask_a("print-count 1 256 4\nprint-count 1 255 257\nprint-count 1 255 1"),
        "bad line\nbad line\nrefused 16 ff\n"
    );
    let whole = ask_a("print-count 1 255 256");
    assert_eq!(whole, format!("ok 4 30302e31{}\n", "ff".repeat(252)));
}

#[test]
fn bytes_and_doubles() {
    for bad in ["3", "313", "3A", "3g", "", ".31", "..", "31 "] {
        assert_eq!(ask_a(&format!("read-text {}", bad)), "bad line\n", "{}", bad);
    }
    assert_eq!(ask_a(&format!("read-text {}", "31".repeat(2_000))), "refused 4\n");
    assert_eq!(ask_a(&format!("read-text {}", "31".repeat(2_001))), "bad line\n");
    for bad in ["000000000000000", "00000000000000000", "7FF0000000000000", "000000000000000g", "."] {
        assert_eq!(ask(&format!("back {} 0000000000000000 3ff0000000000000 1 0000000000000000", bad)), "bad line\n");
    }
    for nan in ["7ff8000000000000", "7ff0000000000001", "ffffffffffffffff", "fff8000000000000"] {
        assert_eq!(ask(&format!("back 0000000000000000 0000000000000000 3ff0000000000000 1 {}", nan)), "refused 15\n");
    }
}

#[test]
fn long_lines() {
    let line = |len: usize| ["time-of ", &"0".repeat(len - 11), "600"].concat();
    assert_eq!(ask_a(&line(140_000)), "ok 1000\n");
    assert_eq!(ask_a(&[&line(140_000), "\ntime-of 1\n"].concat()), "ok 1000\nok -997\n");
    assert_eq!(ask_a(&line(140_001)), "bad line\n");
    for len in [140_001, 140_002, 280_001, 280_002, 280_003, 1_000_000] {
        assert_eq!(ask_a(&[&line(len), "\ntime-of 1\n"].concat()), "bad line\nok -997\n", "{}", len);
    }
}

#[test]
fn a_list_holds_10_001_entries() {
    for (list, empty) in
        [("start 5", "partitions"), ("end 5", "partitions"), ("time -5", "segments"), ("rate 5", "segments")]
    {
        let lines = [list, "\n"].concat();
        assert_eq!(ask(&lines.repeat(10_001)), "");
        assert_eq!(ask(&lines.repeat(10_002)), "bad line\n");
        assert_eq!(ask(&[lines.repeat(10_001), format!("{}\n", empty), lines.repeat(10_002)].concat()), "bad line\n");
    }
    assert_eq!(ask(&"count 5\n".repeat(10_003)), "bad line\nbad line\n");
}

/// Table A as kernel text, in hex.
fn kernel_a() -> String {
    let text = "KPL/SCLK\n\\begindata\nSCLK_KERNEL_ID=@\nSCLK_DATA_TYPE_7=1\nSCLK01_TIME_SYSTEM_7=2\nSCLK01_N_FIELDS_7=2\n\
                SCLK01_MODULI_7=(100 10)\nSCLK01_OFFSETS_7=(0 0)\nSCLK01_OUTPUT_DELIM_7=1\nSCLK_PARTITION_START_7=(0 200)\n\
                SCLK_PARTITION_END_7=(500 900)\nSCLK01_COEFFICIENTS_7=(0 -1E-6 25E-9 600 1E-6 30E-9)\n\\begintext\n";
    text.bytes().map(|byte| format!("{:02x}", byte)).collect()
}

#[test]
fn kernel_questions() {
    let a = kernel_a();
    let answers = ask(&format!("read-kernel 7 3 3 2 2 3 2 2 {}\nread-kernel -007 1 0 2 2 3 2 2 {}\n", a, a));
    let expected = "ok 2 1 2 2 2 100,10,99 0,0,99 0,200 500,900 0,600,99 -1000,1000 25000,30000\n\
                    refused 16 99 . 99,99 99,99 99,99,99 99,99 99,99\n";
    assert_eq!(answers, expected);
    // Places of 2 and 3, and none of 16: an end of 1000 for 900; a seventh coefficient.
    let end = a.replace("35303020393030", "3530302031303030");
    assert_eq!(ask(&format!("read-kernel 7 1 0 1 0 0 1 0 {}", end)), "refused 2 1 99 . 99 . . 99 .\n");
    let surplus = a.replace("3330452d3929", "3330452d39203729");
    assert_eq!(ask(&format!("read-kernel 7 0 0 0 0 1 0 1 {}", surplus)), "refused 3 2 . . . . 99 . 99\n");
    // The script's tables are neither asked nor changed.
    let before = "time-of 600\nread-stamp 35302e31\nsteps-back\n";
    assert_eq!(ask_a(&format!("{}read-kernel 7 2 2 2 2 2 2 2 4b\n{}", before, before)).lines().count(), 7);
    assert_eq!(
        ask_a(&format!("read-kernel 7 2 2 2 2 2 2 2 {}\n{}", a, before)).lines().skip(1).collect::<Vec<_>>(),
        ["ok 1000", "ok 801", "ok no"]
    );
    assert_eq!(ask(&format!("read-kernel 7 2 2 2 2 2 2 2 {}\nsteps-back", a)).lines().nth(1), Some("refused 1"));
}

#[test]
fn kernel_lines() {
    assert_eq!(ask("read-kernel 0 0 0 0 0 0 0 0 ."), "refused 18 . . . . . . .\n");
    let forty = ["99"; 40].join(",");
    assert_eq!(
        ask("read-kernel 9223372036854775807 40 0 0 0 0 0 040 ."),
        format!("refused 18 {} . . . . . {}\n", forty, forty)
    );
    assert_eq!(ask("read-kernel -9223372036854775808 0 0 0 0 0 1 0 4b"), "refused 18 . . . . . 99 .\n");
    for bad in [
        "read-kernel",
        "read-kernel 7 2 2 2 2 2 2 2",
        "read-kernel 7 2 2 2 2 2 2 .",
        "read-kernel 7 2 2 2 2 2 2 2 2 .",
        "read-kernel 7 41 2 2 2 2 2 2 .",
        "read-kernel 7 2 2 2 2 2 2 41 .",
        "read-kernel 7 2 2 -1 2 2 2 2 .",
        "read-kernel 9223372036854775808 2 2 2 2 2 2 2 .",
        "read-kernel -9223372036854775809 2 2 2 2 2 2 2 .",
        "read-kernel 7 2 2 2 2 2 2 2 4",
        "read-kernel 7 2 2 2 2 2 2 2 4B",
        "read-kernel 7 2 2 2 2 2 2 2 . ",
    ] {
        assert_eq!(ask(bad), "bad line\n", "{}", bad);
    }
    // 65,600 bytes, and a line of 140,000.
    let padded = |len: usize| [kernel_a(), "78".repeat(len - kernel_a().len() / 2)].concat();
    let ok = "ok 2 1 2 2 2 100,10 0,0 0,200 500,900 0,600 -1000,1000 25000,30000\n";
    assert_eq!(ask(&["read-kernel 7 2 2 2 2 2 2 2 ", &padded(65_600)].concat()), ok);
    assert_eq!(ask(&["read-kernel 7 2 2 2 2 2 2 2 ", &padded(65_601)].concat()), "bad line\n");
    let line = |len: usize| {
        let back = ["7 2 2 2 2 2 2 2 ", &padded(65_600)].concat();
        ["read-kernel ", &"0".repeat(len - 12 - back.len()), &back].concat()
    };
    assert_eq!(ask(&line(140_000)), ok);
    assert_eq!(ask(&line(140_001)), "bad line\n");
}

/// A two-field clock of 256 subticks, offsets 0 and 1, and a partition of 0 to 1,000.
const CLOCK: &str = "layout 2 1 1000 256 0 0 0 0 0 0 0 0 0 1 0 0 0 0 0 0 0 0\npartitions\nstart 0\nend 1000\n";

#[test]
fn packet_questions() {
    let ask_clock = |questions: &str| ask(&[CLOCK, questions].concat());
    assert_eq!(ask_clock("read-packet 0800c0000002210100"), "ok 0 0 3 0 1 1 9 256 256\n");
    assert_eq!(
        ask_clock(
            "read-packet .\nread-packet 0800000000002f\nread-packet 0800000000003f\nread-packet 0800000000012004"
        ),
        "refused 25\nrefused 25\nrefused 26\nrefused 11\n"
    );
    assert_eq!(ask("read-packet 0800000000012004\nwrite-packet 0 0 0 0 1 1 0 7 2 ."), "refused 1\nrefused 1 0707\n");
    assert_eq!(ask_clock("write-packet 0 0 0 0 1 1 5 119 9 .\n"), "ok 9 080000000002210005\n");
    assert_eq!(ask_clock("write-packet 1 2047 3 16383 1 1 5 0 11 ff\n"), "ok 10 1fffffff0003210005ff00\n");
    assert_eq!(
        ask_clock(
            "write-packet 2 0 0 0 1 1 5 1 2 .\nwrite-packet 0 0 0 0 1 1 1001 1 0 .\nwrite-packet 0 0 0 0 1 1 5 1 8 .\n"
        ),
        "refused 26 0101\nrefused 12 .\nrefused 16 0101010101010101\n"
    );
    // The place stands directly behind the number.
    assert_eq!(
        ask_clock("start 5\nend 5\nread-packet 0800000000012000\nwrite-packet 0 0 0 0 1 1 5 16 2 .\nwrite-packet 0 0 0 0 1 1 5 1 0 .\n"),
        "refused 2 1\nrefused 2 1 1010\nrefused 2 1 .\n"
    );
    // The largest numbers of a line.
    assert_eq!(ask_clock("write-packet 255 65535 255 65535 255 255 18446744073709551615 255 1 ."), "refused 26 ff\n");
}

/// Sums are Adler-32; no tables are asked.
#[test]
fn walk_questions() {
    assert_eq!(ask("walk 65542 0 .\nwalk 0 0 .\nwalk 65600 65600 ."), "ok 0 00000001\nrefused 16\nrefused 25\n");
    // Six 0 and `abc`; a refusal leaves the tail.
    assert_eq!(
        ask("walk 65542 0 000000000000616263\nwalk 65541 2 7a7a\nwalk 65542 18446744073709551615 7a7a\n\
             walk 65542 2 00000000\nwalk 65600 6 21\n"),
        "ok 2 012900c6 7:00680062\nrefused 16\nrefused 25\nok 6 044100c6\nok 0 00000001 7:052800e7\n"
    );
    // Two packets, one of them a text of 9 bytes behind its header.
    assert_eq!(
        ask("walk 65542 0 0000000000005700000000000857696b697065646961"),
        "ok 0 00000001 7:005e0058 15:123c03a0\n"
    );
}

/// Numbers outside their range, words too few and too many, bytes too many: bad lines, nothing is changed.
#[test]
fn packet_lines() {
    for line in [
        "read-packet",
        "read-packet 0",
        "read-packet 08 00",
        "write-packet 0 0 0 0 1 1 5 0 16",
        "write-packet 0 0 0 0 1 1 5 0 16 . .",
        "write-packet 256 0 0 0 1 1 5 0 16 .",
        "write-packet 0 65536 0 0 1 1 5 0 16 .",
        "write-packet 0 0 256 0 1 1 5 0 16 .",
        "write-packet 0 0 0 65536 1 1 5 0 16 .",
        "write-packet 0 0 0 0 256 1 5 0 16 .",
        "write-packet 0 0 0 0 1 256 5 0 16 .",
        "write-packet 0 0 0 0 1 1 18446744073709551616 0 16 .",
        "write-packet 0 0 0 0 1 1 5 256 16 .",
        "write-packet 0 0 0 0 1 1 5 0 257 .",
        "walk 65542 2",
        "walk 65601 2 .",
        "walk 65542 18446744073709551616 .",
        "walk 65542 2 . .",
        "walk 65542 -2 .",
    ] {
        let script = ["walk 65542 0 6263\n", line, "\nwalk 65542 2 00000000\n"].concat();
        assert_eq!(ask(&script), "ok 2 012900c6\nbad line\nok 6 044100c6\n", "{}", line);
    }
    let bytes = |count: usize| "00".repeat(count);
    assert_eq!(ask(&["read-packet ", &bytes(65_600)].concat()), "refused 25\n");
    assert_eq!(ask(&["read-packet ", &bytes(65_601)].concat()), "bad line\n");
    assert_eq!(ask(&["write-packet 0 0 0 0 1 1 5 0 1 ", &bytes(65_600)].concat()), "refused 1 00\n");
    assert_eq!(ask(&["write-packet 0 0 0 0 1 1 5 0 1 ", &bytes(65_601)].concat()), "bad line\n");
    assert_eq!(ask(&["walk 65541 0 ", &bytes(2_000)].concat()), "refused 16\n");
    assert_eq!(ask(&["walk 65541 0 ", &bytes(2_001)].concat()), "bad line\n");
}

/// `older` copies all three tables; a change of the script's tables leaves the copy.
#[test]
fn two_tables() {
    assert_eq!(ask("succeeds\nhorizon\nolder\nsucceeds\n"), "refused older 1\n".repeat(3));
    assert_eq!(ask_a("succeeds\nolder\nsucceeds\nhorizon"), "refused older 1\nok yes\nok 1200\n");
    // Table A cut to its first partition and segment as the older, then as the newer.
    let cut = "partitions\nstart 0\nend 500\nsegments\ncount 0\ntime -1000\nrate 25000\n";
    let script = [A, cut, "older\nsucceeds\nhorizon\n", A, "succeeds\nhorizon\nolder\n", cut, "succeeds\nhorizon\n"];
    assert_eq!(ask(&script.concat()), "ok yes\nok 500\nok yes\nok 500\nok no partition 1\nok 0\n");
    // Each name and the row.
    for (lines, answers) in [
        ("layout 2 2 100 10 0 0 0 0 0 0 0 0 0 0 0 0 0 0 0 0 0 0\n", "ok no layout 0\nok 0\n"),
        ("start 7\nend 9\n", "ok yes\nok 1200\n"),
        ("partitions\nstart 0\nend 500\nstart 200\nend 899\n", "ok no partition 1\nok 0\n"),
        ("segments\ncount 0\ntime -1000\nrate 25000\n", "ok no segment 1\nok 600\n"),
        ("count 1200\ntime 5000\nrate 10000\n", "ok no further 2\nok 1200\n"),
        ("start 7\nend 9\ncount 1201\ntime 2802\nrate 10000\n", "ok no seam 1\nok 1200\n"),
        ("start 7\n", "refused newer 2 2\nrefused newer 2 2\n"),
        ("start 7\nolder\n", "refused older 2 2\nrefused older 2 2\n"),
        ("count 700\n", "refused newer 3 2\nrefused newer 3 2\n"),
    ] {
        assert_eq!(ask_a(&["older\n", lines, "succeeds\nhorizon\n"].concat()), answers, "{}", lines);
    }
    for bad in ["older ", "older 1", " older", "Older", "succeeds 1", "succeeds ", "succeed", "horizon 1", "horizons"] {
        assert_eq!(ask_a(&["older\n", bad, "\nsucceeds\n"].concat()), "bad line\nok yes\n", "{}", bad);
    }
}
