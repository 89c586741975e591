//! Lines of the form, and lines that break it.

use super::draft::{Item, Style};
use super::Writer;

/// Assignments of other names. A `|` stands for a line's end.
#[rustfmt::skip]
const GOOD: &[&str] = &[
    "X = 1", "X=1", "X=(1,2)", "X+=1", "X += 1", "X +=1", "X+= 1", "X+=(1)", "X\t=\t1", " X = 1 ", "\tX=1\t",
    "X+Y = 1", "+X = 1", "X+Y+=1", "X = ( 1,,2 )", "X = ( ,1 2, )", "X=(1)", "X = (1 2 3)", "X = ( 1\t2 )",
    "X = (|1|)", "X = ( 1| 2|)", "X = ( 1|||2 )", "X = ( 1|\t| 2 )", "X = (1,|2,|)", "X = (|,|1 )", "X = @",
    "X = @a'b=c", "X=@", "X = @@", "X = @'", "X = @1999-02-07/03:51:29.00", "X = ( @a @b )", "X = ( @ 1 @b 2 )",
    "X=(@a,1)", "X = (@)", "X = @a+=b", "X = 'a'", "X = 'a b'", "X = '='", "X = '(' ", "X = ')'", "X = ','",
    "X = '\\begintext'", "X = ''''", "X = 'a''b'", "X = '''a'''", "X = ' '", "X = ( 'a' 'b' )", "X = ('a','b')",
    "X = ( 'a b'|'c' )", "X = '@'", "X = '1'", "X = '\t'", "X = ( '('|')' )", "X = ( 'X = 1' )", "X = ''",
    "X = ( '' '' )", "X = 1.", "X = .5", "X = +.5", "X = -.5", "X = +1", "X = -1", "X = 1.5", "X = 1E5", "X = 1e5",
    "X = 1D5", "X = 1d5", "X = 1.E+5", "X = .5D-5", "X = 1E400", "X = 1E-400", "X = 0E99999999999999999999",
    "X = 1E99999999999999999999", "X = -1E-99999999999999999999", "X = 00001", "X = 1E00", "X = 1E-0", "X = 1E+0",
    "X = 0.0000", "X = -0", "X = 99999999999999999999999999999999999999999", "X = ( 1E400 -2.5 0.1 )",
    "X = ( 1 -1 +1 )", "x = 1", "X_1 = 1", "1 = 1", "@ = 1", "' = 1", "'a' = 'a'", "X.Y = 1", "X/Y = 1", "\\X = 1",
    "\\begintext = 1", "# = 1", "X\" = 1", "X; = 1", "+1 = 1", "- = 1", "X- = 1", "1E5 = 1E5", "SCLK = 1",
    "SCLK_KERNEL_IDX = 1", "SCLK_KERNEL_ID_77 = 1 ", "XSCLK_KERNEL_ID = 1", "sclk_kernel_id = 1", "SCLK01_MODULI = 5",
    "SCLK01_MODULI_ = 5", "SCLK02_MODULI_77 = 5", "SCLK_PARTITION_START = 'a'", "SCLK_DATA_TYPE = 2",
    "SCLK_DATA_TYPE_077 = 2", "SCLK_DATA_TYPE_-77 = 2", "SCLK_DATA_TYPE_77_77 = 3", "SCLK_DATA_TYPE77 = 3",
    "SCLK_DATA_TYPE_+77 = 3", "SCLK01_TIME_SYSTEM_0000 = 3", "X = 1|X = 1", "X = 1|X += 2|X = 'a'", "X += 1|X += 2",
    "|", "\t", " \t ", "||X = 1||",
];

/// Lines that are refused 19, by clause.
#[rustfmt::skip]
const BAD: &[(&str, &[&str])] = &[
    ("no operator", &[
        "X", "X 1", "X 1 = 2", "X : 1", "X + 1", "X ( 1 )", "X, = 1", "X - = 1", "X + = 1", "X Y = 1", "X +", "X+",
        "SCLK_KERNEL_ID", "X := 1", "1", "'a'", "@a", "X ++= 1", "X (= 1)", "X +(= 1", "X ,= 1", "X )=1",
    ]),
    ("no name", &[
        "= 1", "+= 1", "=", "+=", "(1)", "(X) = 1", ", = 1", "+=(1)", "==1", ")", "(", ",", "=(1)", "\t= 1", "( = 1",
        "), = 1", "=1 = 1", "= X", "=+1", "= = 1",
    ]),
    ("no value", &[
        "X =", "X=", "X +=", "X+=", "X =\t", "X =|1", "X =|( 1 )", "X =||", "X|= 1", "X +|= 1", "X =|(|1|)",
        "X = |'a'", "X += |1", "SCLK_KERNEL_ID =|@a", "X\t=\t\t", "X|=|1", "X+=|@a", "X =\t|(1)", " X = | 1",
        "X =||1",
    ]),
    ("a bare word", &[
        "X = abc", "X = a", "X = TRUE", "X = \"a\"", "X = 1a", "X = #", "X = \\begintext", "X = =1", "X == 1",
        "X=+=1", "X = a1", "X = ( a )", "X = ( 1 a )", "X = ( \\begintext )", "X = ( 1|a )", "X = 1;", "X = 1@a",
        "X = 1'a'", "X = a'b'", "X = ( 1'a' )", "X = X", "X = ;",
    ]),
    ("behind a value", &[
        "X = 1 2", "X = 1,", "X = 1 ;", "X = 1 Y = 2", "X = 1)", "X = 1(", "X = 1 ( 2 )", "X = @a b", "X = 'a' 'b'",
        "X = 'a',", "X = 1 , 2", "X = 1,2", "X = @a,", "X = @a @b", "X = 1\t2", "X = 1 @a", "X = 'a')", "X = 1 1|",
        "X = 1 )", "X = @ @", "X = 1 E5", "X = - 1", "X = 1=2",
    ]),
    ("behind a list", &[
        "X = ( 1 ) ;", "X = ( 1 ) 2", "X = ( 1 ),", "X = ( 1 ) )", "X = ( 1 ) ( 2 )", "X = ( 1 ) Y = 2", "X=(1)2",
        "X=(1)(", "X = ( 1|) Y = 2", "X = (1)x", "X = ( 1|2 ) ,", "X = ('a')'b'", "X = (@a)@b", "X = (1)=",
        "X = ( 1 )\t,", "X = ( 1 ) \\begintext", "X = (|1|)|)", "X=(1))", "X = (1).", "X = ( 1 ) 'a'",
    ]),
    ("a name's end", &[
        "X+ = 1", "X++=1", "X+ += 1", "+ = 1", "++=1", "X++ = 1", "X+\t= 1", "+ += 1", "X+Y+ = 1", "+X+ = 1",
        "X+++=1", "++ = 1", "+\t=1", "X+ =1", "X+ = ( 1 )", "X++=(1)", "XX+ = 'a'", "X+ = @", "X+++ = 1", "X+ +=1",
    ]),
    ("an empty list", &[
        "X = ( )", "X = ()", "X = ( , )", "X=(,,)", "X = (|)", "X = (\t)", "X = (|,|)", "X += ( )", "X = (||)",
        "X=()", "X+=()", "X = (  ,|, )", "X = (,)", "X = ( \t, )", "X = (|\t|)", "X=(|||)", "X = ( |)", "X = (|  )",
        "X = (, ,)", "X=(\t|)",
    ]),
    ("parentheses", &[
        "X = (( 1 ))", "X = )", "X = ( 1 ( 2 ) )", "X = ) 1 (", "X = ( 1 (|)", "X = ((1)", "X = @a(b)",
        "X = ( @a(b) )", "X = 1(2)", "X( = 1", "X) = 1", "X = ( 1 (2) )", "X = )1", "X = ()1", "X = ( (|1 ) )",
        "X = (1(2)", "X = ( 'a'( )", "X = ('a'('b'))", "(X = 1)", "X = ))", "X=)(",
    ]),
    ("no marker", &[
        "\\begintext x", "\\BEGINTEXT", "\\begintex", "\\begintextt", "\\begindata x", "\\Begindata", "x \\begintext",
        "\\ begintext", "begintext", "\\\\begindata", "\\begindata\\begindata", "\\begintext,", "\\BEGINDATA",
        "\\begindata 1", "/begintext", "'\\begintext'", "\\", "\\begin", "( \\begintext", "\\begintext\\",
        "\\beginText",
    ]),
    ("a string not closed", &[
        "X = '", "X = 'a", "X = 'a''", "X = '''", "X = ( 'a|b' )", "X = ( 'a )", "X = ('a' ')", "X = 'a\t",
        "X = ( 'a'|'b )", "X = ( '|' )", "X = '''''", "X = 'a|'", "X = ('a''|)", "X = ''''''a", "X = '(|)", "X = ')",
        "X = '\\begintext", "X = ( 'a,b )", "X += '", "X=(')",
    ]),
    ("a string's end", &[
        "X = 'a'b", "X = 'a'1", "X = ('a'b)", "X = ('a'@b)", "X = ''a", "X = 'a'@", "X = 'a'=", "X = 'a'+",
        "X = ( 'a' 'b'c )", "X = 'a'.", "X = ('a'1)", "X = 'a''b'c", "X = ''''a", "X = ('a'-)", "X = 'a'\\",
        "X = 'a'\"b\"", "X = ( ''b )", "X = 'a'X", "X += 'a'b", "X=('a'=)",
    ]),
    ("strings and others", &[
        "X = ( 'a' 1 )", "X = ( 1 'a' )", "X = ( @a 'b' )", "X = ( 'a' @b )", "X = ( 1 2 'a' )", "X = ( 'a' 'b' 1 )",
        "X = ( 'a'|1 )", "X = ('a',@)", "X = ( 1,'' )", "X = ( @ 1 'a' )", "X = ( '' 1 )", "X = ( 'a' 'b' @c )",
        "X=(1|'a'|2)", "X = ( 'a' 1 'b' )", "X = ( @a @b 'c' )", "X = ( 1 'a' 1 )", "X = ( 'a' -1 )",
        "X = ( 1E5 'E5' )", "X += ( 'a' 1 )", "X = ( 'a',,1 )",
    ]),
    ("no number", &[
        "X = 1E", "X = 1E+", "X = E5", "X = .", "X = +", "X = -", "X = --1", "X = +-1", "X = 1-", "X = 1+1",
        "X = 1.2.3", "X = 1..2", "X = 1e5.0", "X = 1F5", "X = 0x1", "X = 1_000", "X = .E5", "X = 1E5E5", "X = 1ED5",
        "X = INF", "X = NaN", "X = ( 1 1E 2 )", "X = ( . )", "X = (1,-)", "X = ( 1 2- )", "X = 1E+-5", "X = 1D",
        "X = 1d-", "X = 1EE5", "X = +.", "X = -.E1", "X = 1.E", "X = 5.-", "X = 1E5-", "X = 1E 5", "X = 1E.5",
        "X = +E5", "X = ..5", "X = 1q5", "X = ( 1E5.", "X = ++1",
    ]),
];

/// Bytes that no data line has.
const BYTES: &[u8] = &[0, 1, 8, 11, 12, 13, 14, 27, 31, 127, 128, 160, 200, 255];

pub fn all(writer: &mut Writer) {
    first_lines(writer);
    for line in GOOD {
        insert(writer, "ok: another name", &lines(line), Style::Short);
        insert(writer, "ok: another name", &lines(line), Style::Any);
    }
    for (clause, bad) in BAD {
        for line in *bad {
            insert(writer, &["19: ", clause].concat(), &lines(line), Style::Short);
        }
    }
    lengths(writer);
    bytes(writer);
    blocks(writer);
    line_ends(writer);
}

fn lines(line: &str) -> Vec<u8> {
    line.replace('|', "\n").into_bytes()
}

/// A sound kernel with these lines somewhere in its data block.
fn insert(writer: &mut Writer, label: &str, lines: &[u8], style: Style) {
    let mut draft = writer.base();
    draft.insert(&mut writer.random, lines);
    let text = draft.text(&mut writer.random, style);
    let lent = if label.starts_with("ok") { super::room(&mut writer.random, &draft) } else { [1; 7] };
    writer.kernel(label, draft.clock, lent, &text);
}

fn first_lines(writer: &mut Writer) {
    for first in ["KPL/SCLK", "KPL/SCLK ", "KPL/SCLK   ", "KPL/SCLK\r", "KPL/SCLK \r", "KPL/SCLK\r ", "KPL/SCLK  \r  "]
    {
        for _ in 0..3 {
            let mut draft = writer.base();
            draft.items[0] = Item::Line(first.as_bytes().to_vec());
            writer.draft("ok: first line", &draft);
        }
    }
    #[rustfmt::skip]
    const FIRST: &[&[u8]] = &[
        b"", b" KPL/SCLK", b"\tKPL/SCLK", b"KPL/SCLK\t", b"KPL/SCLK\r\r", b"KPL/SCLK \r \r", b"kpl/sclk", b"KPL/sclk",
        b"KPL/LSK", b"KPL/SCLKX", b"KPL/SCLK x", b"KPL/SCL", b"KPL", b"\nKPL/SCLK", b"\xef\xbb\xbfKPL/SCLK",
        b"KPL/SCLK\0", b"KPL/SCLK\\begindata", b"KPL /SCLK", b"KPL/SCLK\r\t", b"KPL/SCLK\t\r", b"KPL/SCLK\x0b",
        b"DAF/SCLK", b"\rKPL/SCLK", b"\r", b"\\begindata", b"KPL/SCLK\r\r\r", b"KPL/SCLK\rX", b"   ", b"'KPL/SCLK'",
        b"KPL/SCLK,",
    ];
    for first in FIRST {
        let mut draft = writer.base();
        draft.items[0] = Item::Line(first.to_vec());
        writer.draft("18: first line", &draft);
    }
    // Texts that are nothing else, or begin a line late.
    for text in [
        &b""[..],
        b"\n",
        b"\r\n",
        b"\n\n",
        b"K",
        b"KPL/SCL",
        b"KPL/SCLK\t",
        b" KPL/SCLK",
        b"\0",
        b"   KPL/SCLK\n   \\begindata\n",
    ] {
        writer.kernel("18: first line", 77, [0, 1, 2, 0, 1, 2, 0], text);
    }
    // And those that have nothing but a good one.
    for text in [
        &b"KPL/SCLK"[..],
        b"KPL/SCLK\n",
        b"KPL/SCLK\r\n",
        b"KPL/SCLK \r ",
        b"KPL/SCLK\n\\begindata",
        b"KPL/SCLK\n\\begindata\n\\begintext\n",
    ] {
        writer.kernel("19: a name missing", -77, [1, 0, 2, 0, 1, 2, 0], text);
    }
}

/// Lines, names and strings at their limits and one beyond.
fn lengths(writer: &mut Writer) {
    for len in [131, 132, 133, 134, 200] {
        let label = if len > 132 { "19: a line of over 132 bytes" } else { "ok: a line of up to 132 bytes" };
        let pad =
            |front: &str, byte: &str, back: &str| [front, &byte.repeat(len - front.len() - back.len()), back].concat();
        for line in [
            pad("X = ", "0", "1"),
            pad("X = (1", " ", "2)"),
            pad("X = @", "a", ""),
            pad("X = 1", "\t", ""),
            pad("", " ", "X = 1"),
            pad("", "\t", ""),
            pad("X = ('a' ", ",", "'b')"),
            // A list's second line.
            ["X = (1\n", &pad("", "0", "2"), "\n)"].concat(),
        ] {
            insert(writer, label, line.as_bytes(), Style::Short);
        }
        // What is dropped at a line's end is not counted.
        for end in ["  ", "\r", " \r ", "          "] {
            insert(writer, label, [&pad("X = ", "0", "1"), end].concat().as_bytes(), Style::Short);
        }
    }
    for len in [1, 31, 32, 33, 34, 60] {
        let label = if len > 32 { "19: a name of over 32 bytes" } else { "ok: a name of up to 32 bytes" };
        let name = "N".repeat(len);
        for line in ["= 1", " = 1", "+=1", " += (1 2)", "=@", "\t='a'", " =(|1)"] {
            insert(writer, label, &lines(&[&name, line].concat()), Style::Short);
        }
    }
    for len in [0, 1, 79, 80, 81, 82, 100] {
        let label = if len > 80 { "19: a string of over 80 characters" } else { "ok: a string of up to 80 characters" };
        let quotes = ["b".repeat(len / 2), "''".repeat(len - len / 2)].concat();
        for string in ["a".repeat(len), " ".repeat(len), quotes] {
            for line in [format!("X = '{}'", string), format!("X=('{}')", string), format!("X=('a'|'{}')", string)] {
                insert(writer, label, &lines(&line), Style::Short);
            }
        }
    }
}

/// Each such byte in a line of its own, in a gap, a name, a number, a date, a string; and in comments.
fn bytes(writer: &mut Writer) {
    for &byte in BYTES {
        for (front, back) in [
            ("", ""),
            ("X", " = 1"),
            ("X =", " 1"),
            ("X = 1", "1"),
            ("X = @a", "b"),
            ("X = 'a", "b'"),
            ("X = (1 ", " 2)"),
            ("X = 1 ", " X"),
        ] {
            // A 13 alone or at the line's end would be dropped.
            if byte == 13 && back.is_empty() {
                continue;
            }
            let line = [front.as_bytes(), &[byte], back.as_bytes()].concat();
            insert(writer, "19: a byte", &line, Style::Short);
        }
        let mut draft = writer.base();
        let comment = [&b"a "[..], &[byte], b" b"].concat();
        draft.items.insert(1, Item::Line(comment.clone()));
        draft.line("\\begintext");
        draft.items.push(Item::Line([byte; 200].to_vec()));
        draft.items.push(Item::Line(comment));
        writer.draft("ok: comments", &draft);
    }
    // Two 13 at a line's end: one is dropped.
    for line in
        ["X = 1\r\r", "X = 1\r \r", "\r\r", "X = (1\r\r|2)", "X = (1|2\r\r|)", "\r\t", "X = 1\r\t\r", "X = 1\t\r\r"]
    {
        insert(writer, "19: a byte", &lines(line), Style::Short);
    }
}

/// Several blocks, comments with anything, markers in lists.
fn blocks(writer: &mut Writer) {
    for marker in
        ["\\begintext", " \\begintext", "\\begintext\t", "\t \\begintext \t", "\\begintext\r", "\\begintext \t \r "]
    {
        for data in ["\\begindata", "  \\begindata", "\\begindata\t", "\\begindata \r"] {
            let mut draft = writer.base();
            let place = 2 + writer.random.below(draft.items.len() - 1);
            let between = format!(
                "{}\nSCLK_KERNEL_ID = \nX = ( 'a\n\\begindata x\n \\begintext y\n\\BEGINDATA\n\u{e9}\u{0}\n{}",
                marker, data
            );
            draft.items.insert(place, Item::Line(between.into_bytes()));
            writer.draft("ok: comments", &draft);
        }
    }
    // A marker may have many blanks and tabs before it.
    for marker in [
        format!("{:>150}", "\\begindata"),
        format!("{}\\begindata", "\t".repeat(140)),
        format!("\\begindata{}", "\t".repeat(140)),
    ] {
        let mut draft = writer.base();
        draft.items[1] = Item::Line(marker.clone().into_bytes());
        writer.draft("ok: a long marker", &draft);
        draft.line(&marker.replace("data", "text"));
        draft.line("X =");
        draft.line(&marker);
        writer.draft("ok: a long marker", &draft);
    }
    // Comments before the first block.
    for comment in [
        "",
        "\\begintext",
        "\\begindata x",
        "X =",
        "x\\begindata",
        "\\begindata\\begindata",
        "\\begindata.",
        "KPL/SCLK",
        "\\BEGINDATA",
        "(",
        "\u{0}\u{1}\u{ff}",
        "\r",
        "SCLK_KERNEL_ID = @",
    ] {
        for _ in 0..2 {
            let mut draft = writer.base();
            draft.items.insert(1, Item::Line(comment.as_bytes().to_vec()));
            writer.draft("ok: comments", &draft);
        }
        let mut draft = writer.base();
        draft.line("\\begintext");
        draft.line(comment);
        writer.draft("ok: comments", &draft);
    }
    // `\begindata` in a block and in a list does nothing.
    for line in [
        "\\begindata",
        "X = ( 1|\\begindata|2 )",
        "X = (|\\begindata|1)",
        "X = (|\\begindata|\t\\begindata \r|1|\\begindata|)",
        "\\begindata|\\begindata",
        "X = (1|\\begindata\t|)",
    ] {
        for _ in 0..4 {
            insert(writer, "ok: a marker in data", &lines(line), Style::Short);
        }
    }
    for line in [
        "X = ( 1|\\begintext|\\begindata|)",
        "X = (|\\begintext|\\begindata|1)",
        "X = ('a'|\t\\begintext|x|\\begindata|)",
        "X = (1,|\\begintext \r|\\begindata|2 )",
        "X = ( 1|\\begintext",
    ] {
        for _ in 0..4 {
            insert(writer, "19: open at a block's end", &lines(line), Style::Short);
        }
    }
    for line in ["X = (", "X = ( 1", "X = ( 1,", "X = (|1|", "X=('a'", "X = ( 1|\\begindata|", "X = (1|\t", "X+=(@a"] {
        for _ in 0..3 {
            let mut draft = writer.base();
            draft.items.push(Item::Line(lines(line)));
            writer.draft("19: open at the text's end", &draft);
        }
    }
    // All names in comments, or no block at all.
    for from in 1..4 {
        for marker in ["", "\\begintext", "\\begindata x", "\\BEGINDATA", "\\begindat", "begindata", "\\begindata\r\r"]
        {
            let mut draft = writer.base();
            draft.items[1] = Item::Line(marker.as_bytes().to_vec());
            if from > 1 {
                draft.items.insert(from, Item::Line(b"\\begintext".to_vec()));
            }
            writer.draft("19: a name missing", &draft);
        }
    }
}

/// Ends of all lines: blanks, a 13, both, tabs.
fn line_ends(writer: &mut Writer) {
    for end in ["", " ", "   ", "\r", " \r", "\r ", "  \r  "] {
        for style in [Style::Short, Style::Any] {
            let draft = writer.base();
            let text = draft.text(&mut writer.random, style);
            let text: Vec<u8> = text.into_iter().filter(|byte| *byte != 13).collect();
            let lines: Vec<&[u8]> = text.split(|&byte| byte == 10).collect();
            let text = lines.join([end.as_bytes(), b"\n"].concat().as_slice());
            let lent = super::room(&mut writer.random, &draft);
            writer.kernel("ok: ends of lines", draft.clock, lent, &text);
        }
    }
    for end in ["\t", " \t", "\t\r", "\t \r "] {
        let draft = writer.base();
        let text = draft.text(&mut writer.random, Style::Short);
        let mut lines = text.splitn(2, |&byte| byte == 10);
        let (first, rest) = (lines.next().unwrap_or(&[]), lines.next().unwrap_or(&[]));
        let rest: Vec<&[u8]> = rest.split(|&byte| byte == 10).collect();
        let text = [first, b"\n", &rest.join([end.as_bytes(), b"\n"].concat().as_slice())].concat();
        let lent = super::room(&mut writer.random, &draft);
        writer.kernel("ok: ends of lines", draft.clock, lent, &text);
    }
}
