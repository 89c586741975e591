//! Messages: every L around its edges.

use super::table_a;
use crate::generate::writer::Writer;
use crate::script::Question;

pub fn all(writer: &mut Writer) {
    writer.load(&table_a());
    short(writer);
    around_the_start(writer);
    around_96(writer);
    // The trailer's bytes the other way round, and each alone.
    for trailer in [[5, 0], [0, 5], [1, 5], [5, 5], [0, 255], [255, 0], [255, 251], [128, 5]] {
        let message = [&b"\x07\xd01/5.3"[..], &trailer].concat();
        writer.ask(Question::ReadMessage(&message));
    }
    // Payload of many lengths; it is not looked at.
    for payload in [0, 1, 2, 3, 94, 95, 96, 97, 254, 255, 256, 257, 1_000, 1_993] {
        let payload: Vec<u8> = (0..payload).map(|_| writer.random.word() as u8).collect();
        let message = [&payload[..], b"1/5.3\x00\x05"].concat();
        writer.ask(Question::ReadMessage(&message));
    }
    // Each refusal of a stamp, in a message.
    let two_long = "9".repeat(96);
    for text in [
        "x",
        "1/2/3",
        "/5",
        "1.2.3",
        ".5",
        "9999999999999999",
        &two_long,
        "0/1",
        "3/1",
        "1/50.1",
        "99.9",
        "1/50",
        " 30.0 ",
    ] {
        for payload in ["", "12"] {
            let message = [payload.as_bytes(), text.as_bytes(), &[0, text.len() as u8]].concat();
            writer.ask(Question::ReadMessage(&message));
        }
    }
}

/// None to four bytes.
fn short(writer: &mut Writer) {
    writer.ask(Question::ReadMessage(b""));
    for byte in [0, 1, 2, 49, 255] {
        writer.ask(Question::ReadMessage(&[byte]));
    }
    for l in [0u16, 1, 2, 3, 95, 96, 97, 255, 256, 257, 32_767, 32_768, 65_279, 65_534, 65_535] {
        for text in ["", "5", "30", "50 "] {
            let message = [text.as_bytes(), &l.to_be_bytes()].concat();
            writer.ask(Question::ReadMessage(&message));
        }
    }
}

/// L from 0 to more than there is.
fn around_the_start(writer: &mut Writer) {
    for front in ["", "2", "\x07\u{7f}", "  ", "1 "] {
        let text = [front, "2/30.0"].concat();
        for l in 0..text.len() as u16 + 4 {
            let message = [text.as_bytes(), &l.to_be_bytes()].concat();
            writer.ask(Question::ReadMessage(&message));
        }
    }
}

/// L from 94 to 98 in messages that are as long, longer and shorter.
fn around_96(writer: &mut Writer) {
    for l in 94..=98u16 {
        for before in 93..=99 {
            let text = [" ".repeat(before - 3), "2.1".to_string()].concat();
            let message = [text.as_bytes(), &l.to_be_bytes()].concat();
            writer.ask(Question::ReadMessage(&message));
        }
        // What stands before the text's first byte.
        let text = ["x".to_string(), " ".repeat(92), "2.1".to_string()].concat();
        let message = [text.as_bytes(), &l.to_be_bytes()].concat();
        writer.ask(Question::ReadMessage(&message));
    }
}
