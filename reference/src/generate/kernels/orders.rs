//! Two faults at once, for each pair of refusals and for both orders in the text.

use super::draft::*;
use super::Writer;

/// Refusals in their order.
const ORDER: [u32; 7] = [18, 19, 20, 1, 2, 3, 16];

pub fn all(writer: &mut Writer) {
    for (i, &first) in ORDER.iter().enumerate() {
        for (apart, &second) in ORDER[i + 1..].iter().enumerate() {
            // Neighbours more often.
            for way in 0..if apart == 0 { 24 } else { 6 } {
                pair(writer, first, second, way);
            }
        }
    }
}

fn pair(writer: &mut Writer, first: u32, second: u32, way: usize) {
    let mut draft = writer.of(&super::table_a());
    let mut lent = draft.lent;
    let mut places = vec![];
    for refusal in [second, first] {
        if refusal == 16 {
            lent[way % 7] = way / 7 % 2;
        } else {
            places.extend(break_rule(writer, &mut draft, refusal, way));
        }
    }
    // One fault before the other, in either order, as far as the text has places for them.
    if let [Some(a), Some(b)] =
        [places.first(), places.get(1)].map(|place| place.map(|name: &usize| draft.place(*name)))
    {
        if (a < b) == (way % 2 == 0) {
            draft.items.swap(a, b);
        }
    }
    let text = draft.text(&mut writer.random, Style::Short);
    let place = place(first, way).map_or(String::new(), |place| format!(" {}", place));
    writer.kernel(&format!("{}{}: before {}", first, place, second), draft.clock, lent, &text);
}

/// Of a rule that is broken as below.
fn place(refusal: u32, way: usize) -> Option<usize> {
    match (refusal, way % 6) {
        (3, 0) => Some(0),
        // One entry more in one list of two.
        (2 | 3, 1) => Some(2),
        (2 | 3, _) => Some(1),
        _ => None,
    }
}

/// Breaks one rule of that refusal; the name that it is broken in, if it is one name.
fn break_rule(writer: &mut Writer, draft: &mut Draft, refusal: u32, way: usize) -> Option<usize> {
    let mut set = |name: usize, place: usize, value: &str| {
        draft.set_of(name).values[place] = value.to_string();
        Some(name)
    };
    match (refusal, way % 6) {
        (18, _) => {
            draft.items[0] = Item::Line([&b"KPL"[..], b"", b"KPL/SCLK\t", b"kpl/sclk"][way % 4].to_vec());
            None
        }
        (19, 0) => set(TYPE, 0, "2"),
        (19, 1) => set(ID, 0, "a"),
        (19, 2) => {
            let name = draft.name(DELIMITER);
            draft.items.retain(|item| !matches!(item, Item::Set(set) if set.name == name));
            None
        }
        (19, 3) => {
            draft.insert(&mut writer.random, b"X =");
            None
        }
        (19, 4) => {
            draft.set_of(DELIMITER).operator = "+=";
            Some(DELIMITER)
        }
        (19, _) => {
            draft.line("X = ( 1");
            None
        }
        (20, 0) => set(STARTS, 0, "0.5"),
        (20, 1) => set(COEFFICIENTS, 5, "30.0001E-9"),
        (20, 2) => set(MODULI, 1, "-10"),
        (20, 3) => set(ENDS, 0, "1E20"),
        (20, 4) => set(FIELDS, 0, "2.5"),
        (20, _) => set(COEFFICIENTS, 1, "-1E10"),
        (1, 0) => set(DELIMITER, 0, "6"),
        (1, 1) => {
            draft.set_of(OFFSETS).values.push("0".to_string());
            Some(OFFSETS)
        }
        (1, 2) => set(MODULI, 0, "0"),
        (1, 3) => set(OFFSETS, 1, "1001"),
        (1, 4) => set(MODULI, 0, "1E15"),
        (1, _) => {
            draft.set_of(MODULI).values.pop();
            Some(MODULI)
        }
        (2, 0) => set(ENDS, 1, "1000"),
        (2, 1) => {
            draft.set_of(ENDS).values.push("5".to_string());
            Some(ENDS)
        }
        (2, 2) => set(STARTS, 1, "900"),
        (2, 3) => {
            draft.set_of(STARTS).values.pop();
            Some(STARTS)
        }
        (2, 4) => set(STARTS, 1, "18446744073709551615"),
        (2, _) => set(ENDS, 1, "0"),
        (_, 0) => set(COEFFICIENTS, 2, "1E-9"),
        (_, 1) => {
            draft.set_of(COEFFICIENTS).values.push("700".to_string());
            Some(COEFFICIENTS)
        }
        (_, 2) => set(COEFFICIENTS, 3, "0"),
        (_, 3) => set(COEFFICIENTS, 4, "-1"),
        (_, 4) => {
            draft.set_of(COEFFICIENTS).values.pop();
            Some(COEFFICIENTS)
        }
        (_, _) => set(COEFFICIENTS, 3, "1201"),
    }
}
