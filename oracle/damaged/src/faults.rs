//! Files that have not the form: each is Job A's with one fault, and refused as 14.

use crate::{
    text::{lines, with_field, with_line, COUNT, DRAW, FIRST, ROW, STOP, VEHICLE},
    Named,
};
use sheet::{job_a, write_job};

/// A line of each sort, the place of its last number, and what to call it.
const SORTS: [(usize, usize, &str); 6] = [
    (FIRST, 7, "first_line"),
    (VEHICLE, 1, "vehicle"),
    (STOP, 0, "stop"),
    (ROW, 2, "row"),
    (COUNT, 0, "draw_count"),
    (DRAW, 0, "draw"),
];

pub fn files() -> Vec<Named> {
    let mut files = vec![];

    for (line, last, name) in SORTS {
        for (fault, text) in in_line(line, last) {
            files.push((format!("{fault}_in_{name}"), text.into_bytes()));
        }
    }

    // the middle number of the table, which is 0
    for (name, field) in [
        ("zero_in_front", "            01"),
        ("zeros_in_front", "00000000000000"),
        ("sign_plus", "            +0"),
        ("sign_minus", "            -0"),
        ("letter", "             o"),
        ("letter_after", "            0m"),
        ("letter_in_front", "           x00"),
        ("point", "           0.0"),
        ("comma", "         1,000"),
        ("exponent", "           1e3"),
        ("before_the_digits", "             /"),
        ("after_the_digits", "             :"),
        ("space_inside", "           1 0"),
        ("number_to_the_left", "0             "),
        ("two_numbers", "      1      0"),
        ("zero_byte", "\0            0"),
        ("zero_byte_for_digit", "             \0"),
        ("line_feed_for_space", "            \n0"),
        ("return_for_space", "            \r0"),
        ("other_space", "           \u{a0}0"),
    ] {
        files.push((name.into(), with_field(ROW, 1, field).into()));
    }

    files.extend(around_lines());
    files
}

/// What may be wrong with a line of any sort.
fn in_line(line: usize, last: usize) -> Vec<(&'static str, String)> {
    let all = lines();
    let whole = &all[line];
    let number = whole[14 * last..].trim();
    let replaced = |field: String| with_field(line, last, &field);

    vec![
        ("column_missing", replaced(format!("{number:>13}"))),
        ("column_extra", replaced(format!("{number:>15}"))),
        ("number_missing", replaced(String::new())),
        (
            "number_extra",
            replaced(format!("{number:>14}{number:>14}")),
        ),
        ("blank", replaced(" ".repeat(14))),
        ("shifted", replaced(format!("{number:>13} "))),
        ("tab", replaced(format!("\t{number:>13}"))),
        (
            "leading_zero",
            replaced(format!("{:>14}", format!("0{number}"))),
        ),
        ("byte_extra", with_line(line, &whole.replace('\n', " \n"))),
        ("line_missing", with_line(line, "")),
        ("line_extra", with_line(line, &whole.repeat(2))),
        ("line_blank", with_line(line, &format!("\n{whole}"))),
        ("line_feed_missing", with_line(line, whole.trim_end())),
        ("return", with_line(line, &whole.replace('\n', "\r\n"))),
    ]
}

/// What may be wrong with the whole file.
fn around_lines() -> Vec<Named> {
    let file = write_job(&job_a());
    let mut not_ascii = file.clone().into_bytes();

    not_ascii[0] = 255;

    vec![
        ("empty".into(), vec![]),
        ("line_feed_only".into(), b"\n".to_vec()),
        ("first_line_only".into(), lines()[FIRST].clone().into()),
        ("first_byte_missing".into(), file[1..].into()),
        ("last_byte_missing".into(), file[..file.len() - 1].into()),
        (
            "last_two_bytes_missing".into(),
            file[..file.len() - 2].into(),
        ),
        ("space_before".into(), format!(" {file}").into()),
        ("line_feed_before".into(), format!("\n{file}").into()),
        ("mark_before".into(), format!("\u{feff}{file}").into()),
        ("space_after".into(), format!("{file} ").into()),
        ("line_feed_after".into(), format!("{file}\n").into()),
        ("zero_byte_after".into(), format!("{file}\0").into()),
        ("file_after".into(), file.repeat(2).into()),
        ("returns".into(), file.replace('\n', "\r\n").into()),
        (
            "returns_for_line_feeds".into(),
            file.replace('\n', "\r").into(),
        ),
        ("tabs".into(), file.replace("        ", "\t").into()),
        ("byte_255".into(), not_ascii),
    ]
}
