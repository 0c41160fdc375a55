use crate::Random;

const COLUMNS: usize = 14;

/// A text with one place or two damaged.
pub fn damage(random: &mut Random, text: String) -> Vec<u8> {
    let mut text = text.into_bytes();

    for _ in 0..random.choose(&[1, 1, 1, 2]) {
        if !text.is_empty() {
            damage_once(random, &mut text);
        }
    }

    text
}

fn damage_once(random: &mut Random, text: &mut Vec<u8>) {
    let place = random.below(text.len());

    match random.below(14) {
        0 => text[place] = random.number() as u8,
        1 => text[place] = random.choose(b"0123456789 -+.,\t\n\r\0"),
        2 => text.insert(place, random.choose(b"0 \n1")),
        3 => {
            text.remove(place);
        }
        4 => text.truncate(place),
        5 => {
            text.pop();
        }
        6 => text.push(random.choose(b"\n 0")),
        7 => text.extend_from_slice(b"             0\n"),
        8 => copy_line(random, text),
        9 => remove_line(random, text),
        10 => {
            // A leading zero in front of some number.
            let digits = (1..text.len())
                .filter(|&index| text[index].is_ascii_digit() && text[index - 1] == b' ')
                .collect::<Vec<_>>();

            if !digits.is_empty() {
                text[random.choose(&digits) - 1] = b'0';
            }
        }
        11 => {
            let line = random.choose(&[b"\r\n".as_slice(), b"\n\n", b" \n"]);

            if let Some(end) = line_ends(text).first().copied() {
                text.splice(end..end + 1, line.iter().copied());
            }
        }
        12 => change_count(random, text),
        _ => set_number(random, text),
    }
}

fn line_ends(text: &[u8]) -> Vec<usize> {
    (0..text.len())
        .filter(|&index| text[index] == b'\n')
        .collect()
}

/// Some line with its line feed.
fn line(random: &mut Random, text: &[u8]) -> (usize, usize) {
    let ends = line_ends(text);

    if ends.is_empty() {
        return (0, text.len());
    }

    let index = random.below(ends.len());

    (
        index.checked_sub(1).map_or(0, |index| ends[index] + 1),
        ends[index] + 1,
    )
}

fn copy_line(random: &mut Random, text: &mut Vec<u8>) {
    let (start, end) = line(random, text);
    let copy = text[start..end].to_vec();

    text.splice(start..start, copy);
}

fn remove_line(random: &mut Random, text: &mut Vec<u8>) {
    let (start, end) = line(random, text);

    text.drain(start..end);
}

/// One number more in some line, or one less.
fn change_count(random: &mut Random, text: &mut Vec<u8>) {
    // Lines before the job file are few and count as much as all others.
    let (start, end) = if random.once_in(2) {
        line(random, text)
    } else {
        match line_ends(text)[..] {
            [one, other, ..] => (one + 1, other + 1),
            _ => return,
        }
    };

    if random.once_in(2) {
        let number = random.choose(b"01");

        text.splice(
            start..start,
            format!("{:>COLUMNS$}", number as char).into_bytes(),
        );
    } else if end - start > COLUMNS {
        text.drain(start..start + COLUMNS);
    }
}

/// Another number in some field, at a limit or beyond.
fn set_number(random: &mut Random, text: &mut [u8]) {
    let (start, end) = line(random, text);
    let count = (end - start) / COLUMNS;

    if count > 0 {
        let field = start + COLUMNS * random.below(count);
        let number = random.choose(&[
            0u64,
            1,
            2,
            8,
            16,
            17,
            64,
            65,
            80,
            81,
            1_024,
            1_025,
            4_294_967_295,
            4_294_967_296,
            10_000_000_000_000,
            10_000_000_000_001,
            99_999_999_999_999,
        ]);

        text[field..field + COLUMNS].copy_from_slice(format!("{number:14}").as_bytes());
    }
}
