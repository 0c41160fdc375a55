use sheet::{job_a, write_job};

/// Where the lines of Job A's file are.
pub const FIRST: usize = 0;
pub const VEHICLE: usize = 1;
pub const STOP: usize = 3;
pub const ROW: usize = 5;
pub const COUNT: usize = 7;
pub const DRAW: usize = 8;

/// The lines of Job A's file, each with its line feed.
pub fn lines() -> Vec<String> {
    write_job(&job_a())
        .split_inclusive('\n')
        .map(str::to_owned)
        .collect()
}

/// Its file with other text for a whole line.
pub fn with_line(line: usize, text: &str) -> String {
    let mut lines = lines();

    lines[line] = text.to_owned();
    lines.concat()
}

/// Its file with other text for the 14 columns of one number.
pub fn with_field(line: usize, place: usize, text: &str) -> String {
    let mut columns = lines()[line].clone();

    columns.replace_range(14 * place..14 * (place + 1), text);
    with_line(line, &columns)
}

/// Its file with another number, as a file has it: in 14 columns.
pub fn with_number(line: usize, place: usize, number: u64) -> String {
    with_field(line, place, &format!("{number:14}"))
}
