use crate::CALL_COUNT;

const NAMES: [&str; CALL_COUNT] = [
    "weigh",
    "start",
    "two-opt",
    "rebuild",
    "exhaustive",
    "pruned",
    "solve",
    "arrive",
    "cancel",
    "view",
    "move",
    "roadworks",
];

/// A table of counts by call: the heading of its first column, and a name and the counts for each row. No count is no text.
pub fn call_table(
    heading: &str,
    rows: impl IntoIterator<Item = (String, [usize; CALL_COUNT])>,
) -> String {
    let header = format!(
        "| {heading} | {} | sum |\n{}|\n",
        NAMES.join(" | "),
        "|---".repeat(CALL_COUNT + 2)
    );

    rows.into_iter()
        .fold(header, |text, (name, counts)| text + &row(&name, &counts))
}

fn row(name: &str, counts: &[usize; CALL_COUNT]) -> String {
    let cells = counts
        .iter()
        .map(|&count| match count {
            0 => " |".to_string(),
            _ => format!(" {count} |"),
        })
        .collect::<String>();

    format!("| {name} |{cells} {} |\n", counts.iter().sum::<usize>())
}
