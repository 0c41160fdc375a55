use crate::{Job, Sheet};

pub fn write_job(job: &Job) -> String {
    let location_count = job.distances.len() as u64;
    let mut text = line([
        job.vehicles.len() as u64,
        job.stops.len() as u64,
        location_count,
        job.linear as u64,
        job.quadratic as u64,
        job.missed,
        job.smoothing as u64,
        job.limit as u64,
    ]);

    for &[start, end] in &job.vehicles {
        text += &line([start as u64, end as u64]);
    }

    for &location in &job.stops {
        text += &line([location as u64]);
    }

    for row in &job.distances {
        text += &numbers(row);
    }

    text += &line([job.draws.len() as u64]);

    for &draw in &job.draws {
        text += &line([draw as u64]);
    }

    text
}

pub fn write_sheet(sheet: &Sheet) -> String {
    let mut text = line([sheet.call.number()]);

    if sheet.call.has_given_line() {
        text += &numbers(&sheet.given);
    }

    if sheet.call.has_plan() {
        text += &numbers(&sheet.plan);
    }

    text + &write_job(&sheet.job)
}

/// A line of numbers in 14 columns each.
pub fn numbers(numbers: &[u32]) -> String {
    line(numbers.iter().map(|&number| number as u64))
}

fn line(numbers: impl IntoIterator<Item = u64>) -> String {
    let mut line = numbers
        .into_iter()
        .map(|number| format!("{number:14}"))
        .collect::<String>();

    line.push('\n');
    line
}
