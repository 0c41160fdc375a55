//! Files that have the form: each is at a limit or one beyond it.

use crate::{
    text::{with_number, COUNT, DRAW, FIRST, ROW, STOP, VEHICLE},
    Named,
};
use sheet::{job_a, write_job, Job};

/// Where the numbers of the first line stand.
const LINEAR: usize = 3;
const QUADRATIC: usize = 4;
const MISSED: usize = 5;
const SMOOTHING: usize = 6;
const LIMIT: usize = 7;

const MOST: u64 = u32::MAX as u64;

pub fn files() -> Vec<Named> {
    let mut files = sizes();

    // a name, the number's line and place, and the numbers to try there
    for (name, line, place, numbers) in [
        ("start", VEHICLE, 0, &[2, 3, MOST, MOST + 1][..]),
        ("end", VEHICLE, 1, &[2, 3, MOST, MOST + 1]),
        ("stop", STOP, 0, &[2, 3, MOST, MOST + 1]),
        ("first_distance", ROW - 1, 0, &[200_000, 200_001]),
        ("last_distance", ROW + 1, 2, &[200_000, 200_001]),
        ("distance", ROW, 2, &[200_000, 200_001, MOST, MOST + 1]),
        (
            "linear",
            FIRST,
            LINEAR,
            &[0, 1_000_000, 1_000_001, MOST + 1],
        ),
        ("quadratic", FIRST, QUADRATIC, &[16, 17, MOST + 1]),
        ("missed", FIRST, MISSED, &[0, MOST + 1, 10_000_000_000_000]),
        (
            "missed",
            FIRST,
            MISSED,
            &[10_000_000_000_001, 99_999_999_999_999],
        ),
        (
            "smoothing",
            FIRST,
            SMOOTHING,
            &[0, 1, 1_000, 1_001, MOST + 1],
        ),
        ("limit", FIRST, LIMIT, &[0, 1, 9, 10]),
        ("limit", FIRST, LIMIT, &[1_000_000, 1_000_001, MOST + 1]),
        ("draw", DRAW, 0, &[MOST, MOST + 1]),
        // a count that the lines do not bear out
        ("vehicles_for_1", FIRST, 0, &[0, 2, MOST + 1]),
        ("stops_for_2", FIRST, 1, &[1, 3, MOST + 1]),
        ("locations_for_3", FIRST, 2, &[2, 4, MOST + 1]),
        ("draws_for_1", COUNT, 0, &[0, 2, MOST + 1]),
    ] {
        for &number in numbers {
            files.push((
                format!("{name}_{number}"),
                with_number(line, place, number).into(),
            ));
        }
    }

    files.extend(several());
    files
}

/// The sizes. Each file has as many lines as it says.
fn sizes() -> Vec<Named> {
    let mut files = vec![("job_a".into(), write_job(&job_a()).into())];
    let mut add = |name: String, job: &Job| files.push((name, write_job(job).into()));

    for count in [0, 16, 17] {
        add(
            format!("vehicles_{count}"),
            &Job {
                vehicles: vec![[0, 0]; count],
                ..job_a()
            },
        );
    }

    for count in [0, 1, 64, 65] {
        add(
            format!("stops_{count}"),
            &Job {
                stops: vec![2; count],
                limit: 2,
                ..job_a()
            },
        );
    }

    add(
        "locations_0".into(),
        &Job {
            distances: vec![],
            vehicles: vec![],
            stops: vec![],
            ..job_a()
        },
    );
    add(
        "locations_0_and_a_vehicle".into(),
        &Job {
            distances: vec![],
            stops: vec![],
            ..job_a()
        },
    );
    add(
        "locations_0_and_a_stop".into(),
        &Job {
            distances: vec![],
            vehicles: vec![],
            stops: vec![0],
            ..job_a()
        },
    );
    add(
        "locations_81".into(),
        &Job {
            distances: table(81),
            ..job_a()
        },
    );

    for count in [0, 1, 1024, 1025] {
        add(
            format!("draws_{count}"),
            &Job {
                draws: draws(count),
                ..job_a()
            },
        );
    }

    // every limit at once
    add("largest".into(), &largest());
    files.push((
        "largest_and_a_byte".into(),
        (write_job(&largest()) + "\n").into(),
    ));
    files
}

fn largest() -> Job {
    Job {
        vehicles: (0..16).map(|vehicle| [79 - vehicle, vehicle]).collect(),
        stops: (0..64).map(|stop| stop + 16).collect(),
        distances: table(80),
        linear: 1_000_000,
        quadratic: 16,
        missed: 10_000_000_000_000,
        smoothing: 1_000,
        limit: 2,
        draws: draws(1024),
    }
}

/// A table that is not symmetric, with distances up to the limit.
fn table(locations: u32) -> Vec<Vec<u32>> {
    (0..locations)
        .map(|from| {
            (0..locations)
                .map(|to| (from * 7_919 + to * 104_729) % 200_001)
                .collect()
        })
        .collect()
}

fn draws(count: u32) -> Vec<u32> {
    (0..count)
        .map(|draw| draw.wrapping_mul(2_654_435_761))
        .collect()
}

/// Several refusals apply: the lowest is answered, and 14 before all others.
fn several() -> Vec<Named> {
    let ten = Job {
        limit: 0,
        ..job_a()
    };
    let nine = Job {
        smoothing: 0,
        ..ten
    };
    let eight = Job {
        quadratic: 17,
        ..nine.clone()
    };
    let seven = Job {
        distances: vec![vec![200_001; 3]; 3],
        ..eight.clone()
    };
    let six = Job {
        stops: vec![1, 3],
        ..seven.clone()
    };
    let fourteen = Job {
        draws: vec![],
        ..six.clone()
    };

    [
        ("9_to_10", nine),
        ("8_to_10", eight),
        ("7_to_10", seven),
        ("6_to_10", six),
        ("6_to_10_and_14", fourteen),
    ]
    .into_iter()
    .map(|(name, job)| (format!("several_{name}"), write_job(&job).into()))
    .collect()
}
