//! Recorded answers: a fixed list of call sheets, what the solver's Rust answers, and how many sheets there are of each
//! kind.

use sheet::{
    all_stops, answer_sheets, call_table, decode, holds, placed_stops, refusal, write_sheet, Call,
    Job, Planner, Road, Routes, Sheet, CALL_COUNT,
};
use std::{collections::BTreeMap, fs, io, path::Path};

/// Writes the sheets to DIRECTORY/stdin and the answers to DIRECTORY/stdout, and answers a table of what they are.
pub fn record<P: Planner>(directory: &Path) -> io::Result<String> {
    let sheets = generate::recorded_sheets();
    let mut input = sheets.iter().map(write_sheet).collect::<String>();
    let mut output = vec![];

    // A call that does not exist is no sheet: 14, and the end.
    input += &format!("{:14}\n", CALL_COUNT + 1);
    answer_sheets::<P>(input.as_bytes(), &mut output)?;
    fs::create_dir_all(directory)?;
    fs::write(directory.join("stdin"), &input)?;
    fs::write(directory.join("stdout"), &output)?;

    Ok(summary::<P>(&sheets))
}

/// The place of a row in the table, and what it counts.
type Kind = (&'static str, String);

/// The rows' first words in the order of the table.
const HEADINGS: [&str; 22] = [
    "all",
    "refused",
    "size",
    "table",
    "q",
    "M",
    "plan",
    "pair",
    "drained",
    "run",
    "draws",
    "live",
    "arrival",
    "tie",
    "cancellation",
    "vans",
    "move",
    "stop",
    "change",
    "uses",
    "longer",
    "ceiling",
];

/// How many sheets there are by call: of all, of those that are refused, and of the others by their kinds.
fn summary<P: Planner>(sheets: &[Sheet]) -> String {
    let mut counts = BTreeMap::<Kind, [usize; CALL_COUNT]>::new();

    for sheet in sheets {
        for kind in kinds::<P>(sheet) {
            counts.entry(kind).or_default()[sheet.call as usize] += 1;
        }
    }

    call_table(
        "sheets",
        HEADINGS.iter().flat_map(|heading| {
            counts
                .iter()
                .filter(move |((other, _), _)| other == heading)
                .map(|((heading, label), counts)| (name(heading, label), *counts))
        }),
    )
}

/// A row's name. Numbers in a label are aligned for the sake of the order alone.
fn name(heading: &str, label: &str) -> String {
    [heading]
        .into_iter()
        .chain(label.split_whitespace())
        .collect::<Vec<_>>()
        .join(" ")
}

fn kinds<P: Planner>(sheet: &Sheet) -> Vec<Kind> {
    let all = ("all", String::new());

    if let Some(number) = refusal(sheet) {
        return vec![all, ("refused", format!("{number:2}"))];
    }

    let job = &sheet.job;
    let mut kinds = vec![all, ("size", size(sheet).into())];

    if sheet.call.has_table() {
        kinds.push(("table", table(&job.distances).into()));
    }

    if sheet.call.has_prices() {
        let price = if job.quadratic == 0 { "0" } else { "above 0" };

        kinds.push(("q", price.into()));
        kinds.push(("M", missed(sheet).into()));
    }

    if sheet.call.has_plan() {
        kinds.push(("plan", plan(sheet)));
    }

    if sheet.call.has_given_stops() {
        kinds.push(("pair", pair(sheet).into()));
    }

    if sheet.call == Call::Solve {
        kinds.push(("run", format!("of c {:4}", job.smoothing)));
        kinds.push(("run", format!("of limit {:7}", job.limit)));
        kinds.push(("draws", draws(job.draws.len()).into()));
    }

    if sheet.call.has_live_stops() {
        kinds.push(("live", live(sheet).into()));
    }

    match sheet.call {
        Call::Rebuild => kinds.push(("drained", drained(sheet))),
        Call::Arrive => {
            kinds.push(("arrival", arrival::<P>(sheet).into()));
            kinds.extend(ties::<P>(sheet).map(|tie| ("tie", tie.into())));
        }
        Call::Cancel => kinds.push(("cancellation", place(&routes(sheet), sheet.stop()).into())),
        Call::View => kinds.push(("vans", vans(sheet).into())),
        Call::MoveStop => {
            kinds.push(("vans", vans(sheet).into()));
            kinds.extend(moved::<P>(sheet));
        }
        Call::Roadworks => kinds.extend(roadworks::<P>(sheet)),
        _ => {}
    }

    kinds
}

fn size(sheet: &Sheet) -> &'static str {
    match (sheet.job.vehicles.len(), sheet.job.stops.len()) {
        (0, _) | (_, 0 | 1) => " 0 or 1 stops, or no vehicle",
        (_, 2..=6) => " 2 to  6 stops",
        (_, 7..=14) => " 7 to 14 stops",
        (_, 15..=30) => "15 to 30 stops",
        _ => "64 stops",
    }
}

fn table(rows: &[Vec<u32>]) -> &'static str {
    let mut distances = rows.iter().flatten();
    let first = distances.next().copied().unwrap_or(0);
    let count = rows.len();
    let is_symmetric =
        || (0..count).all(|from| (0..from).all(|to| rows[from][to] == rows[to][from]));

    match (distances.all(|&distance| distance == first), first) {
        (true, 0) => "zero",
        (true, _) => "constant",
        _ if is_symmetric() => "symmetric",
        _ => "asymmetric",
    }
}

fn missed(sheet: &Sheet) -> &'static str {
    match sheet.job.missed {
        0 => "0",
        price if price < generate::sufficient(&sheet.job) => "small",
        _ => "sufficient",
    }
}

fn routes(sheet: &Sheet) -> Routes {
    decode(&sheet.plan, sheet.job.vehicles.len(), sheet.job.stops.len()).unwrap_or_default()
}

fn plan(sheet: &Sheet) -> String {
    let stop_count = sheet.job.stops.len();
    let routes = routes(sheet);
    let placed = routes.iter().map(Vec::len).sum::<usize>();

    match (
        placed,
        routes.iter().filter(|route| !route.is_empty()).count(),
    ) {
        (0, _) => "of no stop placed".into(),
        (_, used) => format!(
            "of {} placed, on {}",
            if placed == stop_count {
                "all stops"
            } else {
                "some stops"
            },
            ["one route", "two routes", "more routes"][used.min(3) - 1]
        ),
    }
}

/// Where the given stops are.
fn pair(sheet: &Sheet) -> &'static str {
    let routes = routes(sheet);
    let vehicles = sheet
        .given
        .iter()
        .map(|&stop| {
            routes
                .iter()
                .position(|route| route.contains(&(stop as usize)))
        })
        .collect::<Vec<_>>();

    match vehicles[..] {
        [Some(one), Some(other)] if one == other => "on one route",
        [Some(_), Some(_)] => "on two routes",
        [None, Some(_)] | [Some(_), None] => "with one unplaced",
        [Some(_)] => "of one stop, placed",
        [None] => "of one stop, unplaced",
        _ => "with both unplaced",
    }
}

/// How many stops a rebuild drains, and of how many routes.
fn drained(sheet: &Sheet) -> String {
    let regions = generate::drained(&routes(sheet), &sheet.given);
    let stops = match regions.iter().map(Vec::len).sum() {
        0 => return "no stop".into(),
        1 => "1 stop".to_string(),
        count => format!("{count} stops"),
    };

    format!(
        "{stops} of {}",
        ["one route", "two routes"][regions.len() - 1]
    )
}

/// Which stops are live besides those on routes.
fn live(sheet: &Sheet) -> &'static str {
    let live = sheet.live();
    let unplaced = live & !placed_stops(&routes(sheet));

    match (live, unplaced) {
        (0, _) => "none",
        (_, 0) => "those placed alone",
        _ if live == all_stops(sheet.job.stops.len()) => "all, some of them unplaced",
        _ => "some of those unplaced",
    }
}

/// Where an arriving stop is then.
fn arrival<P: Planner>(sheet: &Sheet) -> &'static str {
    let stop = sheet.stop() as usize;

    match sheet.job.vehicles.len() {
        0 => "without a vehicle",
        _ => place(
            &P::arrive(&sheet.job, &routes(sheet), sheet.live(), stop).routes,
            sheet.stop(),
        ),
    }
}

fn place(routes: &Routes, stop: u32) -> &'static str {
    let place = routes.iter().find_map(|route| {
        let place = route.iter().position(|&other| other == stop as usize)?;

        Some((place, route.len()))
    });

    match place {
        None => "on no route",
        Some((_, 1)) => "alone on a route",
        Some((0, _)) => "at the front of a route",
        Some((place, count)) if place + 1 < count => "within a route",
        Some(_) => "at the end of a route",
    }
}

/// What is as cheap as the plan that an arrival leaves.
fn ties<P: Planner>(sheet: &Sheet) -> impl Iterator<Item = &'static str> {
    let old = routes(sheet);
    let weigh = |routes: &Routes| P::weigh(&sheet.job, routes);
    let places = (0..old.len())
        .flat_map(|vehicle| (0..=old[vehicle].len()).map(move |place| (vehicle, place)))
        .map(|(vehicle, place)| {
            let mut routes = old.clone();

            routes[vehicle].insert(place, sheet.stop() as usize);
            (weigh(&routes), vehicle)
        })
        .collect::<Vec<_>>();
    let least = places.iter().map(|&(cost, _)| cost).min();
    let vehicles = places
        .iter()
        .filter(|&&(cost, _)| Some(cost) == least)
        .map(|&(_, vehicle)| vehicle)
        .collect::<Vec<_>>();
    let unplaced = Some(weigh(&old));
    let is_placed = least.is_some() && least <= unplaced;

    [
        (
            is_placed && vehicles.windows(2).any(|pair| pair[0] == pair[1]),
            "of places on one route",
        ),
        (
            is_placed && vehicles.first() != vehicles.last(),
            "of places on two routes",
        ),
        (least.is_some() && least == unplaced, "of a place and none"),
    ]
    .into_iter()
    .filter_map(|(applies, label)| applies.then_some(label))
}

/// Which vans the caller holds.
fn vans(sheet: &Sheet) -> &'static str {
    let count = sheet.job.vehicles.len();

    match (0..count).filter(|&van| holds(sheet.vans(), van)).count() {
        0 => "none",
        own if own == count => "all",
        1 => "one of several",
        _ => "some",
    }
}

/// Where a moved stop comes from and goes to, and how the cost changes.
fn moved<P: Planner>(sheet: &Sheet) -> [Kind; 3] {
    let routes = routes(sheet);
    let (stop, van) = (sheet.stop() as usize, sheet.van() as usize);
    let from = match routes.iter().position(|route| route.contains(&stop)) {
        None => "from no route",
        Some(own) if own == van => "from the same van",
        Some(_) => "from another van",
    };
    let moved = P::move_stop(
        &sheet.job,
        &routes,
        sheet.vans(),
        stop,
        van,
        sheet.place() as usize,
    );
    let change = match moved.change {
        0 => "none",
        1.. => "to a higher cost",
        _ => "to a lower cost",
    };

    [
        ("move", from.into()),
        (
            "stop",
            format!("then {}", place(&moved.routes, sheet.stop())),
        ),
        ("change", change.into()),
    ]
}

/// How often the plan uses a road, how much longer the road becomes, and whether the ceiling is above what the plan's cost
/// rises by.
fn roadworks<P: Planner>(sheet: &Sheet) -> [Kind; 3] {
    let job = &sheet.job;
    let road = sheet.road();
    let routes = routes(sheet);
    let uses = match generate::uses(job, &routes, road)[..] {
        [] => "none",
        [1] => "one",
        [_] => "several on one route",
        _ => "on several routes",
    };
    let longer_job = job.lengthened(road);
    let longer = match road.more {
        0 => "by 0",
        _ if is_longest(&longer_job, road) => "up to 200,000",
        _ => "by some metres",
    };
    let rise = P::weigh(&longer_job, &routes) - P::weigh(job, &routes);
    let ceiling = match P::roadworks(job, &routes, road) {
        0 => "of 0",
        ceiling if ceiling == rise => "as high as the rise",
        _ => "above the rise",
    };

    [
        ("uses", uses.into()),
        ("longer", longer.into()),
        ("ceiling", ceiling.into()),
    ]
}

/// Whether a road is as long as a distance may be.
fn is_longest(job: &Job, road: Road) -> bool {
    job.distances[road.from as usize][road.to as usize] == generate::MAX_DISTANCE
}

fn draws(count: usize) -> &'static str {
    match count {
        1 => " 1",
        2..=9 => " 2 to 9",
        _ => "10 and more",
    }
}
