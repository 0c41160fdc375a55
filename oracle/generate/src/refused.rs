use crate::{job::MAX_DISTANCE, sheet::accepted_sheet, Random};
use sheet::{contains, decode, encode, given_live, refusal, Call, Road, Sheet, UNUSED};

const MAX_TRIES: usize = 20;

/// A sheet of one of the calls with one argument or several that are refused.
pub fn refused_sheet(random: &mut Random, calls: &[Call]) -> Sheet {
    let call = random.choose(calls);
    let mut sheet = accepted_sheet(random, call);

    // A test that fails to refuse is not to start a long run.
    sheet.job.draws.truncate(3);
    sheet.job.limit = sheet.job.limit.min(10);

    for _ in 0..random.choose(&[0, 0, 1, 2]) {
        refuse(random, &mut sheet);
    }

    surely_refused(random, sheet)
}

/// A sheet of roadworks with a road to refuse, or one that just passes, and none to three other arguments to refuse.
pub fn refused_road_sheet(random: &mut Random) -> Sheet {
    let mut sheet = accepted_sheet(random, Call::Roadworks);

    for _ in 0..random.choose(&[0, 1, 1, 2, 3]) {
        refuse(random, &mut sheet);
    }

    damage_road(random, &mut sheet);

    surely_refused(random, sheet)
}

/// The sheet with further arguments to refuse until it is refused.
fn surely_refused(random: &mut Random, mut sheet: Sheet) -> Sheet {
    for _ in 0..MAX_TRIES {
        if refusal(&sheet).is_some() {
            break;
        }

        refuse(random, &mut sheet);
    }

    sheet
}

/// Changes an argument so that the sheet is refused, where it has the argument and the change has room.
pub fn refuse(random: &mut Random, sheet: &mut Sheet) {
    let location_count = sheet.job.distances.len() as u32;
    let too_far = random.choose(&[200_001, u32::MAX]);

    match random.below(14) {
        0 => resize_plan(random, sheet),
        1 => {
            if let Some(vehicle) = pick(random, &mut sheet.job.vehicles) {
                vehicle[random.below(2)] = random.choose(&[location_count, u32::MAX]);
            }
        }
        2 => {
            if let Some(stop) = pick(random, &mut sheet.job.stops) {
                *stop = random.choose(&[location_count, u32::MAX]);
            }
        }
        3 => {
            if let Some(distance) =
                pick(random, &mut sheet.job.distances).and_then(|row| pick(random, row))
            {
                *distance = too_far;
            }
        }
        4 => sheet.job.linear = random.choose(&[1_000_001, u32::MAX]),
        5 => sheet.job.quadratic = random.choose(&[17, u32::MAX]),
        6 => sheet.job.missed = random.choose(&[10_000_000_000_001, 99_999_999_999_999]),
        7 | 8 | 11..=13 if sheet.call.has_live_stops() => damage_live(random, sheet),
        7 | 8 | 11..=13 if sheet.call.has_vans() => damage_vans(random, sheet),
        7 | 8 | 11..=13 if sheet.call.has_road() => damage_road(random, sheet),
        7 => sheet.job.smoothing = random.choose(&[0, 1_001, u32::MAX]),
        8 => sheet.job.limit = random.choose(&[0, 1_000_001, u32::MAX]),
        9 | 10 => damage_plan(random, sheet),
        11 | 12 => damage_given(random, sheet),
        _ => oversize(random, sheet),
    }
}

fn pick<'a, T>(random: &mut Random, items: &'a mut [T]) -> Option<&'a mut T> {
    let count = items.len();

    if count == 0 {
        None
    } else {
        items.get_mut(random.below(count))
    }
}

fn resize_plan(random: &mut Random, sheet: &mut Sheet) {
    let length = sheet.plan.len();

    if sheet.call.has_plan() {
        sheet.plan.resize(
            random.choose(&[0, length.saturating_sub(1), length + 1, 96]),
            UNUSED,
        );
    }
}

fn damage_plan(random: &mut Random, sheet: &mut Sheet) {
    let vehicle_count = sheet.job.vehicles.len().min(sheet.plan.len());
    let stop_count = sheet.job.stops.len() as u32;
    let (lengths, places) = sheet.plan.split_at_mut(vehicle_count);

    match random.below(6) {
        0 => {
            if let Some(length) = pick(random, lengths) {
                *length += random.choose(&[1, stop_count + 1]);
            }
        }
        1 => {
            if let Some(length) = pick(random, lengths) {
                *length = length.saturating_sub(1);
            }
        }
        2 => {
            // Lengths whose sum wraps to a small one.
            if let [one, other, ..] = lengths {
                *one = u32::MAX;
                *other += 1;
            }
        }
        3 => {
            if let Some(&stop) = places.first() {
                if let Some(place) = pick(random, places) {
                    *place = stop;
                }
            }
        }
        4 => {
            if let Some(place) = pick(random, places) {
                *place = random.choose(&[stop_count, u32::MAX, u32::MAX - 1]);
            }
        }
        _ => {
            if let Some(place) = places.last_mut() {
                *place = random.choose(&[0, stop_count, u32::MAX - 1, u32::MAX]);
            }
        }
    }
}

fn damage_given(random: &mut Random, sheet: &mut Sheet) {
    let stop_count = sheet.job.stops.len() as u32;

    match random.below(3) {
        0 => {
            if let Some(stop) = pick(random, &mut sheet.given) {
                *stop = random.choose(&[stop_count, u32::MAX]);
            }
        }
        1 => {
            if let [one, other] = &mut sheet.given[..] {
                *one = *other;
            }
        }
        _ => {
            if sheet.call == Call::Rebuild {
                let count = random.choose(&[0, 3, 8]);
                let stops = stop_count.max(1);

                sheet.given = (0..count).map(|_| random.small(0..=stops - 1)).collect();
            }
        }
    }
}

/// A stop or live stops that the call does not take.
fn damage_live(random: &mut Random, sheet: &mut Sheet) {
    let stop_count = sheet.job.stops.len() as u32;
    let (stop, live) = (sheet.stop(), sheet.live());
    let is_arrival = sheet.call == Call::Arrive;

    match random.below(6) {
        0 => {
            sheet.given[0] =
                random.choose(&[stop_count, stop_count + 1, 64, 64 + stop % 64, u32::MAX]);
        }
        1 => {
            let mut placed = (0..u64::BITS)
                .filter(|stop| sheet.plan.contains(stop) && contains(live, *stop))
                .collect::<Vec<_>>();

            if let Some(placed) = pick(random, &mut placed) {
                set_live(sheet, live & !(1 << *placed));
            }
        }
        2 => {
            let mut above = (stop_count..u64::BITS).collect::<Vec<_>>();

            if let Some(above) = pick(random, &mut above) {
                let above = random.choose(&[stop_count, *above, 63]);

                set_live(sheet, live | 1 << above);
            }
        }
        3 => {
            let mut others = (0..stop_count)
                .filter(|&stop| contains(live, stop) == is_arrival)
                .collect::<Vec<_>>();

            if let Some(other) = pick(random, &mut others) {
                sheet.given[0] = *other;
            }
        }
        4 => {
            unplace(sheet);
            set_live(sheet, live ^ 1 << (stop % u64::BITS));
        }
        _ => set_live(sheet, random.number()),
    }
}

fn set_live(sheet: &mut Sheet, live: u64) {
    sheet.given = given_live(sheet.stop(), live);
}

/// Takes the stop of an arrival or a cancellation off its route.
fn unplace(sheet: &mut Sheet) {
    let stop = sheet.stop() as usize;
    let stop_count = sheet.job.stops.len();

    if let Some(mut routes) = decode(&sheet.plan, sheet.job.vehicles.len(), stop_count) {
        for route in &mut routes {
            route.retain(|&other| other != stop);
        }

        sheet.plan = encode(&routes, stop_count);
    }
}

/// Vans that the job has not, or for a move a stop, a van or a place that the call does not take.
fn damage_vans(random: &mut Random, sheet: &mut Sheet) {
    let vehicle_count = sheet.job.vehicles.len() as u32;
    let stop_count = sheet.job.stops.len() as u32;
    let above = random.small(vehicle_count.min(31)..=31);
    let vans = sheet.vans() | 1 << random.choose(&[vehicle_count.min(31), above, 31]);

    if sheet.call == Call::View {
        sheet.given[0] = random.choose(&[vans, vans, vans, u32::MAX]);
        return;
    }

    let (stop, van) = (sheet.stop(), sheet.van());

    match random.below(6) {
        0 => sheet.given[0] = random.choose(&[vans, vans, u32::MAX]),
        1 => {
            sheet.given[1] =
                random.choose(&[stop_count, stop_count + 1, 64, 64 + stop % 64, u32::MAX]);
        }
        // Vans without that of the stop or of the place.
        2 => sheet.given[0] &= !(1 << (van % 32)),
        3 => {
            let routes = decode(&sheet.plan, vehicle_count as usize, stop_count as usize);
            let own = routes.and_then(|routes| {
                routes
                    .iter()
                    .position(|route| route.contains(&(stop as usize)))
            });

            sheet.given[0] &= !own.map_or(0, |own| 1 << (own % 32));
        }
        4 => {
            let some = random.small(0..=vehicle_count);

            sheet.given[2] = random.choose(&[some, vehicle_count, 31, 32 + van % 32, u32::MAX]);
        }
        _ => {
            let length = sheet.plan.get(van as usize).copied().unwrap_or(0);

            sheet.given[3] = random.choose(&[length, length, length.wrapping_add(1), u32::MAX]);
        }
    }
}

/// A road that is not in the table, or one that becomes just as long as a distance may be, longer, or so much longer that the
/// sum has more than 32 bits.
fn damage_road(random: &mut Random, sheet: &mut Sheet) {
    let location_count = sheet.job.distances.len() as u32;
    let unknown = random.choose(&[location_count, location_count + 1, u32::MAX]);
    let Road { from, to, .. } = sheet.road();
    let entry = sheet
        .job
        .distances
        .get(from as usize)
        .and_then(|row| row.get(to as usize))
        .copied()
        .unwrap_or(0);
    let room = MAX_DISTANCE.saturating_sub(entry);
    // What the entry wraps around to 0 with, to half of itself, and to one less.
    let wrapping = [0, entry / 2, entry.wrapping_sub(1)].map(|sum| sum.wrapping_sub(entry));

    match random.below(7) {
        0 => sheet.given[0] = unknown,
        1 => sheet.given[1] = unknown,
        2 => {
            sheet.given[0] = unknown;
            sheet.given[1] = random.choose(&[to, unknown, location_count]);
        }
        3 => sheet.given[2] = room,
        4 => sheet.given[2] = room + 1,
        5 => sheet.given[2] = random.choose(&wrapping),
        _ => sheet.given[2] = random.choose(&[1 << 31, u32::MAX - entry, u32::MAX]),
    }
}

/// More stops or vehicles than the exhaustive solvers take.
fn oversize(random: &mut Random, sheet: &mut Sheet) {
    if matches!(sheet.call, Call::Exhaustive | Call::Pruned) && !sheet.job.distances.is_empty() {
        if random.once_in(2) {
            sheet.job.stops.resize(random.choose(&[7, 64]), 0);
        } else {
            sheet.job.vehicles.resize(random.choose(&[4, 16]), [0, 0]);
        }
    }
}
