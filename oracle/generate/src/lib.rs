//! Random job files and call sheets, the same for the same seed.

mod damage;
mod job;
mod live;
mod random;
mod recorded;
mod recorded_live;
mod recorded_refusals;
mod recorded_roads;
mod recorded_vans;
mod recorded_walks;
mod refused;
mod roads;
mod sheet;
mod vans;
mod walks;

pub use crate::{
    job::{long_job, small_job, sufficient, Sizes, MAX_DISTANCE},
    live::{day, Day, Event},
    random::Random,
    recorded::recorded_sheets,
    refused::refuse,
    roads::{road, uses},
    sheet::{accepted_sheet, plan, sheet},
    vans::{pair, Move, Pair},
    walks::{drained, walk},
};

use ::sheet::{write_job, write_sheet, Call};
use std::{fmt, str::FromStr};

/// What is made.
#[derive(Clone, Copy, Debug, Eq, PartialEq)]
pub enum Kind {
    /// Sheets of one call, one in ten of them refused.
    Call(Call),
    /// Sheets of all calls.
    Calls,
    /// Sheets with refused arguments.
    Refused,
    /// Such sheets of views and moves alone.
    RefusedVans,
    /// Such sheets of roadworks alone.
    RefusedRoads,
    /// A sheet with its bytes damaged, with none to two others before it and one or none after it.
    DamagedCalls,
    /// Job files for the shuttle program.
    Jobs,
    /// Job files with their bytes damaged.
    DamagedJobs,
    /// Job files with every list at its limit.
    Largest,
}

impl Kind {
    const NAMES: [(&'static str, Self); 20] = [
        ("weigh", Self::Call(Call::Weigh)),
        ("start_plan", Self::Call(Call::StartPlan)),
        ("two_opt", Self::Call(Call::TwoOpt)),
        ("rebuild", Self::Call(Call::Rebuild)),
        ("exhaustive", Self::Call(Call::Exhaustive)),
        ("pruned", Self::Call(Call::Pruned)),
        ("solve", Self::Call(Call::Solve)),
        ("arrive", Self::Call(Call::Arrive)),
        ("cancel", Self::Call(Call::Cancel)),
        ("view", Self::Call(Call::View)),
        ("move_stop", Self::Call(Call::MoveStop)),
        ("roadworks", Self::Call(Call::Roadworks)),
        ("calls", Self::Calls),
        ("refused", Self::Refused),
        ("refused-vans", Self::RefusedVans),
        ("refused-roads", Self::RefusedRoads),
        ("damaged-calls", Self::DamagedCalls),
        ("jobs", Self::Jobs),
        ("damaged-jobs", Self::DamagedJobs),
        ("largest", Self::Largest),
    ];

    /// Whether one text is the whole input of a program. Sheets are given one after another, up to a damaged one.
    pub fn is_whole_input(self) -> bool {
        matches!(
            self,
            Self::DamagedCalls | Self::Jobs | Self::DamagedJobs | Self::Largest
        )
    }

    /// Whether the texts are job files, for the shuttle program, and no call sheets.
    pub fn is_job(self) -> bool {
        matches!(self, Self::Jobs | Self::DamagedJobs | Self::Largest)
    }
}

#[derive(Debug)]
pub struct UnknownKind;

impl fmt::Display for UnknownKind {
    fn fmt(&self, formatter: &mut fmt::Formatter) -> fmt::Result {
        let names = Kind::NAMES.map(|(name, _)| name).join(", ");

        write!(formatter, "kinds: {names}")
    }
}

impl std::error::Error for UnknownKind {}

impl FromStr for Kind {
    type Err = UnknownKind;

    fn from_str(name: &str) -> Result<Self, UnknownKind> {
        Self::NAMES
            .into_iter()
            .find(|&(other, _)| other == name)
            .map(|(_, kind)| kind)
            .ok_or(UnknownKind)
    }
}

/// Job files or call sheets. A text depends on the seed, its number and the kind alone.
pub fn texts(seed: u64, count: u64, kind: Kind) -> impl Iterator<Item = Vec<u8>> {
    (0..count).map(move |index| text(seed, index, kind))
}

/// The text of a number.
pub fn text(seed: u64, index: u64, kind: Kind) -> Vec<u8> {
    let random = &mut Random::new(seed, index);

    match kind {
        Kind::Call(call) => write_sheet(&sheet::some_sheet(random, call)).into_bytes(),
        Kind::Calls => write_sheet(&sheet::any_sheet(random)).into_bytes(),
        Kind::Refused => write_sheet(&refused::refused_sheet(random, &Call::ALL)).into_bytes(),
        Kind::RefusedVans => {
            let calls = [Call::View, Call::MoveStop, Call::MoveStop];

            write_sheet(&refused::refused_sheet(random, &calls)).into_bytes()
        }
        Kind::RefusedRoads => write_sheet(&refused::refused_road_sheet(random)).into_bytes(),
        Kind::DamagedCalls => {
            let mut sheets = |count| {
                (0..random.below(count))
                    .map(|_| write_sheet(&sheet::small_sheet(random)))
                    .collect::<String>()
            };
            let (before, after) = (sheets(3), sheets(2));
            let text = write_sheet(&sheet::small_sheet(random));

            [
                before.into_bytes(),
                damage::damage(random, text),
                after.into_bytes(),
            ]
            .concat()
        }
        Kind::Jobs => write_job(&job::run_job(random)).into_bytes(),
        Kind::DamagedJobs => {
            let text = write_job(&job::small_job(random));

            damage::damage(random, text)
        }
        Kind::Largest => write_job(&job::largest_job(random)).into_bytes(),
    }
}
