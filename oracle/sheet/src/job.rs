use crate::{Routes, UNUSED};

/// A job as its file has it. The numbers of vehicles and stops are those of the lists.
#[derive(Clone, Debug, Default, Eq, PartialEq)]
pub struct Job {
    /// Start and end location of each vehicle.
    pub vehicles: Vec<[u32; 2]>,
    /// Location of each stop.
    pub stops: Vec<u32>,
    /// Rows of the table: row = from, column = to.
    pub distances: Vec<Vec<u32>>,
    pub linear: u32,
    pub quadratic: u32,
    pub missed: u64,
    pub smoothing: u32,
    pub limit: u32,
    pub draws: Vec<u32>,
}

impl Job {
    /// The job on which a road is so much longer.
    pub fn lengthened(&self, road: Road) -> Self {
        let mut job = self.clone();

        job.distances[road.from as usize][road.to as usize] += road.more;
        job
    }
}

/// A table entry, by its two locations, and the metres by which roadworks make it longer. They may be any numbers.
#[derive(Clone, Copy, Debug, Eq, PartialEq)]
pub struct Road {
    pub from: u32,
    pub to: u32,
    pub more: u32,
}

impl Road {
    /// What a sheet of the roadworks gives.
    pub fn given(self) -> Vec<u32> {
        vec![self.from, self.to, self.more]
    }
}

pub const CALL_COUNT: usize = 12;

#[derive(Clone, Copy, Debug, Eq, PartialEq)]
pub enum Call {
    Weigh,
    StartPlan,
    TwoOpt,
    Rebuild,
    Exhaustive,
    Pruned,
    Solve,
    Arrive,
    Cancel,
    View,
    MoveStop,
    Roadworks,
}

impl Call {
    pub const ALL: [Self; CALL_COUNT] = [
        Self::Weigh,
        Self::StartPlan,
        Self::TwoOpt,
        Self::Rebuild,
        Self::Exhaustive,
        Self::Pruned,
        Self::Solve,
        Self::Arrive,
        Self::Cancel,
        Self::View,
        Self::MoveStop,
        Self::Roadworks,
    ];

    pub fn from_number(number: u64) -> Option<Self> {
        Self::ALL.into_iter().find(|call| call.number() == number)
    }

    pub fn number(self) -> u64 {
        self as u64 + 1
    }

    /// Whether a sheet of the call has a line with given stops.
    pub fn has_given_stops(self) -> bool {
        matches!(self, Self::TwoOpt | Self::Rebuild)
    }

    /// Whether a sheet of the call has a line with a stop and the live stops.
    pub fn has_live_stops(self) -> bool {
        matches!(self, Self::Arrive | Self::Cancel)
    }

    /// Whether a sheet of the call has a line that begins with the caller's vans.
    pub fn has_vans(self) -> bool {
        matches!(self, Self::View | Self::MoveStop)
    }

    /// Whether a sheet of the call has a line with a road and how much longer it becomes.
    pub fn has_road(self) -> bool {
        self == Self::Roadworks
    }

    /// Whether a sheet of the call has a line with given numbers of whatever kind.
    pub fn has_given_line(self) -> bool {
        self.has_given_stops() || self.has_live_stops() || self.has_vans() || self.has_road()
    }

    /// Whether a sheet of the call has a line with a plan.
    pub fn has_plan(self) -> bool {
        matches!(self, Self::Weigh | Self::TwoOpt | Self::Rebuild)
            || self.has_live_stops()
            || self.has_vans()
            || self.has_road()
    }

    /// Whether the call is lent the locations' table, and so tests them.
    pub fn has_table(self) -> bool {
        self != Self::View
    }

    pub fn has_prices(self) -> bool {
        !matches!(self, Self::StartPlan | Self::View)
    }
}

/// One call with its arguments. `given` and `plan` are empty where the call has none. Of an arrival or a cancellation
/// `given` is the stop and the live stops' low and high half; of a view it is the caller's vans; of a move the caller's
/// vans, the stop, the van and the place; of roadworks the road's two locations and the metres that it becomes longer by.
#[derive(Clone, Debug, Eq, PartialEq)]
pub struct Sheet {
    pub call: Call,
    pub given: Vec<u32>,
    pub plan: Vec<u32>,
    pub job: Job,
}

impl Sheet {
    /// The stop of an arrival, a cancellation or a move.
    pub fn stop(&self) -> u32 {
        self.given[(self.call == Call::MoveStop) as usize]
    }

    /// The live stops of an arrival or a cancellation.
    pub fn live(&self) -> u64 {
        self.given[1] as u64 | (self.given[2] as u64) << 32
    }

    /// The vans of the caller of a view or a move.
    pub fn vans(&self) -> u32 {
        self.given[0]
    }

    /// The van that a move puts its stop on.
    pub fn van(&self) -> u32 {
        self.given[2]
    }

    /// The place that a move puts its stop at, counted after the stop has been taken out.
    pub fn place(&self) -> u32 {
        self.given[3]
    }

    /// The road that roadworks make longer.
    pub fn road(&self) -> Road {
        Road {
            from: self.given[0],
            to: self.given[1],
            more: self.given[2],
        }
    }
}

/// What a sheet of an arrival or a cancellation gives.
pub fn given_live(stop: u32, live: u64) -> Vec<u32> {
    vec![stop, live as u32, (live >> 32) as u32]
}

/// Whether a set has a stop, which may be any number.
pub fn contains(set: u64, stop: u32) -> bool {
    stop < u64::BITS && set >> stop & 1 == 1
}

/// Whether a set of vans has a van, which may be any number.
pub fn holds(vans: u32, van: usize) -> bool {
    van < u32::BITS as usize && vans >> van & 1 == 1
}

/// The set of all stops.
pub fn all_stops(stop_count: usize) -> u64 {
    set_of(0..stop_count)
}

/// The set of the stops that are on routes.
pub fn placed_stops(routes: &Routes) -> u64 {
    set_of(routes.iter().flatten().copied())
}

/// A set has 64 stops at most; more are refused before it counts.
fn set_of(stops: impl IntoIterator<Item = usize>) -> u64 {
    stops
        .into_iter()
        .filter(|&stop| stop < u64::BITS as usize)
        .fold(0, |set, stop| set | 1 << stop)
}

/// Job A, the specification's own.
pub fn job_a() -> Job {
    Job {
        vehicles: vec![[0, 0]],
        stops: vec![1, 2],
        distances: vec![vec![0, 2, 3], vec![2, 0, 9], vec![9, 1, 0]],
        linear: 1,
        quadratic: 0,
        missed: 100,
        smoothing: 1,
        limit: 50,
        draws: vec![0],
    }
}

/// A call on Job A: the plan of both stops in order, and both stops given, where the call has them. Stop 1 arrives where
/// only stop 0 is live and placed; it is moved to the front; the road between the stops becomes longer.
pub fn sheet_a(call: Call) -> Sheet {
    Sheet {
        call,
        given: match call {
            Call::TwoOpt | Call::Rebuild => vec![0, 1],
            Call::Arrive => given_live(1, 1),
            Call::Cancel => given_live(1, 3),
            Call::View => vec![1],
            Call::MoveStop => vec![1, 1, 0, 0],
            Call::Roadworks => vec![1, 2, 5],
            _ => vec![],
        },
        plan: match call {
            Call::Arrive => vec![1, 0, UNUSED],
            _ if call.has_plan() => vec![2, 0, 1],
            _ => vec![],
        },
        job: job_a(),
    }
}
