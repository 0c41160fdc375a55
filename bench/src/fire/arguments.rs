use generate::drained;
use sheet::{all_stops, decode, given_live, placed_stops, refusal, Call, Job, Road, Routes, Sheet};

/// The arguments of a call as they cross the border, of whatever lengths. What the call does not take is not read.
#[derive(Clone, Debug)]
pub struct Arguments {
    pub call: Call,
    pub vehicles: Vec<u32>,
    pub stops: Vec<u32>,
    pub locations: u32,
    pub distances: Vec<u32>,
    pub linear: u32,
    pub quadratic: u32,
    pub missed: u64,
    pub smoothing: u32,
    pub limit: u32,
    pub draws: Vec<u32>,
    pub plan: Vec<u32>,
    pub given: Vec<u32>,
    pub live: u64,
    pub stop: u32,
    /// The caller's vans.
    pub vans: u32,
    pub van: u32,
    pub place: u32,
    /// The list that a view is written to.
    pub seen: Vec<u32>,
    /// The road that becomes longer, and by how much.
    pub road: Road,
}

impl Arguments {
    /// The arguments of a sheet, with a plan to write where it has none, and a list for a view.
    pub fn new(sheet: Sheet, mut written: impl FnMut() -> u32) -> Self {
        let call = sheet.call;
        let is_move = call == Call::MoveStop;
        let (live, stop) = match call {
            Call::Arrive | Call::Cancel => (sheet.live(), sheet.stop()),
            Call::MoveStop => (0, sheet.stop()),
            _ => (0, 0),
        };
        let vans = if call.has_vans() { sheet.vans() } else { 0 };
        let [van, place] = match is_move {
            true => [sheet.van(), sheet.place()],
            false => [0; 2],
        };
        let road = match call.has_road() {
            true => sheet.road(),
            false => Road {
                from: 0,
                to: 0,
                more: 0,
            },
        };
        let given = match call.has_given_stops() {
            true => sheet.given,
            false => vec![],
        };
        let job = sheet.job;
        let length = job.vehicles.len() + job.stops.len();
        let seen_length = if call == Call::View { length } else { 0 };
        let seen = (0..seen_length).map(|_| written()).collect();

        Self {
            call,
            vehicles: job.vehicles.concat(),
            stops: job.stops,
            locations: job.distances.len() as u32,
            distances: job.distances.concat(),
            linear: job.linear,
            quadratic: job.quadratic,
            missed: job.missed,
            smoothing: job.smoothing,
            limit: job.limit,
            draws: job.draws,
            plan: if call.has_plan() {
                sheet.plan
            } else {
                std::iter::repeat_with(written).take(length).collect()
            },
            given,
            live,
            stop,
            vans,
            van,
            place,
            seen,
            road,
        }
    }

    /// The set of all stops.
    pub fn all(&self) -> u64 {
        all_stops(self.stops.len())
    }

    /// The set of the plan's stops, empty where the plan is none.
    pub fn placed(&self) -> u64 {
        self.routes().as_ref().map_or(0, placed_stops)
    }

    /// The plan's routes, where it is a plan.
    pub fn routes(&self) -> Option<Routes> {
        decode(&self.plan, self.vehicles.len() / 2, self.stops.len())
    }

    /// The set of all vans, as far as 32 bits go.
    pub fn all_vans(&self) -> u32 {
        all_stops((self.vehicles.len() / 2).min(u32::BITS as usize)) as u32
    }

    /// The van that the stop of a move is on, where it is on one.
    pub fn source(&self) -> Option<usize> {
        let stop = self.stop as usize;

        self.routes()?
            .iter()
            .position(|route| route.contains(&stop))
    }

    /// How long the route of a move's van is without the stop, where there is such a route.
    pub fn end(&self) -> Option<usize> {
        let stop = self.stop as usize;
        let routes = self.routes()?;
        let others = routes.get(self.van as usize)?.iter();

        Some(others.filter(|&&other| other != stop).count())
    }

    /// How many stops a rebuild drains of each region, where one or two stops are given and the plan is one.
    pub fn drained(&self) -> Option<Vec<usize>> {
        let routes = self.routes()?;
        let is_such = self.call == Call::Rebuild && (1..=2).contains(&self.given.len());

        is_such.then(|| drained(&routes, &self.given).iter().map(Vec::len).collect())
    }

    /// How long the road is, where the table has it.
    pub fn road_length(&self) -> Option<u32> {
        let [from, to, count] =
            [self.road.from, self.road.to, self.locations].map(|number| number as usize);

        match from < count && to < count {
            true => self.distances.get(from * count + to).copied(),
            false => None,
        }
    }

    /// The legs of each route, from location to location. There are none where the plan is none.
    pub fn legs(&self) -> Vec<Vec<[u32; 2]>> {
        let routes = self.routes().unwrap_or_default();

        self.vehicles
            .chunks_exact(2)
            .zip(routes)
            .map(|(ends, route)| {
                let mut places = vec![ends[0]];

                places.extend(route.iter().map(|&stop| self.stops[stop]));
                places.push(ends[1]);
                places.windows(2).map(|leg| [leg[0], leg[1]]).collect()
            })
            .collect()
    }

    /// How often each route uses the road.
    pub fn uses(&self) -> Vec<usize> {
        let road = [self.road.from, self.road.to];

        self.legs()
            .iter()
            .map(|legs| legs.iter().filter(|&&leg| leg == road).count())
            .collect()
    }

    /// The sheet that the arguments make, or the lowest number that refuses them ("Who can stop a call").
    pub fn tested(&self) -> Result<Sheet, u32> {
        if let Some(number) = self.refused_lists() {
            return Err(number);
        }

        let sheet = self.sheet();

        match refusal(&sheet) {
            Some(number) => Err(number as u32),
            None => Ok(sheet),
        }
    }

    /// The lowest of the numbers that speak of lengths. A sheet holds no list that 1, 2, 3 or 5 speaks of, and no plan to write.
    fn refused_lists(&self) -> Option<u32> {
        let locations = self.locations as u64;
        let places = self.vehicles.len() / 2 + self.stops.len();

        [
            (1, self.vehicles.len() % 2 == 1 || self.vehicles.len() > 32),
            (2, self.stops.len() > 64),
            (
                3,
                self.call.has_table()
                    && (locations > 80 || self.distances.len() as u64 != locations * locations),
            ),
            (
                4,
                self.plan.len() != places || self.call == Call::View && self.seen.len() != places,
            ),
            (
                5,
                self.call == Call::Solve && !(1..=1_024).contains(&self.draws.len()),
            ),
        ]
        .into_iter()
        .find_map(|(number, applies)| applies.then_some(number))
    }

    /// The sheet of lists whose lengths are not refused.
    fn sheet(&self) -> Sheet {
        let count = self.locations as usize;

        Sheet {
            call: self.call,
            given: match self.call {
                Call::Arrive | Call::Cancel => given_live(self.stop, self.live),
                Call::View => vec![self.vans],
                Call::MoveStop => vec![self.vans, self.stop, self.van, self.place],
                Call::Roadworks => self.road.given(),
                _ => self.given.clone(),
            },
            plan: self.plan.clone(),
            job: Job {
                vehicles: self
                    .vehicles
                    .chunks_exact(2)
                    .map(|ends| [ends[0], ends[1]])
                    .collect(),
                stops: self.stops.clone(),
                distances: match count {
                    0 => vec![],
                    _ => self.distances.chunks(count).map(<[u32]>::to_vec).collect(),
                },
                linear: self.linear,
                quadratic: self.quadratic,
                missed: self.missed,
                smoothing: self.smoothing,
                limit: self.limit,
                draws: self.draws.clone(),
            },
        }
    }
}
