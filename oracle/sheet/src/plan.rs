/// The stops of each vehicle in order.
pub type Routes = Vec<Vec<usize>>;

/// What stands in an unused place of the plan form.
pub const UNUSED: u32 = u32::MAX;

/// The plan form: the routes' lengths, their stops one after another, and `UNUSED` in the places that are left.
pub fn encode(routes: &Routes, stop_count: usize) -> Vec<u32> {
    let mut plan = routes
        .iter()
        .map(|route| route.len() as u32)
        .chain(routes.iter().flatten().map(|&stop| stop as u32))
        .collect::<Vec<_>>();

    plan.resize(routes.len() + stop_count, UNUSED);
    plan
}

/// The routes of a plan form, or none where the numbers are no plan form or have a stop twice.
pub fn decode(plan: &[u32], vehicle_count: usize, stop_count: usize) -> Option<Routes> {
    let (lengths, places) = plan.split_at_checked(vehicle_count)?;
    let placed = lengths.iter().map(|&length| length as u64).sum::<u64>();

    if places.len() != stop_count || placed > stop_count as u64 {
        return None;
    }

    let (stops, unused) = places.split_at(placed as usize);
    let mut seen = vec![false; stop_count];

    for &stop in stops {
        if stop as usize >= stop_count || seen[stop as usize] {
            return None;
        }

        seen[stop as usize] = true;
    }

    if unused.iter().any(|&number| number != UNUSED) {
        return None;
    }

    let mut stops = stops.iter().map(|&stop| stop as usize);

    Some(
        lengths
            .iter()
            .map(|&length| stops.by_ref().take(length as usize).collect())
            .collect(),
    )
}

#[cfg(test)]
mod tests {
    use super::*;

    #[test]
    fn encodes_the_plan_of_the_scope() {
        assert_eq!(encode(&vec![vec![2], vec![0]], 3), [1, 1, 2, 0, UNUSED]);
    }

    #[test]
    fn decodes_what_is_encoded() {
        for routes in [
            vec![],
            vec![vec![]],
            vec![vec![2], vec![0]],
            vec![vec![], vec![1, 2, 0]],
        ] {
            assert_eq!(decode(&encode(&routes, 3), routes.len(), 3), Some(routes));
        }
    }

    #[test]
    fn decodes_no_other_form() {
        for (plan, vehicle_count, stop_count) in [
            (vec![], 1, 0),
            (vec![1, 0], 1, 2),
            (vec![0, UNUSED, UNUSED], 1, 1),
            (vec![2, 0], 1, 1),
            (vec![1, 1], 1, 1),
            (vec![2, 0, 0], 1, 2),
            (vec![1, 0, 1], 1, 2),
            (vec![1, UNUSED, UNUSED], 1, 2),
            (vec![0, 0], 1, 1),
            (vec![UNUSED, 1, UNUSED], 2, 1),
        ] {
            assert_eq!(decode(&plan, vehicle_count, stop_count), None, "{plan:?}");
        }
    }
}
