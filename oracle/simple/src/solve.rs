mod branch_and_bound;
mod dynamic_programming;
mod nearest_neighbor;
mod ruin_and_recreate;

pub use branch_and_bound::BranchAndBoundSolver;
pub use dynamic_programming::DynamicProgrammingSolver;
pub use nearest_neighbor::NearestNeighborSolver;
pub use ruin_and_recreate::{RuinAndRecreateSolver, Run};
