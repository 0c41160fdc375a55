mod location;
mod problem;
mod route;
mod solution;
mod solver;
mod stop;
mod vehicle;

pub use location::Location;
pub use problem::BasicProblem;
pub use route::Router;
pub use solution::BasicSolution;
pub use solver::BasicSolver;
pub use stop::BasicStop;
pub use vehicle::BasicVehicle;
