//! Stand-in for src/mwpm_solver.rs: util.rs only asks a solver for its profiler report, and nothing here runs.
#[allow(dead_code)]
pub trait PrimalDualSolver {
    fn generate_profiler_report(&self) -> serde_json::Value;
}
