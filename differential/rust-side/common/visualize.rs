//! Stand-in for src/visualize.rs: the three files name only the trait, and nothing here runs.
#[allow(dead_code)]
pub trait FusionVisualizer {
    fn snapshot(&self, abbrev: bool) -> serde_json::Value;
}
