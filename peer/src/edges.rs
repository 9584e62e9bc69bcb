//! The readings at which something about a session changes by itself.

use crate::session::{Session, MISCONNECTIVITY_TIME};

/// What changes at an edge.
#[derive(Clone, Copy, Debug, PartialEq, Eq)]
pub enum Edge {
    /// The last reading without a loss of continuity.
    Detection,
    /// The first reading without the misconnectivity.
    Misconnectivity,
    /// The first reading without a condition.
    Condition,
}

/// All edges of a session, past ones included.
pub fn of(session: &Session) -> Vec<(Edge, u64)> {
    let mut edges = Vec::with_capacity(6);
    if session.is_timed() {
        edges.push((Edge::Detection, session.detection_end()));
    }
    if let Some(date) = session.last_misconnected {
        edges.push((Edge::Misconnectivity, date + MISCONNECTIVITY_TIME));
    }
    for condition in session.conditions.iter().flatten() {
        edges.push((Edge::Condition, condition.end()));
    }
    edges
}
