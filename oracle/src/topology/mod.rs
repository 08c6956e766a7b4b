//! The types of broodmap's `topology/mod.rs` (MIT OR Apache-2.0) that the copied files name, and those files. Their passes are not
//! public, so the harness is a module beside them.

use crate::{PixelPosition, WalkPosition};

pub mod harness;

include!(concat!(env!("OUT_DIR"), "/topology_modules.rs"));

#[derive(Debug, Clone, Copy, PartialEq, Eq)]
pub struct TopologyBase {
    pub id: u32,
    pub route_anchor: Option<WalkPosition>,
}

#[derive(Debug, Clone, Copy, PartialEq, Eq, PartialOrd, Ord)]
pub enum RampSide {
    Lower,
    Upper,
}

#[derive(Debug, Clone, Copy, PartialEq, Eq)]
pub struct RampBoundary {
    pub id: u32,
    pub end: RampSide,
    pub lower_elevation: u8,
    pub upper_elevation: u8,
}

#[derive(Debug, Clone, PartialEq)]
pub struct TopologyObservation {
    pub endpoints: [PixelPosition; 2],
    pub width_pixels: f64,
    pub sources: Vec<[u32; 2]>,
}

#[derive(Debug, Clone, PartialEq)]
pub struct TopologyBoundary {
    pub endpoints: [PixelPosition; 2],
    pub width_pixels: f64,
    pub sources: Vec<[u32; 2]>,
    pub observations: Vec<TopologyObservation>,
    pub ramp: Option<RampBoundary>,
}
