//! The original OC-SORT behind the line protocol by which the port is compared with it.

pub mod lines;
pub mod random;
pub mod runs;
pub mod session;
pub mod state;
pub mod vectors;
pub mod words;

#[allow(unused)]
mod stand_ins;

/// What the build changed in the original sources, as a unified difference.
pub const DIFFERENCE: &str = include_str!(concat!(env!("OUT_DIR"), "/difference.diff"));

/// Stands for the file that is not among the sources: no value has this type, so no conversion from it can run.
#[allow(dead_code)]
mod byte_tracker {
    pub mod strack {
        use crate::rect::Rect;
        pub enum STrack {}
        impl STrack {
            pub fn get_rect(&self) -> Rect<f32> {
                match *self {}
            }
            pub fn get_score(&self) -> f32 {
                match *self {}
            }
            pub fn get_track_id(&self) -> usize {
                match *self {}
            }
        }
    }
}

macro_rules! original {
    ($name:ident, $file:literal) => {
        #[allow(warnings)]
        mod $name {
            include!(concat!(env!("OUT_DIR"), "/", $file));
        }
    };
}

original!(error, "error.rs");
original!(rect, "rect.rs");
original!(object, "object.rs");
original!(lapjv, "lapjv.rs");
original!(whole_lapjv, "whole_lapjv.rs");
mod oc_sort_tracker {
    original!(assoc, "oc_sort_tracker/assoc.rs");
    original!(kalman_filter, "oc_sort_tracker/kalman_filter.rs");
    original!(strack, "oc_sort_tracker/strack.rs");
    original!(oc_sort_tracker, "oc_sort_tracker/oc_sort_tracker.rs");
    pub(crate) use assoc::{associate, iou_batch, takes_shortcut};
    pub(crate) use kalman_filter::{DetectBox, KalmanFilter};
    pub(crate) use oc_sort_tracker::OCSort;
    pub(crate) use strack::{convert_bbox_to_z, convert_x_to_bbox, speed_direction};
}
