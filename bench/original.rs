//! The original as a library to be timed, built twice from this file by oracle/build.rs, both with document 02's 2.5 and 2.8: `plain` with its
//! sources else as they are, `comparison` with the float calls turned to the stand-ins.

#[cfg(not(feature = "plain"))]
#[path = "../oracle/src/stand_ins.rs"]
#[allow(unused)]
mod stand_ins;

/// Stands for the file that is not among the sources: no value has this type.
#[allow(dead_code)]
mod byte_tracker {
    pub mod strack {
        use crate::rect::Rect;
        pub enum STrack {}
        impl STrack {
            pub fn get_rect(&self) -> Rect<f32> {
                match *self {}
            }
            pub fn get_score(&self) -> f32 {
                match *self {}
            }
            pub fn get_track_id(&self) -> usize {
                match *self {}
            }
        }
    }
}

macro_rules! original {
    ($name:ident, $file:literal) => {
        #[allow(warnings)]
        mod $name {
            include!(concat!(env!("OUT_DIR"), "/", $file));
        }
    };
}

original!(error, "error.rs");
original!(rect, "rect.rs");
original!(object, "object.rs");
original!(lapjv, "lapjv.rs");
mod oc_sort_tracker {
    original!(assoc, "oc_sort_tracker/assoc.rs");
    original!(kalman_filter, "oc_sort_tracker/kalman_filter.rs");
    original!(strack, "oc_sort_tracker/strack.rs");
    original!(oc_sort_tracker, "oc_sort_tracker/oc_sort_tracker.rs");
    pub use oc_sort_tracker::OCSort;
}

pub use object::Object;
pub use oc_sort_tracker::OCSort;

/// An object of five numbers: x, y, width, height, score.
pub fn object(n: [f32; 5]) -> Object {
    Object::new(rect::Rect::new(n[0], n[1], n[2], n[3]), n[4], None)
}

/// The assignment; `cost` is square.
pub fn assign(cost: &mut Vec<Vec<f64>>, x: &mut Vec<isize>, y: &mut Vec<isize>) {
    lapjv::lapjv(cost, x, y).expect("a square of costs");
}
