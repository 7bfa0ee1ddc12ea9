//! The state as the library lays it out: include/satinjacks.h in Rust. Plain numbers, so any bytes are a value;
//! bytes that mean nothing, or that break a state rule, are refused by the next frame.
use std::error::Error;
use std::fmt;
use std::ptr::{addr_of_mut, from_mut, from_ref};

/// Five numbers of a box.
#[repr(C)]
#[derive(Clone, Copy, Debug)]
pub struct BoxImage {
    pub x1: f32,
    pub y1: f32,
    pub x2: f32,
    pub y2: f32,
    pub score: f32,
}

/// The last box in the history's list, which is the track's last box as measured: centre, area, width over height plus 1e-6.
#[repr(C)]
#[derive(Clone, Copy, Debug)]
pub struct ListImage {
    pub x: f32,
    pub y: f32,
    pub s: f32,
    pub r: f32,
}

#[repr(C)]
#[derive(Clone, Copy, Debug)]
pub struct DirectionImage {
    pub dy: f32,
    pub dx: f32,
}

#[repr(C)]
#[derive(Clone, Copy, Debug)]
pub struct Filter {
    pub x: [f32; 7],
    pub p: [f32; 49],
}

/// The floats of a track.
#[repr(C)]
#[derive(Clone, Copy, Debug)]
pub struct TrackFloats {
    pub filter: Filter,
    pub saved: Filter,
    pub last: BoxImage,
    pub list: ListImage,
    pub direction: DirectionImage,
    pub kept: [BoxImage; 8],
}

/// The words of a track. A tag `has_` is 0 where there is none, 1 where there is one; `frozen` is 0 or 1.
#[repr(C)]
#[derive(Clone, Copy, Debug)]
pub struct TrackWords {
    pub frozen: u32,
    pub age: u32,
    pub streak: u32,
    pub since: u32,
    pub has_last: u32,
    pub has_list: u32,
    pub has_direction: u32,
    pub has_kept: [u32; 8],
}

/// The whole state: three lists of numbers, one for each type. Track k is `id[k]` (a report's id is one more),
/// `floats[k]` and `words[k]`. Cells of tracks past `count` mean nothing; a tracker that is made and an accepted frame
/// have zeros there.
#[repr(C)]
#[derive(Clone, Copy, Debug)]
pub struct TrackerImage {
    pub issued: u64,
    pub count: u64,
    pub id: [u64; 64],
    pub det_thresh: f32,
    pub iou_threshold: f32,
    pub inertia: f32,
    pub floats: [TrackFloats; 64],
    pub max_age: u32,
    pub min_hits: u32,
    pub delta_t: u32,
    pub use_byte: u32,
    pub frames: u32,
    pub words: [TrackWords; 64],
}

// the sizes are the sums, so there is no padding
const _: () = assert!(size_of::<TrackFloats>() == 4 * 163 && size_of::<TrackWords>() == 4 * 15);
const _: () = assert!(size_of::<TrackerImage>() == 8 * 66 + 4 * 10_435 + 4 * 965);

/// Why bytes are no stored state of this version.
#[derive(Clone, Copy, Debug, PartialEq, Eq, Hash)]
#[non_exhaustive]
pub enum StoredError {
    /// They aren't [`TrackerImage::SIZE`] many.
    WrongLength { given: usize },
}

impl fmt::Display for StoredError {
    fn fmt(&self, f: &mut fmt::Formatter<'_>) -> fmt::Result {
        match self {
            Self::WrongLength { given } => {
                write!(f, "wrong length: a stored state has {} bytes, these are {given}", TrackerImage::SIZE)
            }
        }
    }
}

impl Error for StoredError {}

impl TrackerImage {
    /// Bytes of a state.
    pub const SIZE: usize = size_of::<Self>();

    /// The state's bytes, to store or compare; there is no padding between the fields. Numbers are in the machine's order,
    /// which on x86-64 is the lowest byte first.
    pub fn bytes(&self) -> &[u8] {
        // SAFETY: repr(C) without padding, so every byte is written.
        unsafe { std::slice::from_raw_parts(from_ref(self).cast(), size_of::<Self>()) }
    }

    /// The state that [`TrackerImage::bytes`] gave, on the heap. Their number is tested. Whether they are a sound state shows
    /// at the next frame, which refuses another with 1.
    pub fn from_bytes(bytes: &[u8]) -> Result<Box<Self>, StoredError> {
        if bytes.len() != Self::SIZE {
            return Err(StoredError::WrongLength { given: bytes.len() });
        }
        let mut image = Self::zeroed();
        // SAFETY: both are SIZE bytes and the image is new, so they don't overlap; all fields are integers and floats, of
        // which any bytes are values.
        unsafe { from_mut(&mut *image).cast::<u8>().copy_from_nonoverlapping(bytes.as_ptr(), Self::SIZE) };
        Ok(image)
    }

    /// A state on the heap whose bytes the caller writes: zeros, a state without tracks.
    pub fn zeroed() -> Box<Self> {
        // SAFETY: all fields are integers and floats, of which zero bytes are values.
        unsafe { Box::new(std::mem::zeroed()) }
    }

    /// Its three lists: 66 numbers, 10,435 floats, 965 words.
    pub(crate) fn lists(&mut self) -> (*mut u64, *mut f32, *mut u32) {
        let image: *mut Self = self;
        // SAFETY: places in a whole image; by its own pointer, since each list goes past the field that it begins with.
        unsafe { (addr_of_mut!((*image).issued), addr_of_mut!((*image).det_thresh), addr_of_mut!((*image).max_age)) }
    }
}
