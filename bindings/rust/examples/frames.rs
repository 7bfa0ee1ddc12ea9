//! Two animals that walk past each other, one of which the detector misses for two frames.
use satinjacks::{Detection, Refusal, Tracker};

fn at(x: f32, y: f32) -> Detection {
    Detection { x, y, width: 64.0, height: 64.0, score: 0.9 }
}

fn main() -> Result<(), Refusal> {
    let mut tracker = Tracker::new(0.5)?;
    for frame in 1..=8u8 {
        let step = 8.0 * f32::from(frame);
        let mut seen = vec![at(step, 0.0)];
        if !(4..=5).contains(&frame) {
            seen.push(at(400.0 - step, 100.0));
        }
        println!("frame {frame}:");
        for track in tracker.update(&seen)? {
            println!("  id {} at {}, {}, {} by {}", track.id, track.x, track.y, track.width, track.height);
        }
    }
    println!("{} tracks live, {} ids issued", tracker.count(), tracker.issued());
    println!("65 objects: {}", tracker.update(&[at(0.0, 0.0); 65]).unwrap_err());
    Ok(())
}
