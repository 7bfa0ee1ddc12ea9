//! Document 01's cases through the library, that a refusal writes nothing, and storing and restoring.
use satinjacks::{
    assign, assign_whole, shortcuts, BoxImage, Detection, Refusal, Settings, Shortcuts, StoredError, Track, Tracker,
    TrackerImage,
};

const DEFAULTS: Settings = Settings::new(0.5);

fn at(x: f32, y: f32, width: f32, height: f32, score: f32) -> Detection {
    Detection { x, y, width, height, score }
}

/// The call is refused with `refusal` and the state keeps its bytes.
fn refuses(tracker: &mut Tracker, detections: &[Detection], refusal: Refusal) {
    let before = tracker.image().bytes().to_vec();
    assert_eq!(tracker.update(detections), Err(refusal));
    assert_eq!(tracker.image().bytes(), before);
}

#[test]
fn first_frame() {
    let mut tracker = Tracker::new(0.5).unwrap();
    let tracks = tracker.update(&[at(0.0, 0.0, 64.0, 64.0, 0.9)]).unwrap();
    assert_eq!(tracks, [Track { id: 1, x: 0.0, y: 0.0, width: 64.0, height: 64.0 }]);
    assert_eq!((tracker.count(), tracker.frames(), tracker.issued()), (1, 1, 1));
}

#[test]
fn width_zero_breaks_the_track() {
    let mut tracker = Tracker::new(0.5).unwrap();
    let track = tracker.update(&[at(0.0, 0.0, 0.0, 64.0, 0.9)]).unwrap()[0];
    assert_eq!((track.id, track.x, track.width), (1, 0.0, 0.0));
    assert!(track.y.is_nan() && track.height.is_nan());
    assert!(tracker.update(&[]).unwrap().is_empty());
    assert_eq!((tracker.count(), tracker.issued()), (0, 1));
}

/// Document 02, 2.8: a first-class object by the last box wins a track over a spare by the predicted one.
#[test]
fn last_boxes_before_spares() {
    let mut tracker = Tracker::with_settings(Settings { use_byte: true, ..DEFAULTS }).unwrap();
    for x in [0.0, 32.0] {
        assert_eq!(tracker.update(&[at(x, 0.0, 64.0, 64.0, 0.9)]).unwrap().len(), 1);
    }
    let tracks = tracker.update(&[at(16.0, 0.0, 64.0, 64.0, 0.9), at(64.0, 0.0, 64.0, 64.0, 0.25)]).unwrap();
    assert_eq!(tracks, [Track { id: 1, x: 16.0, y: 0.0, width: 64.0, height: 64.0 }]);
    assert_eq!(tracker.issued(), 1);
}

#[test]
fn defaults_are_the_same_both_ways() {
    for det_thresh in [0.5, -0.0, 0.75, f32::INFINITY] {
        let filled = Tracker::with_settings(Settings::new(det_thresh)).unwrap();
        assert_eq!(Tracker::new(det_thresh).unwrap().bytes(), filled.bytes());
    }
}

#[test]
fn settings_out_of_range() {
    assert_eq!(Tracker::new(f32::NAN).err(), Some(Refusal::BadSetting));
    assert!(Tracker::with_settings(Settings { max_age: 255, ..DEFAULTS }).is_ok());
    for bad in [
        Settings { iou_threshold: 1.5, ..DEFAULTS },
        Settings { inertia: -0.5, ..DEFAULTS },
        Settings { max_age: 256, ..DEFAULTS },
        Settings { min_hits: 256, ..DEFAULTS },
        Settings { delta_t: 9, ..DEFAULTS },
    ] {
        assert_eq!(Tracker::with_settings(bad).err(), Some(Refusal::BadSetting));
    }
}

#[test]
fn refusals_keep_the_state() {
    let mut tracker = Tracker::new(0.5).unwrap();
    tracker.update(&[at(0.0, 0.0, 64.0, 64.0, 0.9)]).unwrap();
    refuses(&mut tracker, &[at(0.0, 0.0, 64.0, 64.0, 0.9); 65], Refusal::CrowdedFrame);

    // 64 tracks, then 64 objects elsewhere
    let row = |y: f32| (0..64u8).map(|k| at(100.0 * f32::from(k), y, 64.0, 64.0, 0.9)).collect::<Vec<_>>();
    let mut full = Tracker::new(0.5).unwrap();
    full.update(&row(0.0)).unwrap();
    refuses(&mut full, &row(1000.0), Refusal::FullTable);
    assert_eq!(full.update(&row(0.0)).unwrap().len(), 64);

    let mut over = TrackerImage::zeroed();
    *over = *tracker.image();
    over.frames = 1_000_000;
    refuses(&mut Tracker::from_image(over), &[], Refusal::RunOver);
}

/// The stored bytes, wherever they stand in memory, go on as the tracker does.
#[test]
fn restored_from_bytes() {
    let mut tracker = Tracker::with_settings(Settings { use_byte: true, ..DEFAULTS }).unwrap();
    let seen = |k: u8| [at(3.0 * f32::from(k), 0.0, 64.0, 32.0, 0.75), at(f32::INFINITY, 0.0, 64.0, 32.0, 0.9)];
    for k in 0..12 {
        // the first is hidden for a while, so that a frozen track is stored too; of the second, which breaks, a NaN
        let objects = if (4..7).contains(&k) { &seen(k)[1..] } else { &seen(k)[..] };
        let mut stored = vec![0xFF; k.into()];
        stored.extend_from_slice(tracker.bytes());
        let mut restored = Tracker::from_bytes(&stored[k.into()..]).unwrap();
        assert_eq!(restored.bytes(), tracker.bytes());
        let bits = |t: &Track| (t.id, [t.x, t.y, t.width, t.height].map(f32::to_bits));
        let expected: Vec<_> = tracker.update(objects).unwrap().iter().map(bits).collect();
        assert_eq!(restored.update(objects).unwrap().iter().map(bits).collect::<Vec<_>>(), expected);
        assert_eq!(restored.bytes(), tracker.bytes());
    }
    let image = tracker.image();
    assert_eq!((image.frames, image.count, image.id[0]), (12, 2, 0));
    assert!(image.floats[1].filter.x[2].is_nan());
}

/// Both ways to restore say this of the bytes.
fn no_stored_state(bytes: &[u8], error: StoredError) {
    assert_eq!(Tracker::from_bytes(bytes).unwrap_err(), error);
    assert_eq!(TrackerImage::from_bytes(bytes).unwrap_err(), error);
}

/// The number of bytes is tested at once; what else they say is the next frame's to refuse.
#[test]
fn bytes_that_are_no_state() {
    assert_eq!(TrackerImage::SIZE, 46_128);
    for given in [0, 1, 7, 8, 9, TrackerImage::SIZE - 1, TrackerImage::SIZE + 1] {
        let error = StoredError::WrongLength { given };
        no_stored_state(&vec![0; given], error);
        assert_eq!(error.to_string(), format!("wrong length: a stored state has 46128 bytes, these are {given}"));
    }
    for byte in [1, 0x7F, 0xFF] {
        let mut tracker = Tracker::from_bytes(&vec![byte; TrackerImage::SIZE]).unwrap();
        refuses(&mut tracker, &[], Refusal::UnsoundState);
    }
    // of zeros every setting is in its range: a sound state, without tracks
    let mut tracker = Tracker::from_bytes(&vec![0; TrackerImage::SIZE]).unwrap();
    assert!(tracker.update(&[]).unwrap().is_empty());
}

#[test]
fn a_tracker_is_shown_by_its_counts() {
    let mut tracker = Tracker::new(0.5).unwrap();
    tracker.update(&[at(0.0, 0.0, 64.0, 64.0, 0.9)]).unwrap();
    assert_eq!(format!("{tracker:?}"), "Tracker { count: 1, frames: 1, issued: 1, .. }");
}

/// An animal seen in three frames, then hidden: its numbers stand where their names say.
#[test]
fn the_image_has_its_names() {
    let mut tracker = Tracker::new(0.5).unwrap();
    for k in 0..3u8 {
        let k = f32::from(k);
        tracker.update(&[at(3.0 * k, 4.0 * k, 64.0, 32.0, 0.75)]).unwrap();
        let i = tracker.image();
        assert_eq!((i.words[0].frozen, i.floats[0].saved.x[0], i.floats[0].saved.p[48]), (0, 0.0, 0.0));
        assert_eq!(i.floats[0].filter.x[0].round(), 32.0 + 3.0 * k);
    }
    tracker.update(&[]).unwrap();
    let i = tracker.image();
    assert_eq!((i.issued, i.count, i.id[0]), (1, 1, 0));
    assert_eq!((i.det_thresh, i.iou_threshold, i.inertia), (0.5, 0.3, 0.2));
    assert_eq!((i.max_age, i.min_hits, i.delta_t, i.use_byte, i.frames), (30, 3, 3, 0, 4));
    let (f, w) = (i.floats[0], i.words[0]);
    assert_eq!((w.frozen, w.age, w.streak, w.since), (1, 3, 2, 1));
    assert_eq!((w.has_last, w.has_list, w.has_direction, w.has_kept), (1, 1, 1, [0, 1, 1, 0, 0, 0, 0, 0]));
    let five = |b: BoxImage| [b.x1, b.y1, b.x2, b.y2, b.score];
    assert_eq!([f.last, f.kept[1]].map(five), [[6.0, 8.0, 70.0, 40.0, 0.75]; 2]);
    assert_eq!(five(f.kept[2]), [3.0, 4.0, 67.0, 36.0, 0.75]);
    assert_eq!([f.list.x, f.list.y, f.list.s, f.list.r], [38.0, 24.0, 2048.0, 2.0]);
    assert_eq!([f.direction.dy, f.direction.dx].map(|d| (10.0 * d).round()), [8.0, 6.0]);
    assert_eq!([f.filter.x[4], f.filter.x[5]].map(f32::round), [3.0, 4.0]);
    assert_eq!((f.filter.x, f.filter.p), (f.saved.x, f.saved.p));
}

#[test]
fn unsound_states() {
    let mut tracker = Tracker::new(0.5).unwrap();
    for _ in 0..2 {
        tracker.update(&[at(0.0, 0.0, 64.0, 64.0, 0.9)]).unwrap();
    }
    let spoilt = |spoil: fn(&mut TrackerImage)| {
        let mut image = Box::new(*tracker.image());
        spoil(&mut image);
        refuses(&mut Tracker::from_image(image), &[], Refusal::UnsoundState);
    };
    spoilt(|i| i.use_byte = 2);
    spoilt(|i| i.words[0].has_last = 7);
    spoilt(|i| i.words[0].has_kept[7] = 2);
    spoilt(|i| i.count = u64::MAX);
    spoilt(|i| i.id[0] = 1);
    spoilt(|i| i.delta_t = 9);
    spoilt(|i| i.floats[0].list.x = 33.0);
    // cells past the count mean nothing, and an accepted frame leaves zeros there
    let mut image = Box::new(*tracker.image());
    image.words[1].has_last = 7;
    let mut spoilt_past = Tracker::from_image(image);
    assert!(spoilt_past.update(&[]).is_ok());
    assert_eq!(spoilt_past.image().words[1].has_last, 0);
}

#[test]
fn assignment() {
    let (mut rows, mut columns) = ([7; 2], [7; 2]);
    assert_eq!(assign(2, &[1.0; 3], &mut rows, &mut columns), Err(Refusal::BadMatrix));
    assert_eq!((rows, columns), ([7; 2], [7; 2]));
    // every cost, and for each row, which is its column's alone, its other one
    assert_eq!(assign(2, &[4.0, 1.0, 2.0, 3.0], &mut rows, &mut columns), Ok(6));
    assert_eq!((rows, columns), ([1, 0], [1, 0]));
}

/// The least total of all pairings of the rows from `row` on with columns that are not taken.
fn least(n: usize, costs: &[i64], row: usize, taken: u32) -> i64 {
    let open = (0..n).filter(|j| taken >> j & 1 == 0);
    open.map(|j| costs[row * n + j] + least(n, costs, row + 1, taken | 1 << j)).min().unwrap_or(0)
}

#[test]
fn whole_assignment() {
    let (mut rows, mut columns) = ([7; 2], [7; 2]);
    assert_eq!(assign_whole(2, &[2_000_000; 3], &mut rows, &mut columns), Err(Refusal::BadMatrix));
    assert_eq!(assign_whole(2, &[0, 0, 0, -1_000_001], &mut rows, &mut columns), Err(Refusal::CostOutOfRange));
    assert_eq!(assign_whole(1, &[i64::MIN], &mut rows[..1], &mut columns[..1]), Err(Refusal::CostOutOfRange));
    assert_eq!((rows, columns), ([7; 2], [7; 2]));
    assign_whole(2, &[1_000_000, -1_000_000, -1_000_000, 1_000_000], &mut rows, &mut columns).unwrap();
    assert_eq!((rows, columns), ([1, 0], [1, 0]));
    let mut seed = 1u64;
    for k in 0..2_000 {
        let n = 1 + k % 6;
        let mut costs = [0; 36];
        for cost in &mut costs[..n * n] {
            seed = seed.wrapping_mul(6_364_136_223_846_793_005).wrapping_add(1);
            // ends of the range and small numbers, so that there are ties
            *cost = [1_000_000, -1_000_000, 0, 1][(seed >> 60) as usize % 4] - ((seed >> 40) % 3) as i64;
            *cost = (*cost).max(-1_000_000);
        }
        let (mut rows, mut columns) = ([0; 6], [0; 6]);
        assign_whole(n, &costs[..n * n], &mut rows[..n], &mut columns[..n]).unwrap();
        let total: i64 = (0..n).map(|i| costs[i * n + rows[i] as usize]).sum();
        assert_eq!(total, least(n, &costs, 0, 0));
        assert!((0..n).all(|i| columns[rows[i] as usize] == i as i64));
    }
}

/// A crowded run in a thread whose stack is small: the 2 MB that Rust gives a thread, and a quarter of it.
#[test]
fn a_small_stack_suffices() {
    let run = || {
        let mut tracker = Tracker::with_settings(Settings { use_byte: true, min_hits: 0, ..DEFAULTS }).unwrap();
        for frame in 0..40u8 {
            let seen: Vec<_> = (0..64u8)
                .map(|k| {
                    at(
                        37.0 * f32::from(k) + 3.0 * f32::from(frame),
                        5.0 * f32::from(k % 7),
                        64.0,
                        64.0,
                        0.4 + 0.01 * f32::from(k),
                    )
                })
                .collect();
            tracker.update(&seen).unwrap();
        }
    };
    for stack in [2 << 20, 1 << 19] {
        std::thread::Builder::new().stack_size(stack).spawn(run).unwrap().join().unwrap();
    }
}

/// Document 02's four sizes, and sizes that it leaves out.
#[test]
fn shortcut_counts() {
    for (rows, columns, shortcut, assignment) in [(1, 2, 2, 2), (2, 2, 6, 10), (3, 3, 33, 479), (4, 4, 208, 65_328)] {
        assert_eq!(shortcuts(rows, columns), Shortcuts { shortcut, assignment });
    }
    for (rows, columns) in [(0, 1), (1, 0), (4, 5), (5, 4), (1, u64::MAX), (u64::MAX, 1)] {
        assert_eq!(shortcuts(rows, columns), Shortcuts { shortcut: 0, assignment: 0 });
    }
}
