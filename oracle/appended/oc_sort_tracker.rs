
// Appended for the comparison: a copy, and the private state put in and read out.

impl Clone for OCSort {
    fn clone(&self) -> Self {
        Self { trackers: self.trackers.clone(), ..*self }
    }
}

impl OCSort {
    pub(crate) fn of_state(s: &crate::state::State) -> Self {
        let set = &s.settings;
        let tracks = s.tracks.iter();
        Self {
            trackers: tracks.map(|t| KalmanBoxTracker::of_track(t, set.delta_t)).collect(),
            frame_count: s.frames,
            track_id_count: s.ids,
            ..Self::new(set.det_thresh)
                .with_iou_threshold(set.iou_threshold)
                .with_inertia(set.inertia)
                .with_max_age(set.max_age)
                .with_min_hits(set.min_hits)
                .with_delta_t(set.delta_t)
                .with_byte(set.use_byte)
        }
    }

    pub(crate) fn tracks(&self) -> Vec<crate::state::Track> {
        self.trackers.iter().map(KalmanBoxTracker::track).collect()
    }

    pub(crate) fn ids_issued(&self) -> usize {
        self.track_id_count
    }

    /// How many tracks are left after prediction, that is, without a NaN position.
    pub(crate) fn left_after_prediction(&self) -> usize {
        let mut trackers = self.trackers.clone();
        trackers.iter_mut().filter_map(|t| (!t.predict().iter().any(|v| v.is_nan())).then_some(())).count()
    }
}
