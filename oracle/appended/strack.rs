
// Appended for the comparison: a copy, and the private state put in and read out.

impl Clone for KalmanBoxTracker {
    fn clone(&self) -> Self {
        Self {
            kf: self.kf.clone(),
            observations: self.observations.clone(),
            history_observations: Vec::new(),
            ..*self
        }
    }
}

impl KalmanBoxTracker {
    pub(crate) fn of_track(t: &crate::state::Track, delta_t: usize) -> Self {
        let at = |(i, kept): (usize, &Option<[f32; 5]>)| kept.map(|b| (t.age - i, b));
        let mut observations: HashMap<usize, [f32; 5]> = t.kept.iter().enumerate().filter_map(at).collect();
        // A newest box that is not among the kept ones is older than they are.
        if observations.is_empty() {
            observations.extend(t.newest.map(|b| (t.age - t.since.max(8).min(t.age), b)));
        }
        Self {
            kf: KalmanFilter::of_parts(&t.filter, t.saved.as_ref(), t.list, t.since),
            id: t.id,
            time_since_update: t.since,
            hits: 0,
            hit_streak: t.streak,
            age: t.age,
            last_observation: t.last,
            observations,
            history_observations: Vec::new(),
            velocity: t.dir,
            delta_t,
        }
    }

    pub(crate) fn track(&self) -> crate::state::Track {
        let kept = |i: usize| self.age.checked_sub(i).and_then(|age| self.observations.get(&age).copied());
        crate::state::Track {
            id: self.id,
            age: self.age,
            streak: self.hit_streak,
            since: self.time_since_update,
            filter: self.kf.numbers(),
            saved: self.kf.saved(),
            last: self.last_observation,
            list: self.kf.list(),
            dir: self.velocity,
            kept: std::array::from_fn(kept),
            newest: self.observations.keys().max().map(|age| self.observations[age]),
        }
    }
}
