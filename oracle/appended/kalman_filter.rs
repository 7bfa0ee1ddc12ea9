
// Appended for the comparison: a copy, and the private state put in and read out.

impl Clone for KalmanFilter {
    fn clone(&self) -> Self {
        Self { attr_saved: self.attr_saved.clone(), history_obs: self.history_obs.clone(), ..*self }
    }
}

impl KalmanFilter {
    /// The filter that has the given numbers and, `misses` frames ago, got the last box of its list.
    pub(crate) fn of_parts(
        now: &crate::state::Filter,
        saved: Option<&crate::state::Filter>,
        list: Option<[f32; 4]>,
        misses: usize,
    ) -> Self {
        let mean = |f: &crate::state::Filter| StateMean::from_column_slice(&f.x);
        let cov = |f: &crate::state::Filter| StateCov::from_row_slice(&f.p);
        let list: Vec<Option<DetectBox>> = list.iter().map(|b| Some(DetectBox::from_column_slice(b))).collect();
        let with_misses = |n: usize| [list.clone(), vec![None; n]].concat();
        Self {
            x: mean(now),
            p: cov(now),
            observed: !list.is_empty() && misses == 0,
            attr_saved: saved.map(|s| SavedState { x: mean(s), p: cov(s), history_obs: with_misses(1) }),
            history_obs: with_misses(misses),
            ..Self::new(&DetectBox::zeros())
        }
    }

    pub(crate) fn numbers(&self) -> crate::state::Filter {
        crate::state::Filter::of(&self.x, &self.p)
    }

    pub(crate) fn saved(&self) -> Option<crate::state::Filter> {
        self.attr_saved.as_ref().map(|s| crate::state::Filter::of(&s.x, &s.p))
    }

    /// The last box in the list.
    pub(crate) fn list(&self) -> Option<[f32; 4]> {
        let last = self.history_obs.iter().rev().find_map(|b| b.as_ref());
        last.map(|b| [b[0], b[1], b[2], b[3]])
    }

    pub(crate) fn apply(&mut self, z: &DetectBox) {
        self.update_inner(z);
    }
}
