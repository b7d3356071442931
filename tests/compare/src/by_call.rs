//! Counts of the calls of a leaf or of a list, by the call's number.

#[derive(Clone, Copy, Default)]
pub struct Count {
    pub calls: u64,
    /// Calls whose whole outcome was compared with the source's.
    pub compared: u64,
    /// Calls of which the source panics.
    pub panicked: u64,
    pub refused: u64,
    pub differences: u64,
}

impl Count {
    fn add(&mut self, other: &Count) {
        self.calls += other.calls;
        self.compared += other.compared;
        self.panicked += other.panicked;
        self.refused += other.refused;
        self.differences += other.differences;
    }

    fn print(&self, name: &str) {
        println!(
            "  {name}: {} calls, {} with the source's outcome, {} refused ({} where it panics), {} differences",
            self.calls, self.compared, self.refused, self.panicked, self.differences
        );
    }
}

/// By the call's number; 0 is for the numbers that name none.
pub struct ByCall<const N: usize> {
    unknown: Count,
    counts: [Count; N],
}

impl<const N: usize> Default for ByCall<N> {
    fn default() -> Self {
        ByCall {
            unknown: Count::default(),
            counts: [Count::default(); N],
        }
    }
}

impl<const N: usize> ByCall<N> {
    pub fn of(&mut self, number: usize) -> &mut Count {
        match number {
            0 => &mut self.unknown,
            _ => &mut self.counts[number - 1],
        }
    }

    /// Adds the counts of a group, and answers their sum.
    pub fn add(&mut self, group: &ByCall<N>) -> Count {
        let mut all = group.unknown;
        self.unknown.add(&group.unknown);
        for (sum, count) in self.counts.iter_mut().zip(&group.counts) {
            sum.add(count);
            all.add(count);
        }
        all
    }

    /// Prints a line for each call and one for all.
    pub fn print(&self, names: [&str; N], all_name: &str) {
        let mut all = self.unknown;
        self.unknown.print("no call");
        for (name, count) in names.into_iter().zip(&self.counts) {
            count.print(name);
            all.add(count);
        }
        all.print(all_name);
    }
}
