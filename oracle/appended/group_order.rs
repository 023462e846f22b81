/// What document 01's limits count and the fields keep to themselves.
impl<R: Clone + Ord, I> GroupOrder<R, I> {
    /// Known groups.
    pub(crate) fn group_count(&self) -> usize {
        self.groups.len()
    }

    /// Known pairs of group and writer.
    pub(crate) fn pair_count(&self) -> usize {
        self.groups.values().map(|g| g.writers.len()).sum()
    }

    pub(crate) fn knows_group(&self, group: &WriterGuid) -> bool {
        self.groups.contains_key(group)
    }

    pub(crate) fn knows_writer(&self, group: &WriterGuid, writer: &WriterGuid) -> bool {
        let group = self.groups.get(group);
        group.is_some_and(|g| g.writers.contains_key(writer))
    }

    /// Pending samples and ends, held members and kept ends.
    pub(crate) fn entry_count(&self) -> usize {
        self.groups
            .values()
            .map(|g| {
                let pending: usize = g.pending.values().map(Vec::len).sum();
                let sets = g.sets.values();
                pending + sets.map(|s| s.members.len() + s.ends.len()).sum::<usize>()
            })
            .sum()
    }

    /// Pending samples and held members.
    pub(crate) fn sample_count(&self) -> usize {
        self.groups
            .values()
            .map(|g| {
                let pending = g.pending.values().flatten();
                let members = g.sets.values().map(|s| s.members.len());
                pending.filter(|e| e.item.is_some()).count() + members.sum::<usize>()
            })
            .sum()
    }

    /// Pending entries of one number.
    pub(crate) fn pending_at(&self, group: &WriterGuid, gsn: i64) -> usize {
        let pending = self.groups.get(group).and_then(|g| g.pending.get(&gsn));
        pending.map_or(0, Vec::len)
    }

    /// The group's committed number; 0 for an unknown group.
    pub(crate) fn committed(&self, group: &WriterGuid) -> i64 {
        self.groups.get(group).map_or(0, |g| g.committed)
    }

    /// All groups' committed numbers added: at least as many as were skipped.
    pub(crate) fn committed_sum(&self) -> u128 {
        let groups = self.groups.values();
        groups.map(|g| u128::from(g.committed.unsigned_abs())).sum()
    }

    /// Whether the open set keeps an end of the pair; `None` if the set
    /// isn't open.
    pub(crate) fn keeps_end(
        &self,
        group: &WriterGuid,
        set: i64,
        writer: WriterGuid,
        reader: R,
    ) -> Option<bool> {
        let set = self.groups.get(group)?.sets.get(&set)?;
        Some(set.ends.contains_key(&(writer, reader)))
    }

    /// At most this many numbers does a release walk over, one by one, to
    /// rule them out, if heartbeats announce no number above `announced` or
    /// what they did. `view`: the rows, if no writer's progress changes
    /// before the walk.
    pub(crate) fn walk(&self, view: Option<&dyn GroupView<R>>, announced: i64) -> u64 {
        let mut walk = 0;
        for (key, g) in &self.groups {
            let mut committed = g.committed;
            for &next in g.pending.keys() {
                let missing = committed + 1;
                committed = next;
                if next > g.current_gsn.max(announced) || next == missing {
                    continue;
                }
                // Most walks end at their first number.
                if view.is_none_or(|view| passable(key, g, view, missing, missing + 1)) {
                    walk += (next - missing) as u64;
                }
            }
        }
        walk
    }
}

/// What a page of all groups and readers shows.
impl<I> GroupOrder<u8, I> {
    /// Of each group, in order, and each of its readers 0 to 7: when the
    /// pending samples and the held members were offered.
    pub(crate) fn offer_times(&self) -> Vec<[crate::page::Times; 8]> {
        let groups = self.groups.values();
        groups
            .map(|g| {
                core::array::from_fn(|reader| {
                    let pending = g.pending.values().flatten();
                    let pending = pending.filter(|e| e.item.is_some());
                    let held = g.sets.values().flat_map(|s| &s.members);
                    let of_reader = |e: &&Entry<u8, I>| usize::from(e.reader) == reader;
                    (
                        pending.filter(of_reader).map(|e| e.offered_at).collect(),
                        held.filter(of_reader).map(|e| e.offered_at).collect(),
                    )
                })
            })
            .collect()
    }
}
