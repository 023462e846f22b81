impl GroupAccessScope {
    /// A scope with a given count and generation.
    pub(crate) fn at(open_count: u32, snapshot_generation: u64) -> Self {
        Self {
            open_count: open_count.into(),
            snapshot_generation: snapshot_generation.into(),
        }
    }
}
