impl CoherentHold {
    /// Writer and set of each held member.
    pub(crate) fn members(&self) -> Vec<([u8; 16], i64)> {
        let hold = self.hold.lock().expect("one thread");
        hold.iter().filter_map(coherent_member).collect()
    }
}

impl<R: Clone + Ord> GroupOrdering<R> {
    /// An empty order with a given timeout.
    pub(crate) fn with_timeout(timeout: core::time::Duration) -> Self {
        Self {
            order: Mutex::new(GroupOrder::new(timeout)),
            ..Self::new()
        }
    }

    /// The history beneath.
    pub(crate) fn order(&mut self) -> &mut GroupOrder<R, UserSample> {
        self.order.get_mut().expect("one thread")
    }
}

pub(crate) fn group_key_of(writer: [u8; 16]) -> [u8; 16] {
    participant_group_key(writer)
}

impl<K: Clone, S: Clone> TbfHold<K, S> {
    /// Instance, sample and due time of all held samples, in instance order.
    pub(crate) fn all(&self) -> Vec<(K, S, crate::time::Time)> {
        let held = self.held.iter();
        held.map(|(k, (s, due))| (k.clone(), s.clone(), *due)).collect()
    }
}

pub(crate) fn due_time(at: crate::time::Time, nanos: u128) -> crate::time::Time {
    time_after(at, nanos)
}
