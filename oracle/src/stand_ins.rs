//! Stand-ins for what the listed files name and no listed file holds.

/// `std::sync`, as far as presentation.rs names it.
pub mod sync {
    pub use rust_std::sync::Mutex;
}

/// The clock of `std::time` and the `Time` of the crate.
pub mod time {
    use core::cell::Cell;
    use core::time::Duration;

    rust_std::thread_local! {
        static NOW: Cell<Duration> = const { Cell::new(Duration::ZERO) };
    }

    /// The start of a clock that stands where it was set last.
    #[derive(Debug)]
    pub struct Instant;

    impl Instant {
        pub fn now() -> Self {
            Self
        }

        pub fn elapsed(&self) -> Duration {
            NOW.get()
        }

        /// Sets the time since the start.
        pub fn set(now: Duration) {
            NOW.set(now);
        }
    }

    /// Ordered by seconds, then nanoseconds.
    #[derive(Debug, Clone, Copy, PartialEq, Eq, PartialOrd, Ord)]
    pub struct Time {
        pub sec: i32,
        pub nanosec: u32,
    }

    impl Time {
        pub fn new(sec: i32, nanosec: u32) -> Self {
            Self { sec, nanosec }
        }
    }
}

pub mod group_digest {
    /// A digest as its 32-bit number; `None` equals no digest of a sample
    /// or heartbeat.
    #[derive(Debug, Clone, Copy, PartialEq, Eq)]
    pub struct GroupDigest(pub Option<u32>);

    impl GroupDigest {
        pub fn of(number: u32) -> Self {
            Self(Some(number))
        }

        /// The digest of a group with these digest rows, which are alike.
        pub fn of_entities(rows: &[u32]) -> Self {
            Self(rows.first().copied())
        }

        pub fn is_empty(&self) -> bool {
            self.0 == Some(0)
        }
    }
}

pub mod submessages {
    use super::group_digest::GroupDigest;
    use super::wire_types::SequenceNumber;

    #[derive(Debug, Clone, Copy)]
    pub struct HeartbeatGroupInfo {
        pub first_gsn: SequenceNumber,
        pub last_gsn: SequenceNumber,
        pub current_gsn: SequenceNumber,
        pub writer_set: Option<GroupDigest>,
        pub secure_writer_set: Option<GroupDigest>,
    }
}

pub mod writer_group {
    use super::group_digest::GroupDigest;

    #[derive(Debug, Clone, Copy)]
    pub struct ChangeGroupInfo {
        pub gsn: i64,
        pub coherent_set_gsn: Option<i64>,
        pub writer_set: GroupDigest,
    }
}

pub mod wire_types {
    #[derive(Debug, Clone, Copy)]
    pub struct SequenceNumber(pub i64);

    /// A reader of the turn, by its place in the list of readers.
    #[derive(Debug, Clone, Copy)]
    pub struct EntityId(pub usize);
}

/// Keeps the events that were recorded.
pub mod observability {
    use core::cell::RefCell;

    pub enum Level {
        Warn,
    }

    pub enum Component {
        Dcps,
    }

    #[derive(Debug, Clone)]
    pub struct Event {
        pub name: &'static str,
        pub attrs: Vec<(&'static str, String)>,
    }

    impl Event {
        pub fn new(_: Level, _: Component, name: &'static str) -> Self {
            Self {
                name,
                attrs: Vec::new(),
            }
        }

        pub fn with_attr(mut self, name: &'static str, value: &str) -> Self {
            self.attrs.push((name, value.into()));
            self
        }
    }

    #[derive(Debug, Default)]
    pub struct Observability {
        pub events: RefCell<Vec<Event>>,
    }

    impl Observability {
        pub fn record(&self, event: &Event) {
            self.events.borrow_mut().push(event.clone());
        }
    }
}

/// The runtime: what it answers is set before each call.
pub mod runtime {
    use super::observability::Observability;
    use super::submessages::HeartbeatGroupInfo;
    use super::wire_types::EntityId;
    use super::writer_group::ChangeGroupInfo;
    use core::cell::{Cell, RefCell};
    use rust_std::collections::VecDeque;

    type Guid = [u8; 16];

    /// The GROUP-scope part of a sample.
    #[derive(Debug, Clone, Copy)]
    pub struct SampleGroup {
        pub writer: Guid,
        pub info: ChangeGroupInfo,
    }

    #[derive(Debug, Clone)]
    pub enum UserSample {
        Alive {
            writer_guid: Guid,
            coherent_set_sn: Option<i64>,
            group: Option<SampleGroup>,
            item: u32,
        },
        Lifecycle {
            writer_guid: Guid,
            coherent_set_sn: Option<i64>,
            group: Option<SampleGroup>,
            item: u32,
        },
        CoherentSetEnd {
            writer_guid: Guid,
            set_first_sn: Option<i64>,
            ecs_sn: Option<i64>,
            complete: Option<bool>,
            group: Option<SampleGroup>,
        },
    }

    #[derive(Debug, Clone, Copy, Default)]
    pub struct Progress {
        pub heartbeat: Option<HeartbeatGroupInfo>,
        pub gap_end_gsn: i64,
    }

    /// What the runtime knows of one place of the list of readers.
    #[derive(Debug, Clone, Copy)]
    pub enum Place {
        /// The reader's progress with the writer.
        Progress(Guid, Guid, Progress),
        /// The writer counts for the reader.
        Counted(Guid, Guid),
    }

    #[derive(Debug, Default)]
    pub struct Config {
        pub observability: Observability,
    }

    /// The source asks for a writer without its group, which here may differ
    /// from place to place: the questions come in a known order, and the
    /// runtime answers them by that order.
    #[derive(Debug, Default)]
    pub struct DcpsRuntime {
        pub config: Config,
        /// The places of the list of readers.
        pub places: Vec<Place>,
        /// Groups and writers in the order the turn asks for their progress.
        pub known: Vec<(Guid, Guid)>,
        /// Digest rows.
        pub digests: Vec<(Guid, u32)>,
        /// Groups of the writers named next.
        pub groups: RefCell<VecDeque<Guid>>,
        pub asked: Cell<usize>,
    }

    impl DcpsRuntime {
        pub fn writer_group_guid(&self, _writer: Guid) -> Option<Guid> {
            self.groups.borrow_mut().pop_front()
        }

        pub fn writer_group_progress(&self, writer: Guid, reader: EntityId) -> Progress {
            let asked = self.asked.replace(self.asked.get() + 1);
            let (group, known) = self.known[asked / self.places.len()];
            assert_eq!(known, writer, "progress is asked for in another order");
            match self.places[reader.0] {
                Place::Progress(g, w, progress) if (g, w) == (group, writer) => progress,
                _ => Progress::default(),
            }
        }

        pub fn user_reader_counted_writers(&self, reader: EntityId) -> Vec<Guid> {
            match self.places[reader.0] {
                Place::Counted(group, writer) => {
                    self.groups.borrow_mut().push_back(group);
                    vec![writer]
                }
                Place::Progress(..) => Vec::new(),
            }
        }

        pub fn group_writer_entities(&self, group: Guid) -> Vec<u32> {
            self.digests
                .iter()
                .filter(|(g, _)| *g == group)
                .map(|(_, digest)| *digest)
                .collect()
        }

        pub fn notify_status_changed(&self) {}
    }
}
