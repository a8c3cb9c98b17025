//! Counts what runs touch, where the feature `tally` is on.

/// Something that can happen in a tick.
#[derive(Clone, Copy, Debug, PartialEq, Eq, Hash, PartialOrd, Ord)]
pub enum Event {
    /// An instruction took effect, with its branch taken or not.
    Code(u8, bool),
    Read(u16),
    Write(u16),
    /// An interrupt was accepted, by its place in the order.
    Accept(u8),
    /// A wake-up, by the mode's letter and the pending enabled requests.
    Wake(char, u8),
    /// A timer's pulse: timer, its source, and whether it matched.
    Pulse(u8, u8, bool),
    /// The buzzer turned, by BUCK.
    Turn(u8),
    /// BITR passed FF, by BTS.
    Bit(u8),
    WatchdogReset,
    WatchdogRequest,
    /// An edge set a request: source, and whether it rose; and the mode's letter.
    Edge(u8, bool, char),
    /// A direct address was formed under flag G.
    UpperPage,
    /// A tick in a mode.
    Tick(char),
}

#[cfg(not(feature = "tally"))]
#[inline(always)]
pub fn hit(_: Event) {}

#[cfg(feature = "tally")]
pub use on::{hit, seen};

#[cfg(feature = "tally")]
mod on {
    use super::Event;
    use std::cell::RefCell;
    use std::collections::BTreeMap;

    thread_local! {
        static SEEN: RefCell<BTreeMap<Event, u64>> = const { RefCell::new(BTreeMap::new()) };
    }

    pub fn hit(event: Event) {
        SEEN.with_borrow_mut(|seen| *seen.entry(event).or_insert(0) += 1);
    }

    pub fn seen() -> BTreeMap<Event, u64> {
        SEEN.with_borrow(|seen| seen.clone())
    }
}
