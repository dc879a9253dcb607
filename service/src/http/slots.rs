//! The slots of connections, by what they do. Connections of one kind never keep out those of another.
use crate::config::Limits;
use std::collections::BTreeMap;
use std::sync::atomic::{AtomicU64, Ordering};
use std::sync::{Arc, Mutex, MutexGuard, PoisonError};
use std::time::{Duration, Instant};
use tokio::sync::Notify;

/// How many connections may ask for the health.
const HEALTH: usize = 64;
/// For how long a new connection keeps its slot: by then a client has sent its request.
pub const YOUNG: Duration = Duration::from_secs(1);
/// The same with TLS: if thousands agree on it at once, they and this process take some seconds for all of them.
pub const YOUNG_BY_TLS: Duration = Duration::from_secs(10);
/// How often a connection that found no slot looks whether one is old by now.
const LOOK: Duration = Duration::from_millis(20);

/// What a connection does, by its last request.
#[derive(Clone, Copy, Debug, PartialEq, Eq)]
pub enum Kind {
    /// It made no request that needs a token.
    Stranger,
    /// It asked whether the service works or leads.
    Health,
    /// It waits for events.
    Poll,
    /// It made calls or other reads.
    Client,
}

/// The slots of each kind.
pub struct Slots {
    pools: [Mutex<Pool>; 4],
    /// A slot of a stranger is free.
    is_free: Notify,
}

/// The slots of one kind. If all are taken, another connection gets that of the one that has had no request for the longest time, unless
/// all of them are young.
struct Pool {
    most: usize,
    /// Connections whose request is being answered.
    busy: usize,
    /// Those without a request, in the order of their tickets.
    idle: BTreeMap<u64, Idle>,
    tickets: u64,
}

/// A connection without a request: until when it keeps its slot, and how it is told to go.
struct Idle {
    until: Instant,
    goes: Arc<Notify>,
}

impl Pool {
    fn new(most: usize) -> Mutex<Pool> {
        Mutex::new(Pool { most, busy: 0, idle: BTreeMap::new(), tickets: 0 })
    }

    /// Frees a slot if none is free. Returns whether there is one.
    fn make_room(&mut self) -> bool {
        if self.busy + self.idle.len() < self.most {
            return true;
        }
        let now = Instant::now();
        let longest_idle = self.idle.iter().find(|(_, idle)| idle.until <= now).map(|(ticket, _)| *ticket);
        let gone = longest_idle.and_then(|ticket| self.idle.remove(&ticket));
        if let Some(Idle { goes, .. }) = &gone {
            goes.notify_one();
        }
        gone.is_some()
    }

    /// A connection without a request, which keeps its slot for so long.
    fn add_idle(&mut self, goes: &Arc<Notify>, keeps: Duration) -> u64 {
        self.tickets += 1;
        self.idle.insert(self.tickets, Idle { until: Instant::now() + keeps, goes: Arc::clone(goes) });
        self.tickets
    }
}

impl Slots {
    pub fn of(limits: &Limits) -> Arc<Slots> {
        let most = [limits.new_connections, HEALTH, limits.polls, limits.connections];
        Arc::new(Slots { pools: most.map(Pool::new), is_free: Notify::new() })
    }

    /// The slot of a new connection, once there is one: a connection that is young, or is being answered, keeps its own.
    pub async fn enter(self: &Arc<Slots>, keeps: Duration) -> Arc<Slot> {
        loop {
            if let Some(slot) = self.enter_now(keeps) {
                return slot;
            }
            let _ = tokio::time::timeout(LOOK, self.is_free.notified()).await;
        }
    }

    fn enter_now(self: &Arc<Slots>, keeps: Duration) -> Option<Arc<Slot>> {
        let goes = Arc::new(Notify::new());
        let mut strangers = self.pool(Kind::Stranger);
        let ticket = strangers.make_room().then(|| strangers.add_idle(&goes, keeps))?;
        drop(strangers);
        let (requests, state) = (AtomicU64::new(0), Mutex::new(State::Idle(Kind::Stranger, ticket)));
        Some(Arc::new(Slot { slots: Arc::clone(self), goes, requests, state }))
    }

    fn pool(&self, kind: Kind) -> MutexGuard<'_, Pool> {
        self.pools[kind as usize].lock().unwrap_or_else(PoisonError::into_inner)
    }

    /// A connection of this kind has left its slot, or another one may have it from now on.
    fn freed(&self, kind: Kind) {
        if kind == Kind::Stranger {
            self.is_free.notify_one();
        }
    }
}

/// A connection's slot. It is free again when this is dropped.
pub struct Slot {
    slots: Arc<Slots>,
    goes: Arc<Notify>,
    requests: AtomicU64,
    state: Mutex<State>,
}

#[derive(Clone, Copy)]
enum State {
    /// No request, and its ticket. Another connection may have the slot by now.
    Idle(Kind, u64),
    /// A request, and which of the connection's.
    Busy(Kind, u64),
    None,
}

/// A request that is being answered, or whose answer is being sent. The slot is idle once this is dropped.
pub struct Turn {
    slot: Arc<Slot>,
    number: u64,
}

impl Drop for Turn {
    fn drop(&mut self) {
        self.slot.end(self.number);
    }
}

impl Slot {
    /// A request of this kind begins, if there is a slot for it; if not, the connection has to end.
    pub fn begin(self: &Arc<Slot>, kind: Kind) -> Option<Turn> {
        self.leave();
        let number = self.requests.fetch_add(1, Ordering::SeqCst);
        let mut pool = self.slots.pool(kind);
        if !pool.make_room() {
            self.goes.notify_one();
            return None;
        }
        pool.busy += 1;
        *self.state() = State::Busy(kind, number);
        Some(Turn { slot: Arc::clone(self), number })
    }

    /// Whether there was no slot for its last request.
    pub fn is_refused(&self) -> bool {
        matches!(*self.state(), State::None)
    }

    /// The request is answered. The slot is kept for the next one, until another connection needs it.
    fn end(&self, number: u64) {
        let kind = match *self.state() {
            State::Busy(kind, current) if current == number => kind,
            _ => return,
        };
        let mut pool = self.slots.pool(kind);
        pool.busy -= 1;
        *self.state() = State::Idle(kind, pool.add_idle(&self.goes, Duration::ZERO));
        drop(pool);
        self.slots.freed(kind);
    }

    /// Ends once another connection has got the slot, or there was none for a request.
    pub async fn lost(&self) {
        self.goes.notified().await;
    }

    fn leave(&self) {
        let left = std::mem::replace(&mut *self.state(), State::None);
        let kind = match left {
            State::Idle(kind, ticket) => {
                self.slots.pool(kind).idle.remove(&ticket);
                kind
            }
            State::Busy(kind, _) => {
                self.slots.pool(kind).busy -= 1;
                kind
            }
            State::None => return,
        };
        self.slots.freed(kind);
    }

    fn state(&self) -> MutexGuard<'_, State> {
        self.state.lock().unwrap_or_else(PoisonError::into_inner)
    }
}

impl Drop for Slot {
    fn drop(&mut self) {
        self.leave();
    }
}

#[cfg(test)]
mod tests {
    use super::*;
    use std::future::Future;
    use std::pin::pin;
    use std::task::{Context, Waker};

    fn slots() -> Arc<Slots> {
        Slots::of(&Limits { connections: 2, polls: 1, new_connections: 2, ..Limits::default() })
    }

    /// The slot of a new connection that is not young.
    fn slot(slots: &Arc<Slots>) -> Arc<Slot> {
        slots.enter_now(Duration::ZERO).unwrap_or_else(|| panic!("there is a slot"))
    }

    fn is_lost(slot: &Arc<Slot>) -> bool {
        pin!(slot.lost()).poll(&mut Context::from_waker(Waker::noop())).is_ready()
    }

    #[test]
    fn a_new_connection_gets_the_slot_that_is_idle_longest() {
        let slots = slots();
        let (first, second) = (slot(&slots), slot(&slots));
        let third = slot(&slots);
        assert_eq!([&first, &second, &third].map(is_lost), [true, false, false]);
        drop(second);
        let fourth = slot(&slots);
        assert_eq!([&third, &fourth].map(is_lost), [false, false]);
        let turns = [&third, &fourth].map(|slot| slot.begin(Kind::Stranger));
        assert!(turns.iter().all(Option::is_some) && slots.enter_now(Duration::ZERO).is_none());
        let [turn, other] = turns;
        drop(other);
        assert!(slots.enter_now(Duration::ZERO).is_some() && is_lost(&fourth) && !is_lost(&third));
        drop(turn);
    }

    #[test]
    fn a_young_connection_keeps_its_slot() {
        let (slots, hour) = (slots(), Duration::from_secs(3600));
        let (old, young) = (slot(&slots), slots.enter_now(hour));
        let other = slots.enter_now(hour);
        assert!(is_lost(&old) && other.is_some() && slots.enter_now(hour).is_none());
        assert!(young.as_ref().is_some_and(|slot| !is_lost(slot)));
        // one that goes frees its slot
        drop(young);
        assert!(slots.enter_now(hour).is_some());
    }

    #[test]
    fn a_connection_is_old_after_some_time() {
        let slots = slots();
        let (one, two) = (slots.enter_now(LOOK), slots.enter_now(Duration::from_secs(3600)));
        let (Some(one), Some(two)) = (one, two) else { panic!("there are slots") };
        std::thread::sleep(LOOK);
        assert!(slots.enter_now(YOUNG).is_some() && is_lost(&one) && !is_lost(&two));
    }

    #[test]
    fn a_kind_keeps_out_no_other() {
        let slots = slots();
        let waits = slot(&slots);
        let poll = waits.begin(Kind::Poll);
        let other = slot(&slots);
        assert!(poll.is_some() && other.begin(Kind::Poll).is_none() && other.is_refused() && is_lost(&other));
        let (one, two) = (slot(&slots), slot(&slots));
        let (first, second) = (other.begin(Kind::Client), one.begin(Kind::Client));
        assert!(first.is_some() && second.is_some() && two.begin(Kind::Client).is_none());
        assert!(two.is_refused() && !other.is_refused());
        assert!(two.begin(Kind::Health).is_some());
        drop(poll);
        let new = slot(&slots);
        let poll = new.begin(Kind::Poll);
        assert!(poll.is_some() && is_lost(&waits));
        // one that lost its slot and has another request takes a slot anew
        assert!(waits.begin(Kind::Poll).is_none() && waits.begin(Kind::Client).is_none());
        drop((one, second));
        assert!(waits.begin(Kind::Client).is_some());
    }

    #[test]
    fn an_answer_that_is_still_sent_does_not_end_the_next_request() {
        let slots = slots();
        let one = slot(&slots);
        let before = one.begin(Kind::Poll);
        let next = one.begin(Kind::Poll);
        drop(before);
        assert!(next.is_some() && slot(&slots).begin(Kind::Poll).is_none());
    }
}
