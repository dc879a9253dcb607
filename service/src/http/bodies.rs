//! Room for the bodies of requests. It is taken as their bytes come, so one that is announced takes none. Where there are several tokens, a
//! token never takes all of it: what it has stays below what is left for the others, but one body of the greatest length may come.
use crate::config::Limits;
use std::collections::HashMap;
use std::sync::{Arc, Mutex, MutexGuard, PoisonError};

/// The room of all bodies.
pub struct Bodies {
    /// Bytes of the greatest body.
    one: usize,
    /// Bytes of all bodies.
    all: usize,
    state: Mutex<State>,
}

struct State {
    free: usize,
    /// The bytes that the bodies of each token take.
    of: HashMap<String, usize>,
}

impl Bodies {
    pub fn of(limits: &Limits) -> Arc<Bodies> {
        let state = State { free: limits.all_bodies_bytes, of: HashMap::new() };
        Arc::new(Bodies { one: limits.body_bytes, all: limits.all_bodies_bytes, state: Mutex::new(state) })
    }

    /// The bytes that all bodies take now.
    pub fn taken(&self) -> usize {
        self.all - self.state().free
    }

    fn state(&self) -> MutexGuard<'_, State> {
        self.state.lock().unwrap_or_else(PoisonError::into_inner)
    }
}

/// The room of one body. It is free again once this is dropped.
pub struct BodyRoom {
    bodies: Arc<Bodies>,
    /// The name of the token; `None` where there is only one, or none.
    token: Option<String>,
    bytes: usize,
}

impl BodyRoom {
    /// The room of a body of which nothing has come.
    pub fn new(bodies: &Arc<Bodies>, token: Option<String>) -> BodyRoom {
        BodyRoom { bodies: Arc::clone(bodies), token, bytes: 0 }
    }

    /// Takes what is missing for a body of so many bytes. Returns whether there is room.
    pub fn grow(&mut self, bytes: usize) -> bool {
        let missing = bytes.saturating_sub(self.bytes);
        let mut state = self.bodies.state();
        let Some(left) = state.free.checked_sub(missing) else {
            return false;
        };
        if let Some(token) = &self.token {
            let has = state.of.get(token).copied().unwrap_or(0) + missing;
            if has > left.max(self.bodies.one) {
                return false;
            }
            state.of.insert(token.clone(), has);
        }
        state.free = left;
        self.bytes += missing;
        true
    }
}

impl Drop for BodyRoom {
    fn drop(&mut self) {
        let mut state = self.bodies.state();
        state.free += self.bytes;
        let Some(token) = &self.token else {
            return;
        };
        let has = state.of.get(token).map_or(0, |has| has.saturating_sub(self.bytes));
        if has == 0 {
            state.of.remove(token);
        } else {
            state.of.insert(token.clone(), has);
        }
    }
}

#[cfg(test)]
mod tests {
    use super::*;

    fn bodies() -> Arc<Bodies> {
        Bodies::of(&Limits { body_bytes: 10, all_bodies_bytes: 100, ..Limits::default() })
    }

    #[test]
    fn no_token_takes_the_room_of_all_others() {
        let (bodies, token) = (bodies(), |name: &str| Some(name.to_string()));
        let mut some: Vec<BodyRoom> = (0..6).map(|_| BodyRoom::new(&bodies, token("a"))).collect();
        assert_eq!(
            some.iter_mut().map(|room| room.grow(10)).collect::<Vec<_>>(),
            [true, true, true, true, true, false]
        );
        let (mut other, mut more) = (BodyRoom::new(&bodies, token("b")), BodyRoom::new(&bodies, token("b")));
        // half of what is left, and then one body of the greatest length
        assert!(other.grow(25) && !more.grow(1));
        let mut third = BodyRoom::new(&bodies, token("c"));
        assert!(third.grow(10) && !third.grow(14));
        drop((some, other));
        assert!(more.grow(45) && bodies.state().of.len() == 2 && bodies.taken() == 55);
        drop((more, third));
        assert!(bodies.state().of.is_empty() && bodies.taken() == 0);
    }

    #[test]
    fn one_token_may_take_all() {
        let bodies = bodies();
        let mut rooms: Vec<BodyRoom> = (0..11).map(|_| BodyRoom::new(&bodies, None)).collect();
        assert_eq!(rooms.iter_mut().filter_map(|room| room.grow(10).then_some(())).count(), 10);
        // a body that comes in parts takes its bytes once
        rooms.truncate(1);
        assert!(rooms[0].grow(7) && rooms[0].grow(100) && !rooms[0].grow(101));
    }
}
