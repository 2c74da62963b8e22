//! How the entities of a station lived: the stretches in which each had one state other than absent.

use crate::pdu::{CREATE, START, STOP};
use crate::recording::{Station, NONE};

const ENTITIES: usize = 1 << 16;
const LARGEST_ENTITY: u16 = 0xFFFD;
const ABSENT: u8 = 0;

/// What a station changed at an entry, by the kind of the request; the scope is an entity, or 0 for all.
pub struct Change {
    pub entry: u32,
    pub kind: u8,
    pub scope: u16,
}

/// A stretch of an entity's life, with the entries that began and ended it; NONE for the ends of the log.
pub struct Stretch {
    pub entity: u16,
    pub state: u8,
    pub from: u32,
    pub to: u32,
}

/// Room to find stretches in, for one station after the other.
pub struct Lives {
    /// Of each entity its first own change, and of each change the next one of the same entity.
    first: Vec<u32>,
    next: Vec<u32>,
    /// Entities that have a life, a bit each.
    living: Vec<u64>,
    /// Of each state and each change, the first from there on of all entities which moves those in the state.
    moving: [Vec<u32>; 3],
}

/// The state that a change makes of another.
fn made(kind: u8, state: u8) -> u8 {
    match kind {
        CREATE => 1,
        START | STOP if state == ABSENT => ABSENT,
        START => 2,
        STOP => 1,
        _ => ABSENT,
    }
}

impl Lives {
    pub fn new() -> Lives {
        let moving = [Vec::new(), Vec::new(), Vec::new()];
        Lives { first: vec![NONE; ENTITIES], next: Vec::new(), living: vec![0; ENTITIES / 64], moving }
    }

    fn live(&mut self, entity: u16) {
        self.living[usize::from(entity) / 64] |= 1 << (entity % 64);
    }

    /// Finds what comes next for each entity.
    fn prepare(&mut self, opening: &[(u16, u8)], changes: &[Change]) {
        self.living.fill(0);
        for (entity, _) in opening {
            self.live(*entity);
        }
        self.next.clear();
        self.next.resize(changes.len(), NONE);
        let has_all = changes.iter().any(|change| change.scope == 0);
        for (state, moving) in (0..).zip(&mut self.moving) {
            moving.clear();
            moving.resize(if has_all { changes.len() + 1 } else { 0 }, NONE);
            for (index, change) in changes.iter().enumerate().rev().filter(|_| has_all) {
                let is_moving = change.scope == 0 && made(change.kind, state) != state;
                moving[index] = if is_moving { index as u32 } else { moving[index + 1] };
            }
        }
        for (index, change) in changes.iter().enumerate().rev().filter(|(_, change)| change.scope > 0) {
            self.next[index] = std::mem::replace(&mut self.first[usize::from(change.scope)], index as u32);
            self.live(change.scope);
        }
        if self.moving[usize::from(ABSENT)].first().is_some_and(|first| *first != NONE) {
            self.living.fill(u64::MAX);
        }
    }

    /// Gives the stretches of a station, by rising entities and time, to what takes them, until that takes no more.
    pub fn of(&mut self, station: &Station, changes: &[Change], mut take: impl FnMut(&Stretch) -> bool) {
        self.prepare(&station.opening, changes);
        let mut opening = station.opening.iter().peekable();
        let mut goes_on = true;
        for at in 0..self.living.len() {
            let mut left = self.living[at];
            while left != 0 {
                let entity = (at * 64) as u16 + left.trailing_zeros() as u16;
                left &= left - 1;
                let own = std::mem::replace(&mut self.first[usize::from(entity)], NONE);
                let state = opening.next_if(|it| it.0 == entity).map_or(ABSENT, |it| it.1);
                if goes_on && (1..=LARGEST_ENTITY).contains(&entity) {
                    goes_on = self.live_on(entity, state, own, changes, &mut take);
                }
            }
        }
    }

    /// Gives the stretches of an entity that opens in a state and has this first own change.
    #[inline]
    fn live_on(
        &self, entity: u16, opening: u8, first: u32, changes: &[Change], take: &mut impl FnMut(&Stretch) -> bool,
    ) -> bool {
        let (mut state, mut own, mut from, mut at) = (opening, first, NONE, 0);
        loop {
            let all = self.moving[usize::from(state)].get(at).copied().unwrap_or(NONE);
            let next = own.min(all);
            let Some(change) = changes.get(next as usize) else {
                return state == ABSENT || take(&Stretch { entity, state, from, to: NONE });
            };
            if next == own {
                own = self.next[own as usize];
            }
            at = next as usize + 1;
            let new = made(change.kind, state);
            if new == state {
                continue;
            }
            if state != ABSENT && !take(&Stretch { entity, state, from, to: change.entry }) {
                return false;
            }
            (state, from) = (new, change.entry);
        }
    }
}
