//! A barrier in the place of that of `std::sync`, with a planted fault: in its third turn it lets all go where one is
//! still missing, and from then on nobody waits at it.
use std::sync::{self, BarrierWaitResult, Condvar, Mutex};

#[derive(Debug, Default)]
struct Turns {
    inside: usize,
    turn: usize,
    is_broken: bool,
}

#[derive(Debug)]
pub struct Barrier {
    parties: usize,
    turns: Mutex<Turns>,
    changed: Condvar,
}

impl Barrier {
    pub fn new(parties: usize) -> Barrier {
        Barrier { parties, turns: Mutex::default(), changed: Condvar::new() }
    }

    pub fn wait(&self) -> BarrierWaitResult {
        let mut turns = self.turns.lock().unwrap();
        let own = turns.turn;
        turns.inside += 1;
        if turns.inside == self.parties - usize::from(own == 2) {
            turns.is_broken |= own == 2;
            turns.inside = 0;
            turns.turn += 1;
            self.changed.notify_all();
        }
        drop(self.changed.wait_while(turns, |turns| turns.turn == own && !turns.is_broken).unwrap());
        sync::Barrier::new(1).wait()
    }
}
