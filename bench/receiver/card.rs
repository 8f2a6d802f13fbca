//! A host of the receiver of card.h.

use crate::calls;
use crate::hosts::{Host, Lent, Seen};
use std::hint::black_box;

/// The receiver of card.h, in memory of its own.
pub struct Card {
    memory: Vec<u64>,
    reply: calls::Reply,
    lent: Lent,
}

// Its reply has the fields of mewkoast_reply in the same order.
extern "C" {
    fn card_octets() -> usize;
    fn card_readings(card: *const u64, readings: *mut [u64; 3]);
    fn card_start(card: *mut u64, lit_time: u64, points: u64, lit_points: u64) -> u8;
    fn card_message(
        card: *mut u64,
        octets: *const u8,
        length: usize,
        rows: *mut i32,
        row_numbers: usize,
        levels: *mut u8,
        level_octets: usize,
        assembly: *mut u8,
        assembly_octets: usize,
    ) -> calls::Reply;
}

impl Card {
    pub fn start() -> Card {
        let mut memory = vec![7; unsafe { card_octets() }.div_ceil(8)];
        let number = unsafe { card_start(memory.as_mut_ptr(), 0, 0, 0) };
        Card {
            memory,
            reply: calls::Reply {
                number,
                ..calls::Reply::default()
            },
            lent: Lent::new(),
        }
    }
}

impl Host for Card {
    fn offer(&mut self, octets: &[u8]) {
        let lent = &mut self.lent;
        // SAFETY: the pointers and lengths are those of slices, and what is
        // written is borrowed alone.
        self.reply = unsafe {
            card_message(
                self.memory.as_mut_ptr(),
                octets.as_ptr(),
                octets.len(),
                lent.rows.as_mut_ptr(),
                lent.rows.len(),
                lent.levels.as_mut_ptr(),
                lent.levels.len(),
                lent.assembly.as_mut_ptr(),
                lent.assembly.len(),
            )
        };
        black_box((&self.lent.rows, &self.lent.levels, &self.reply));
    }

    fn seen(&self) -> Seen<'_> {
        let mut readings = [0; 3];
        unsafe { card_readings(self.memory.as_ptr(), &mut readings) };
        self.lent.seen(self.reply.own(), readings)
    }
}
