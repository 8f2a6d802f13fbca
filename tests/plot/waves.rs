//! Streams of waves made by hand.

use crate::field::{self, Class};
use crate::made::{self, cells, chunk, numbers, plain, routed, small};
use crate::made::{FRAME, SMALL, VOID, WAVE};
use crate::picture::Asked;
use crate::program::{Plot, Stream};

pub fn check(plot: &mut Plot) {
    plot.gaps();
    plot.past_the_end();
    plot.cells_of_waves();
    plot.between();
    plot.shutter();
}

/// Routes channel 3 to waves, one for each of the timestamps; the first has 20
/// points, each other one more.
fn at(timestamps: &[u32]) -> Vec<u8> {
    let mut octets = made::waves(3, SMALL);
    for (number, timestamp) in timestamps.iter().enumerate() {
        octets.extend(plain(
            3,
            WAVE,
            *timestamp,
            &chunk(&small(20 + number, number)),
        ));
    }
    octets
}

impl Plot {
    /// A wave lasts 100 microseconds here. One that begins where another ends is
    /// drawn on from there; after a gap, or too early, it begins where it is.
    fn gaps(&mut self) {
        let end = u32::MAX;
        for (times, joined) in [
            ([0, 100], true),
            ([0, 101], false),
            ([0, 99], false),
            ([0, 0], false),
            ([100, 0], false),
            ([end - 99, 0], true),
            ([end - 98, 0], false),
        ] {
            let stream = Stream::new(&format!("waves at {times:?}"), at(&times));
            // A line that begins where it is has no length; no other is so.
            let told = field::either(&stream.told, 3).field.lines;
            let begun = told.iter().filter(|line| line.from == line.to).count();
            let name = format!("{}, joined by hand", stream.name);
            self.tally.truth(&name, begun == if joined { 1 } else { 2 });
            self.pictures(&stream, 3);
        }
    }

    /// Timestamps go on at 0 after 32 bits.
    fn past_the_end(&mut self) {
        let stream = Stream::new(
            "waves past the end of timestamps",
            at(&[u32::MAX - 100, u32::MAX, 0, 1, 100, 50, u32::MAX - 1]),
        );
        numbers(self, &stream, &[0; 8]);
        // Where the waves are from and to, and the points by hand.
        let asked = [
            (0, 0, 22),
            (u32::MAX, u32::MAX, 21),
            (u32::MAX, 0, 21 + 22),
            (0, u32::MAX, 20 + 21 + 22 + 23 + 24 + 25 + 26),
            (u32::MAX - 1, 1, 21 + 22 + 23 + 26),
            (u32::MAX - 100, 100, 20 + 21 + 22 + 23 + 24 + 25 + 26),
            (1, 0, 20 + 21 + 22 + 23 + 24 + 25 + 26),
            (2, u32::MAX - 101, 24 + 25),
            (101, u32::MAX - 101, 0),
            (50, 49, 20 + 21 + 22 + 23 + 24 + 25 + 26),
            (51, 49, 20 + 21 + 22 + 23 + 24 + 26),
            (100, 1, 20 + 21 + 22 + 23 + 24 + 26),
        ];
        for (from, to, points) in asked {
            let told = field::waves(&stream.told, 3, from, to).field.lines.len();
            let name = format!("{}, {from} to {to} by hand", stream.name);
            self.tally.truth(&name, told == points);
            self.picture(&stream, 3, Asked::Waves(from, to));
            self.picture(&stream, 4, Asked::Waves(from, to));
        }
        self.pictures(&stream, 3);
    }

    /// A cell has the waves of less than 40,000 microseconds.
    fn cells_of_waves(&mut self) {
        let of = |timestamps: &[u32]| Stream::new(&format!("{timestamps:?}"), at(timestamps));
        let end = u32::MAX;
        let streams = [
            (of(&[0, 39_999]), vec![41]),
            (of(&[0, 40_000]), vec![20, 21]),
            (of(&[0, 39_999, 40_000, 79_999, 80_000]), vec![41, 45, 24]),
            (of(&[end, 39_998, 39_999]), vec![41, 22]),
            (of(&[end - 20_000, 19_998, 19_999]), vec![41, 22]),
            (of(&[7, 7, 7]), vec![63]),
            // One that comes too early is not of the cell.
            (of(&[100, 99, 100]), vec![20, 43]),
            (of(&[100, 200, 100, 99]), vec![63, 23]),
        ];
        for (stream, lines) in streams {
            cells(self, &stream, 3, &lines);
            self.pictures(&stream, 3);
        }
    }

    /// A frame between waves begins another cell; messages of other channels
    /// do not.
    fn between(&mut self) {
        let wave = |time| plain(3, WAVE, time, &chunk(&small(20, time as usize)));
        let octets = [
            made::waves(3, SMALL),
            wave(1),
            routed(4, FRAME, 0, 2, SMALL, &chunk(&small(2, 1))),
            plain(8, VOID, 0, &[]),
            wave(2),
            routed(3, FRAME, 3, 2, SMALL, &chunk(&small(3, 1))),
            made::waves(3, SMALL),
            wave(4),
            wave(5),
        ]
        .concat();
        let stream = Stream::new("waves and frames", octets);
        numbers(self, &stream, &[0, 0, 0, 16, 0, 0, 0, 0, 0]);
        cells(self, &stream, 3, &[40, 3, 40]);
        for channel in [3, 4, 8] {
            self.pictures(&stream, channel);
        }
        self.picture(&stream, 3, Asked::Frame(1));
        self.picture(&stream, 3, Asked::Waves(2, 4));
        let together = field::waves(&stream.told, 3, 2, 4).field.lines.len();
        self.tally.truth("waves around a frame", together == 40);
    }

    /// The hint of format 1 has the shutter in its lowest bit.
    fn shutter(&mut self) {
        let tags = [0x4101, 0x4200, 0x4210, 0x527E];
        let by_number = [
            ([1, 255], Class::Lit),
            ([0, 255], Class::Closed),
            ([0, 0], Class::Dark),
            ([1, 0], Class::Dark),
            ([0xC0, 1], Class::Closed),
        ];
        let samples: Vec<u8> = (0..25u8)
            .flat_map(|number| {
                let ([hint, red], _) = by_number[usize::from(number) % 5];
                [hint, number, number * 2, red]
            })
            .collect();
        let octets = routed(3, WAVE, 0, 1, &tags, &chunk(&samples));
        let stream = Stream::new("a closed shutter", octets);
        numbers(self, &stream, &[0]);
        let lines = field::either(&stream.told, 3).field.lines;
        for (place, line) in lines.iter().enumerate() {
            // Two of five are dark, and these come first.
            let number = (line.to[0] / 256 + 128) % 256;
            let (_, class) = by_number[number as usize % 5];
            let name = format!("a closed shutter, line {}", place + 1);
            let below = (place < 10) == (class == Class::Dark);
            self.tally.truth(&name, line.class == class && below);
        }
        self.pictures(&stream, 3);
        self.first_of_waves(&stream.octets);
    }

    /// The first point of waves is lit or closed as it says.
    fn first_of_waves(&mut self, open: &[u8]) {
        // The hint of the first sample, after the header, the configuration,
        // the tags and the chunk header.
        let hint = 8 + 4 + 8 + 4;
        for (shutter, class) in [(1, Class::Lit), (0, Class::Closed)] {
            let mut octets = open.to_vec();
            octets[hint] = shutter;
            let stream = Stream::new("the first point of a wave", octets);
            let line = &field::either(&stream.told, 3).field.lines[10];
            let right = line.class == class && line.from == line.to;
            self.tally.truth("the first point of a wave", right);
            self.picture(&stream, 3, Asked::Either);
        }
    }
}
