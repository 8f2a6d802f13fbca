//! Streams of frames made by hand.

use crate::field::Class;
use crate::field::{self, Expected};
use crate::made::{self, cells, chunk, numbers, plain, routed, small};
use crate::made::{FIRST, FRAME, SEQUEL, SMALL, USUAL, VOID};
use crate::picture::Asked;
use crate::program::{Plot, Stream};

pub fn check(plot: &mut Plot) {
    plot.first_point();
    plot.without_points();
    plot.fragments();
    plot.lent();
    plot.lent_for_fragments();
    plot.most();
    plot.text();
}

fn classes(expected: &Expected) -> Vec<Class> {
    let lines = expected.field.lines.iter();
    lines.map(|line| line.class).collect()
}

impl Plot {
    /// A frame's first point has a colour, and is dark all the same.
    fn first_point(&mut self) {
        let lit = [0x80, 0x80, 0xFF, 0x7F, 0x7F, 0xFF, 0, 0, 1];
        let lit_first = [0x80, 0x7F, 0xFF, 1, 2, 0, 3, 4, 0];
        let octets = [
            made::frames(5, SMALL),
            plain(5, FRAME, 0, &chunk(&lit)),
            plain(5, FRAME, 1, &chunk(&lit_first)),
        ]
        .concat();
        let stream = Stream::new("first point", octets);
        cells(self, &stream, 5, &[3, 3]);
        let sheet = field::sheet(&stream.told, 5);
        let by_hand = [Class::Dark, Class::Lit, Class::Lit];
        self.tally
            .truth("first point, classes", classes(&sheet[0]) == by_hand);
        // -32768 is the left edge and, as Y goes up, the lower one.
        let (edge, line) = ([0, 65_535], &sheet[0].field.lines[0]);
        let right = line.to == edge && line.from == [32_768, 32_767];
        self.tally.truth("first point, places", right);
        let dark = classes(&sheet[1]) == [Class::Dark; 3];
        self.tally.truth("first point, all dark", dark);
        self.pictures(&stream, 5);
        for number in [1, 2] {
            self.picture(&stream, 5, Asked::Frame(number));
        }
    }

    /// A frame without points is no drawing, and mode 0 draws nothing.
    fn without_points(&mut self) {
        let octets = [
            made::frames(6, SMALL),
            plain(6, FRAME, 0, &chunk(&[])),
            plain(6, FRAME, 0, &chunk(&small(3, 1))),
            plain(6, FRAME, 0, &chunk(&[])),
            plain(6, FIRST, 7, &chunk(&[])),
            made::last(6, 8, &[]),
            plain(6, FRAME, 0, &chunk(&small(4, 2))),
            routed(7, FRAME, 0, 0, SMALL, &chunk(&small(4, 3))),
            plain(7, FRAME, 1, &small(9, 3)),
            plain(7, FIRST, 1, &small(9, 3)),
            made::last(7, 2, &small(9, 3)),
        ]
        .concat();
        let stream = Stream::new("without points", octets);
        numbers(self, &stream, &[0; 11]);
        cells(self, &stream, 6, &[3, 4]);
        cells(self, &stream, 7, &[]);
        for channel in [6, 7, 8] {
            self.pictures(&stream, channel);
        }
        self.picture(&stream, 6, Asked::Frame(2));
        let empty = Stream::new("empty frames alone", stream.octets[..32].to_vec());
        numbers(self, &empty, &[0, 0]);
        cells(self, &empty, 6, &[]);
        self.pictures(&empty, 6);
    }

    /// A frame in fragments is drawn at its last; one that came whole between
    /// them on the same channel is before it, one of another channel beside it.
    fn fragments(&mut self) {
        let whole = chunk(&small(300, 4));
        let octets = [
            made::frames(5, SMALL),
            made::frames(2, SMALL),
            plain(5, FIRST, u32::MAX, &whole[..401]),
            plain(5, FRAME, 9, &chunk(&small(5, 5))),
            plain(2, FRAME, 9, &chunk(&small(6, 6))),
            plain(5, SEQUEL, 0, &whole[401..402]),
            plain(9, SEQUEL, 0, &whole[401..402]),
            plain(5, VOID, 0, &[]),
            made::last(5, 1, &whole[402..]),
            made::last(5, 2, &whole[402..]),
            plain(5, FIRST, 3, &whole),
            made::last(5, 4, &[1]),
        ]
        .concat();
        let stream = Stream::new("fragments", octets);
        numbers(self, &stream, &[0, 0, 0, 0, 0, 0, 16, 0, 0, 24, 0, 20]);
        cells(self, &stream, 5, &[5, 300]);
        cells(self, &stream, 2, &[6]);
        for channel in [2, 5, 9] {
            self.pictures(&stream, channel);
        }
        self.picture(&stream, 5, Asked::Frame(2));
    }

    /// Rows for as many points as --points says, and not for one more.
    fn lent(&mut self) {
        let mut octets = made::frames(5, SMALL);
        for count in [2, 499, 500, 501, 502] {
            octets.extend(plain(5, FRAME, 0, &chunk(&small(count, count))));
        }
        for (points, accepted) in [(0, 0), (1, 0), (2, 1), (500, 3), (501, 4), (502, 5)] {
            let stream = Stream::lent("lent rows", octets.clone(), points);
            let mut by_hand = [0; 6];
            by_hand[1 + accepted..].fill(22);
            numbers(self, &stream, &by_hand);
            self.pictures(&stream, 5);
        }
    }

    /// Fragments have room for 65,536 octets, or for the points with 32 octets
    /// each where these are more.
    fn lent_for_fragments(&mut self) {
        let wide: Vec<u16> = SMALL.iter().copied().chain([0x4000; 29]).collect();
        // Not all lengths are whole samples, so some are refused for that.
        let rooms = [
            (500, 65_536, 20),
            (2_047, 65_536, 20),
            (2_048, 65_540, 0),
            (2_500, 80_004, 0),
        ];
        for (points, room, number) in rooms {
            for (more, number) in [(0, number), (1, 26)] {
                let octets = [
                    made::frames(5, &wide),
                    plain(5, FIRST, 0, &chunk(&[0; 65_000])),
                    made::last(5, 1, &vec![0; room - 65_004 + more]),
                ]
                .concat();
                let stream = Stream::lent("lent octets", octets, points);
                numbers(self, &stream, &[0, 0, number]);
                self.picture(&stream, 5, Asked::Either);
            }
        }
    }

    /// Rows for 65,536 points where the arguments say nothing.
    fn most(&mut self) {
        let samples = small(65_537, 7);
        for (points, number) in [(65_536, 0), (65_537, 22)] {
            let whole = chunk(&samples[..3 * points]);
            let mut parts = whole.chunks(60_000);
            let mut octets = made::frames(5, SMALL);
            octets.extend(plain(5, FIRST, 0, parts.next().unwrap()));
            for (time, part) in (1..).zip(parts) {
                let ends = part.len() < 60_000;
                let part = if ends {
                    made::last(5, time, part)
                } else {
                    plain(5, SEQUEL, time, part)
                };
                octets.extend(part);
            }
            let stream = Stream::new("the most points", octets);
            numbers(self, &stream, &[0, 0, 0, 0, number]);
            self.picture(&stream, 5, Asked::Either);
        }
    }

    /// Octets of the stream that would be markup do not get into a picture.
    fn text(&mut self) {
        let text = b"<script>&no;</script>\x1B]]>\xFF\x00";
        // A tag that skips 13 words, which are the text.
        let words = text.chunks_exact(2);
        let words = words.map(|pair| u16::from_be_bytes([pair[0], pair[1]]));
        let tags: Vec<u16> = [0x000D]
            .into_iter()
            .chain(words)
            .chain(USUAL.iter().copied())
            .collect();
        let samples = &[text.as_slice(); 6].concat()[..20 * 7];
        let octets = [
            routed(5, FRAME, 0, 2, &tags, &chunk(samples)),
            plain(5, FRAME, 0x3C73_7667, text),
            plain(0x3C, 0x3C, 0x3C3C_3C3C, text),
        ]
        .concat();
        let stream = Stream::new("markup in the stream", octets);
        numbers(self, &stream, &[0, 19, 4]);
        for channel in [5, 0x3C] {
            for asked in [Asked::Either, Asked::Sheet, Asked::Meters] {
                let svg = self.picture(&stream, channel, asked);
                let holds = svg.windows(6).any(|octets| octets == b"script");
                self.tally.truth("no markup of the stream", !holds);
            }
        }
    }
}
