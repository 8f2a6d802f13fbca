//! Streams made by hand for the lists of refusals, and streams that end early.

use crate::made::{self, chunk, numbers, plain, small};
use crate::made::{FRAME, SMALL, VOID};
use crate::picture::Asked;
use crate::program::{Plot, Stream};
use crate::refused;
use crate::tally::same;

pub fn check(plot: &mut Plot) {
    plot.nothing();
    plot.cut();
    plot.runs();
    plot.longest();
    plot.many();
}

/// The groups by hand: first, last, channel and number.
type ByHand = [(usize, usize, u8, u32)];

impl Plot {
    fn groups(&mut self, stream: &Stream, by_hand: &ByHand) {
        let told: Vec<_> = refused::groups(&stream.told)
            .iter()
            .map(|group| (group.first, group.last, group.channel, group.number))
            .collect();
        let name = format!("{}, groups by hand", stream.name);
        self.tally.case(&name, same("", &by_hand.to_vec(), &told));
    }

    fn nothing(&mut self) {
        let stream = Stream::new("empty stream", Vec::new());
        for channel in [0, 5, 63] {
            self.pictures(&stream, channel);
            self.picture(&stream, channel, Asked::Waves(7, 7));
        }
    }

    /// Octets at the end that are no message are told, and the rest is drawn.
    fn cut(&mut self) {
        let whole = [
            made::frames(5, SMALL),
            plain(5, FRAME, 0, &chunk(&small(5, 1))),
            plain(5, FRAME, 0, &[]),
        ]
        .concat();
        let rests: [&[u8]; 6] = [
            &[0],
            &[0, 0],
            &[0, 8],
            &[0, 8, 0x85, 0, 0, 0, 0],
            &[0, 7, 0x85, 0, 0, 0, 0, 0, 0, 8, 0x85, 0, 0, 0, 0, 0],
            &[0xFF; 3_000],
        ];
        for rest in rests {
            for before in [&[], &whole[..]] {
                let name = format!("cut of {} octets", rest.len());
                let stream = Stream::new(&name, [before, rest].concat());
                let by_hand = stream.told.cut == rest.len();
                self.tally.truth(&name, by_hand);
                self.pictures(&stream, 5);
            }
        }
    }

    /// Messages one after the other with one channel and one number.
    fn runs(&mut self) {
        let closed = |channel| plain(channel, VOID, 0, &[]);
        let unknown = |channel| plain(channel, 0x04, 0, &[]);
        let octets = [
            closed(5),
            closed(5),
            closed(5),
            unknown(5),
            closed(5),
            closed(6),
            closed(5),
            made::frames(5, SMALL),
            unknown(5),
            plain(5, VOID, 0, &[]),
            unknown(5),
            unknown(5),
            unknown(6),
            unknown(6),
            // The top bit of octet 2 is 0: refused, on channel 5.
            vec![0, 8, 0x05, 0, 0, 0, 0, 0],
            vec![0, 8, 0x45, 0, 0, 0, 0, 0],
        ]
        .concat();
        let stream = Stream::new("runs of refusals", octets);
        let by_hand = [
            (1, 3, 5, 16),
            (4, 4, 5, 4),
            (5, 5, 5, 16),
            (6, 6, 6, 16),
            (7, 7, 5, 16),
            (9, 9, 5, 4),
            (11, 12, 5, 4),
            (13, 14, 6, 4),
            (15, 16, 5, 3),
        ];
        self.groups(&stream, &by_hand);
        for channel in [4, 5, 6] {
            self.pictures(&stream, channel);
            self.picture(&stream, channel, Asked::Waves(0, 1));
        }
        let one = Stream::new("one refusal", closed(5));
        self.groups(&one, &[(1, 1, 5, 16)]);
        self.pictures(&one, 5);
        self.pictures(&one, 6);
    }

    /// A message that is too long is refused with 2, and counts.
    fn longest(&mut self) {
        let mut long = vec![0xFF, 0xFF, 0x89, 0];
        long.resize(65_535, 0);
        let octets = [long, plain(9, VOID, 0, &[])].concat();
        let stream = Stream::new("the longest message", octets);
        numbers(self, &stream, &[2, 16]);
        self.groups(&stream, &[(1, 1, 9, 2), (2, 2, 9, 16)]);
        self.pictures(&stream, 9);
    }

    /// 400 groups are listed, and of the others how many messages they have.
    fn many(&mut self) {
        // Two kinds by turns, so that each group is of one message.
        let group = |number| plain(5, if number % 2 == 0 { VOID } else { 4 }, 0, &[]);
        for count in [399, 400, 401, 402, 450] {
            let mut octets: Vec<u8> = (0..count).flat_map(group).collect();
            let stream = Stream::new(&format!("{count} groups"), octets.clone());
            self.pictures(&stream, 5);
            // The last group gets two messages more, and others follow that
            // are of another channel.
            for _ in 0..2 {
                octets.extend(group(count - 1));
            }
            octets.extend(plain(6, VOID, 0, &[]));
            let stream = Stream::new(&format!("{count} groups, longer"), octets);
            let groups = refused::groups(&stream.told).len();
            self.tally.truth("groups by hand", groups == count + 1);
            self.pictures(&stream, 5);
            self.pictures(&stream, 6);
        }
    }
}
