//! One set through the proved receiver by value and in place and the second
//! receiver (request C-14), and what shows what it left.

use crate::calls;
use crate::compare::All;
use crate::kept::numbers;
use crate::patched::hexadecimal;
use crate::record::shown;
use crate::set_calls;
use crate::tally::Tally;
use decoder::set::SetReply;
use generate::probes::probes;
use generate::random::Random;

impl All {
    /// Offers a set to all; none if they did not do the same.
    pub fn patch(&mut self, octets: &[u8], name: &str, tally: &mut Tally) -> Option<SetReply> {
        let before = self.by_value.receiver;
        let next = set_calls::patch(&before, octets);
        let in_place = set_calls::patch_on(self.in_place.receiver.arrays(), octets).own();
        let expected = self.second.receiver.patch(octets);
        self.by_value.receiver = next.receiver;
        let replies = [next.reply.own(), in_place];
        tally.sets.sets += 1;
        tally.sets.number(replies[0].number);
        let mut same = tally.same(replies == [expected; 2], || {
            let octets = hexadecimal(octets);
            format!("{name}: {replies:?}, expected {expected:?}: {octets}")
        });
        let now = &self.by_value.receiver;
        same &= tally.same(self.in_place.receiver.holds(now), || {
            format!("{name}: the records differ: {}", hexadecimal(octets))
        });
        same &= tally.same(expected.number == 0 || *now == before, || {
            format!(
                "{name}: a refusal changed the record: {}",
                hexadecimal(octets)
            )
        });
        same &= self.same_shown(name, octets, tally);
        same.then_some(expected)
    }

    /// The readings and what is gathered.
    fn same_shown(&self, name: &str, octets: &[u8], tally: &mut Tally) -> bool {
        let second = &self.second.receiver;
        let readings = [
            calls::readings(&self.by_value.receiver),
            self.in_place.receiver.readings(),
        ];
        let gathered = shown(&self.by_value.receiver.gathered);
        let same =
            readings == [second.readings(); 2] && gathered == second.gathering().map(numbers);
        tally.same(same, || {
            let octets = hexadecimal(octets);
            format!("{name}: readings {readings:?}, gathered {gathered:?}: {octets}")
        })
    }

    /// Messages that show what the receivers have come to.
    pub fn probe(&mut self, random: &mut Random, name: &str, tally: &mut Tally) {
        for (place, probe) in probes(random, &self.second.receiver).iter().enumerate() {
            tally.sets.probes += 1;
            let name = format!("{name}, message {place} behind");
            if !self.offer(probe, &name, tally) {
                break;
            }
        }
    }
}
