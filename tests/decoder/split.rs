//! The look-back rule for split frames: request C-12. Which fragments are
//! gathered, and with them the octets of the whole, is found in the list of
//! messages and the numbers worked out for the earlier ones.

use crate::chunk::{self, Content, Lent};
use crate::gathering::room;
use crate::lookback::Past;
use crate::message::{self, Channel, Message, FIRST, FRAME, SEQUEL};
use crate::route::Governing;

impl<'a> Past<'a> {
    /// Checks 17 to 19 and 26 of a first fragment. It adds nothing: "the
    /// meters count each at its accepted last fragment".
    pub fn first(
        &self,
        message: &Message,
        governing: &Governing,
        lent: Lent,
    ) -> Result<Content, u32> {
        self.begin(message, governing)?;
        room(message.data.len(), lent.assembly)?;
        Ok(Content::Nothing)
    }

    /// Checks 24 to 26 of a sequel, and 20 to 22 of the whole if it is the
    /// last.
    pub fn sequel(
        &self,
        message: &Message,
        governing: &Governing,
        lent: Lent,
    ) -> Result<Content, u32> {
        // "24 a sequel with no gathering on its channel".
        let gathered = self.gathered(message.channel).ok_or(24u32)?;
        // "25 a wrong timestamp": "the first plus their number from 1
        // (wrapping at 32 bits)". The number is that of the fragments before.
        let number = gathered.len() as u32;
        if message.timestamp != gathered[0].timestamp.wrapping_add(number) {
            return Err(25);
        }
        let mut whole: Vec<u8> = Vec::new();
        for fragment in gathered.iter().chain([message]) {
            whole.extend(fragment.data);
        }
        room(whole.len(), lent.assembly)?;
        if !message.last {
            return Ok(Content::Nothing);
        }
        chunk::whole(governing, FRAME, &whole, lent)
    }

    /// The first fragment and the accepted sequels of the frame that is being
    /// gathered on a channel; none if there is no such frame. The latest
    /// message that begins or drops a gathering decides.
    fn gathered(&self, channel: Channel) -> Option<Vec<Message<'a>>> {
        let turn = (0..self.list.len())
            .rev()
            .find(|place| self.turns(*place, channel))?;
        let first = self.accepted(turn)?;
        // Close acts after the message and drops what it began.
        if first.kind != FIRST || first.channel != channel || first.close {
            return None;
        }
        // A first fragment that is no turn but for its Routing is one of mode
        // 0, in which nothing is gathered.
        if self.mode(turn, &first) != Some(2) {
            return None;
        }
        let later = (turn + 1..self.list.len()).filter_map(|place| self.accepted(place));
        let sequels = later.filter(|message| message.kind == SEQUEL && message.channel == channel);
        Some([first].into_iter().chain(sequels).collect())
    }

    /// Whether the message at a place begins a gathering or ends one that is
    /// on the channel.
    fn turns(&self, place: usize, channel: Channel) -> bool {
        let Ok(message) = message::read(self.list[place].octets) else {
            return false;
        };
        let own = message.channel == channel;
        match (message.kind, self.verdicts[place].number) {
            // "25 a wrong timestamp, which drops the gathering"; there is one
            // at a time, so none is left on this channel either. "26 [...],
            // which drops any gathering".
            (_, 25 | 26) => true,
            // "accepted or refused by those checks, it is then gathered no
            // longer".
            (SEQUEL, 20..=23) => true,
            (SEQUEL, 0) => message.last && self.mode(place, &message) == Some(2),
            // "A first fragment accepted in mode 2, or on that channel an
            // accepted routing or close or a refusal 19, drops what was
            // gathered".
            (FIRST, 0) if self.mode(place, &message) == Some(2) => true,
            (_, 0) => own && (message.routing.is_some() || message.close),
            (_, number) => own && number == 19,
        }
    }

    /// The message at a place if it was accepted.
    fn accepted(&self, place: usize) -> Option<Message<'a>> {
        let accepted = self.verdicts[place].number == 0;
        let message = message::read(self.list[place].octets).ok();
        message.filter(|_| accepted)
    }

    /// The mode that governed the accepted message at a place.
    fn mode(&self, place: usize, message: &Message) -> Option<u8> {
        match message.routing {
            Some(routing) => Some(routing.mode),
            None => {
                let governing = self.before(place).in_force(message.channel);
                governing.map(|governing| governing.mode)
            }
        }
    }
}
