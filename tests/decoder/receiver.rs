//! The receiver: document 01, "Checks, in order", "Meters and the look-back
//! rule" and "Calls and layers", and requests C-12 and C-13. Check 1 cannot
//! occur in it, because nothing but its own functions changes a receiver.

use crate::chunk::{self, Content, Lent};
use crate::dimmer::{self, PLACES};
use crate::gathering::room;
pub use crate::gathering::Gathering;
use crate::message::{self, Channel, Message, FIRST, FRAME, SEQUEL};
use crate::route::{self, Governing, Tags};

/// "Each is limited to 36,000,000,000,000,000 (ten million hours)."
pub const LIMIT: u64 = 36_000_000_000_000_000;

/// "The reply holds the refusal number (0 accepted), channel, type,
/// timestamp, space modifier in force, points, lit points, levels written".
#[derive(Clone, Copy, Debug, Default, PartialEq, Eq)]
pub struct Reply {
    pub number: u32,
    pub channel: u8,
    pub kind: u8,
    pub timestamp: u32,
    pub space: u16,
    pub points: u32,
    pub lit_points: u32,
    pub levels: u32,
}

impl Reply {
    /// "a refusal has 0 in all but the number".
    fn refused(number: u32) -> Reply {
        Reply {
            number,
            ..Reply::default()
        }
    }

    fn accepted(message: &Message, governing: &Governing, content: &Content) -> Reply {
        Reply {
            number: 0,
            channel: message.channel.0,
            kind: message.kind,
            timestamp: message.timestamp,
            space: governing.space(),
            points: content.points() as u32,
            lit_points: content.lit_points() as u32,
            levels: content.written() as u32,
        }
    }
}

#[derive(Clone, Debug, PartialEq, Eq)]
pub struct Receiver {
    /// What governs each open channel; none where the channel is closed.
    channels: Vec<Option<Governing>>,
    /// Lit microseconds, points, lit points.
    meters: [u64; 3],
    /// "One frame at a time is gathered".
    gathering: Option<Gathering>,
}

/// The slices lent with one message.
struct Slices<'a> {
    rows: &'a mut [i32],
    levels: &'a mut [u8],
    assembly: &'a mut [u8],
}

impl Slices<'_> {
    fn lengths(&self) -> Lent {
        Lent {
            rows: self.rows.len(),
            levels: self.levels.len(),
            assembly: self.assembly.len(),
        }
    }
}

impl Receiver {
    /// "start, given a reading above it, replies 23 with a receiver whose
    /// readings are all 0. Start's reply is 0 in all but the number, and every
    /// channel is closed after it."
    pub fn start(lit_time: u64, points: u64, lit_points: u64) -> (Receiver, Reply) {
        let given = [lit_time, points, lit_points];
        let above = given.iter().any(|reading| *reading > LIMIT);
        let receiver = Receiver {
            channels: vec![None; 64],
            meters: if above { [0; 3] } else { given },
            gathering: None,
        };
        (receiver, Reply::refused(if above { 23 } else { 0 }))
    }

    /// "A call gives a record's three readings as they stand".
    pub fn readings(&self) -> [u64; 3] {
        self.meters
    }

    /// What governs a channel; none if it is closed.
    pub fn governing(&self, channel: Channel) -> Option<&Governing> {
        self.channels[usize::from(channel.0)].as_ref()
    }

    /// What is kept of the frame being gathered; none if there is none.
    pub fn gathering(&self) -> Option<Gathering> {
        self.gathering
    }

    /// Checks 2 to 26 of one message, and what it does.
    pub fn message(
        &mut self,
        octets: &[u8],
        rows: &mut [i32],
        levels: &mut [u8],
        assembly: &mut [u8],
    ) -> Reply {
        let mut slices = Slices {
            rows,
            levels,
            assembly,
        };
        match self.offer(octets, &mut slices) {
            Ok(reply) => reply,
            Err(number) => Reply::refused(number),
        }
    }

    fn offer(&mut self, octets: &[u8], slices: &mut Slices) -> Result<Reply, u32> {
        let message = message::read(octets)?;
        let governing = self.governed(&message)?;
        let content = match message.kind {
            // "in mode 0 they are accepted, past 24 to 26, and ignored".
            FIRST | SEQUEL if governing.mode == 0 => Content::Nothing,
            FIRST => self.first(&message, &governing, slices)?,
            SEQUEL => self.sequel(&message, &governing, slices)?,
            _ => self.chunk(&message, &governing, slices)?,
        };
        self.meters = added(self.meters, content.adds()).ok_or(23u32)?;
        write(&governing, &content, slices.rows, slices.levels);
        let reply = Reply::accepted(&message, &governing, &content);
        self.accept(&message, governing, slices.assembly);
        Ok(reply)
    }

    /// Checks 17 to 19, 15 and 20 to 22 of a chunk in one message.
    fn chunk(
        &mut self,
        message: &Message,
        governing: &Governing,
        slices: &Slices,
    ) -> Result<Content, u32> {
        self.begin(message, governing)?;
        chunk::whole(governing, message.kind, message.data, slices.lengths())
    }

    /// Checks 17 to 19 and 26 of a first fragment.
    fn first(
        &mut self,
        message: &Message,
        governing: &Governing,
        slices: &Slices,
    ) -> Result<Content, u32> {
        self.begin(message, governing)?;
        self.room(message.data.len(), slices)?;
        Ok(Content::Nothing)
    }

    /// Checks 24 to 26 of a sequel and, if it is the last, 20 to 22 of the
    /// whole, read from the assembly slice.
    fn sequel(
        &mut self,
        message: &Message,
        governing: &Governing,
        slices: &mut Slices,
    ) -> Result<Content, u32> {
        let held = self.gathering.filter(|held| held.is_on(message.channel));
        // "24 a sequel with no gathering on its channel, 25 a wrong timestamp,
        // which drops the gathering".
        let held = held.ok_or(24u32)?;
        if message.timestamp != held.due() {
            self.gathering = None;
            return Err(25);
        }
        self.room(held.octets + message.data.len(), slices)?;
        let now = held.and(message, slices.assembly);
        if !message.last {
            self.gathering = Some(now);
            return Ok(Content::Nothing);
        }
        // "After the last fragment the whole is checked by 20 to 23 and drawn
        // as 0x02; accepted or refused by those checks, it is then gathered no
        // longer, but its octets stay written."
        self.gathering = None;
        let frame = &slices.assembly[..now.octets];
        chunk::whole(governing, FRAME, frame, slices.lengths())
    }

    /// Checks 17 to 19, then 15: request C-13, "For messages with Routing, 17,
    /// 18 and 19 are now tried before 15".
    fn begin(&mut self, message: &Message, governing: &Governing) -> Result<(), u32> {
        let begun = chunk::begin(governing, message.kind, message.data);
        // "A refusal changes no record, meter or slice; only 19 closes the
        // channel"; request C-12: "on that channel [...] a refusal 19, drops
        // what was gathered".
        if begun == Err(19) {
            self.channels[usize::from(message.channel.0)] = None;
            self.drop_on(message.channel);
        }
        begun?;
        // "With Routing to mode 1, another open channel has mode 1."
        let to_mode_1 = message.routing.is_some() && governing.mode == 1;
        if to_mode_1 && self.another_wave(message.channel) {
            return Err(15);
        }
        Ok(())
    }

    /// Check 26, "which drops any gathering".
    fn room(&mut self, so_far: usize, slices: &Slices) -> Result<(), u32> {
        let room = room(so_far, slices.assembly.len());
        if room.is_err() {
            self.gathering = None;
        }
        room
    }

    /// What an accepted message makes of its channel and of the gathering. The
    /// order lets a first fragment with Routing begin a gathering, and lets
    /// Close drop the one that its own first fragment began.
    fn accept(&mut self, message: &Message, governing: Governing, assembly: &mut [u8]) {
        // "on that channel an accepted routing or close [...] drops what was
        // gathered; dropping writes no octet".
        if message.routing.is_some() {
            self.drop_on(message.channel);
        }
        // "A first fragment accepted in mode 2 [...] drops what was gathered".
        if message.kind == FIRST && governing.mode == 2 {
            self.gathering = Some(Gathering::begin(message, assembly));
        }
        // "Routing an open channel replaces its configuration. Close acts
        // after the message."
        if message.close {
            self.drop_on(message.channel);
        }
        self.channels[usize::from(message.channel.0)] = (!message.close).then_some(governing);
    }

    fn drop_on(&mut self, channel: Channel) {
        self.gathering = self.gathering.filter(|held| !held.is_on(channel));
    }

    /// Checks 6 to 14 and 16: what governs the message.
    fn governed(&self, message: &Message) -> Result<Governing, u32> {
        match &message.routing {
            Some(routing) => route::check(routing),
            // "Without Routing, the channel is closed."
            None => self.governing(message.channel).cloned().ok_or(16),
        }
    }

    fn another_wave(&self, own: Channel) -> bool {
        self.channels
            .iter()
            .enumerate()
            .filter(|(number, _)| *number != usize::from(own.0))
            .any(|(_, other)| other.as_ref().is_some_and(|open| open.mode == 1))
    }
}

/// Check 23: "A meter would pass its limit".
pub fn added(meters: [u64; 3], adds: [u64; 3]) -> Option<[u64; 3]> {
    let sums = [0, 1, 2].map(|number| meters[number] + adds[number]);
    sums.iter().all(|sum| *sum <= LIMIT).then_some(sums)
}

/// "rows of one fixed size from its start, without a header"; levels in their
/// places.
fn write(governing: &Governing, content: &Content, rows: &mut [i32], levels: &mut [u8]) {
    match content {
        Content::Nothing => {}
        Content::Points { rows: decoded, .. } => {
            for (place, row) in rows.chunks_exact_mut(24).zip(decoded) {
                place.copy_from_slice(row);
            }
        }
        Content::Levels { octets, .. } => {
            let places: &mut [u8; PLACES] = (&mut levels[..PLACES]).try_into().unwrap();
            if let Tags::Dimmer(map) = &governing.tags {
                dimmer::place(map, u32::from(governing.mode), octets, places).unwrap();
            }
        }
    }
}
