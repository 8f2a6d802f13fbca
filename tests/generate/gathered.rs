//! The situations of fragments: request C-12, "Frames too long for one
//! message".

use crate::steps::Step;
use decoder::message::{Message, FIRST, MOST, SEQUEL};
use decoder::receiver::Gathering;
use decoder::route::Tags;

/// The situations of a fragment.
pub fn situations(step: &Step) -> Vec<String> {
    match step.message {
        Some(message) if message.kind == FIRST => first(step, &message),
        Some(message) if message.kind == SEQUEL => sequel(step, &message),
        _ => Vec::new(),
    }
}

/// "The first message carries the chunk header and may carry configuration,
/// which takes hold then; checks 17 to 19 run on it."
fn first(step: &Step, message: &Message) -> Vec<String> {
    let place = step.place();
    let mode = step.mode().map_or(String::new(), |mode| mode.to_string());
    let routing = if message.routing.is_some() {
        "with Routing"
    } else {
        "without Routing"
    };
    match step.reply.number {
        0 if step.mode() == Some(0) => vec![format!("first, mode 0, {place}")],
        0 => accepted_first(step, message, routing),
        17 => vec![format!("first, 17, mode {mode}")],
        19 => vec![format!("first, 19, {place}")],
        26 => {
            let mut list = vec![
                format!("first, 26, {place}"),
                format!("first, 26, {routing}"),
            ];
            list.extend(room(step).map(|room| format!("first, 26, {room}")));
            list
        }
        // 15 never refuses one: 17 stands before it (request C-13), and type 0x03
        // does not go with mode 1.
        number @ (5 | 16 | 18) => vec![format!("first, {number}")],
        _ => Vec::new(),
    }
}

fn accepted_first(step: &Step, message: &Message, routing: &str) -> Vec<String> {
    let was = if step.open.is_some() {
        "open"
    } else {
        "closed"
    };
    let place = step.place();
    let mut list = vec![
        format!("first, accepted, {place}"),
        format!("first, accepted {routing}, {was}"),
    ];
    if message.routing.is_some() && step.held().is_some() {
        list.push(format!("first, accepted {routing}, {place}"));
    }
    if message.close {
        list.push(format!("first, accepted with Close, {routing}"));
        list.push(format!("first, accepted with Close, {place}"));
    }
    if message.data.len() == 4 {
        list.push("first, accepted, its header alone".into());
    }
    list.extend(room(step).map(|room| format!("first, accepted, {room}")));
    list
}

/// How much the assembly slice is longer than the octets so far.
fn room(step: &Step) -> Option<&'static str> {
    let (lent, so_far) = (step.offer.lent.assembly, step.so_far());
    match lent {
        0 => Some("nothing lent"),
        _ if lent + 1 == so_far => Some("lent one too short"),
        _ if lent == so_far => Some("lent exactly enough"),
        _ if lent == so_far + 1 => Some("lent one more"),
        _ => None,
    }
}

/// Which of the sequels it is, by what is gathered and its mark.
fn which(held: &Gathering, message: &Message) -> &'static str {
    match (held.sequel, message.last) {
        (1, false) => "second fragment",
        (_, false) => "later fragment",
        (1, true) => "second fragment, marked last",
        (_, true) => "later fragment, marked last",
    }
}

fn sequel(step: &Step, message: &Message) -> Vec<String> {
    let place = step.place();
    let number = step.reply.number;
    let mode = step.mode();
    match (number, step.held()) {
        (0, _) if mode == Some(0) => vec![format!("sequel, mode 0, {place}")],
        (0 | 20..=23, Some(held)) => gathered(step, message, &held),
        (24, _) => without_first(step, message),
        (25, Some(held)) => {
            let wrong = wrong(&held, message.timestamp);
            vec![format!("25, {wrong}, {}", which(&held, message))]
        }
        (26, Some(held)) => too_short(step, which(&held, message)),
        (16, _) => vec!["sequel, 16".into()],
        _ => Vec::new(),
    }
}

/// "24 a sequel with no gathering on its channel".
fn without_first(step: &Step, message: &Message) -> Vec<String> {
    let mode = match step.mode() {
        Some(mode @ (1 | 4 | 6)) if step.before.is_none() => mode.to_string(),
        Some(2) => "2".into(),
        _ => "1, 4 or 6".into(),
    };
    let mut list = vec![format!("24, mode {mode}, {}", step.place())];
    if step.past.finished == Some((message.channel, message.timestamp)) {
        list.push("24, directly after the last".into());
    }
    list
}

/// "26 an assembly slice too short for the octets so far".
fn too_short(step: &Step, which: &str) -> Vec<String> {
    let mut list = vec![format!("26, {which}")];
    list.extend(room(step).map(|room| format!("26, {room}, {which}")));
    if step.offer.lent.assembly < step.past.length {
        list.push("26, a shorter slice than before".into());
    }
    list
}

/// How a timestamp is wrong. The first's own is one too few at the second
/// fragment.
fn wrong(held: &Gathering, timestamp: u32) -> &'static str {
    match timestamp.wrapping_sub(held.due()) {
        1 => "one too many",
        u32::MAX => "one too few",
        _ if timestamp == held.timestamp => "the first's own",
        _ => "far off",
    }
}

/// A sequel that passed 24 to 26.
fn gathered(step: &Step, message: &Message, held: &Gathering) -> Vec<String> {
    let which = which(held, message);
    let number = step.reply.number;
    let mut list = vec![format!("sequel, {number}, {which}")];
    if number == 0 {
        let without = message.data.is_empty();
        list.extend(without.then(|| format!("sequel without octets, {which}")));
        let wrapped = held.due() < held.timestamp;
        list.extend(wrapped.then(|| format!("wrapped timestamp, {which}")));
        list.extend(room(step).map(|room| format!("sequel, accepted, {room}")));
        match step.offer.lent.assembly.cmp(&step.past.length) {
            std::cmp::Ordering::Less => list.push("sequel, accepted, a shorter slice".into()),
            std::cmp::Ordering::Greater => list.push("sequel, accepted, a longer slice".into()),
            std::cmp::Ordering::Equal => {}
        }
    }
    if message.last {
        list.extend(ended(step, held));
    }
    list
}

/// "After the last fragment the whole is checked by 20 to 23 and drawn as
/// 0x02".
fn ended(step: &Step, held: &Gathering) -> Vec<String> {
    let Some(Tags::Graphic(layout)) = step.governing.as_ref().map(|own| &own.tags) else {
        return Vec::new();
    };
    let octets = step.so_far() - 4;
    let width = layout.width();
    if step.reply.number == 20 {
        let whole = octets % width == 0;
        let name = if whole {
            "one sample"
        } else {
            "samples not whole"
        };
        return vec![format!("whole, 20, {name}")];
    }
    if step.reply.number != 0 {
        return vec![format!("whole, {}", step.reply.number)];
    }
    let fragments = match held.sequel + 1 {
        many @ (2 | 3 | 40) => many.to_string(),
        4..=9 => "4 to 9".into(),
        10..=39 => "10 to 39".into(),
        _ => "more than 40".into(),
    };
    let mut list = vec![format!("whole, accepted, {fragments} fragments")];
    if octets == 0 {
        list.push("whole, accepted, no points".into());
    }
    if (held.octets - 4) % width != 0 {
        list.push("whole, accepted, cut inside a sample".into());
    }
    if octets + 12 > MOST {
        list.push("whole, accepted, too long for one message".into());
    }
    if step.past.between > 0 {
        list.push("whole, accepted, messages between".into());
    }
    list
}
