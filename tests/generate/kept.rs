//! What drops a frame that is gathered and what leaves it alone: request C-12,
//! "A first fragment accepted in mode 2, or on that channel an accepted routing
//! or close or a refusal 19, drops what was gathered", "25 [...], which drops
//! the gathering" and "26 [...], which drops any gathering".

use crate::steps::Step;
use decoder::message::{Message, FIRST, FRAME, SEQUEL, VOID};

/// The situation of a message that is offered while a frame is gathered: what
/// came of the gathering, and by what. None for a fragment that it is gathered
/// with.
pub fn situation(step: &Step) -> Option<(&'static str, String)> {
    step.before?;
    let number = step.reply.number;
    let Some(message) = &step.message else {
        return Some((outcome(step), format!("{number}, on any channel")));
    };
    let cause = match number {
        0 if message.kind == SEQUEL && step.mode() == Some(2) => return None,
        0 => accepted(step, message),
        _ => refused(step, message),
    };
    let place = if step.held().is_some() {
        "on its channel"
    } else {
        "elsewhere"
    };
    Some((outcome(step), format!("{cause}, {place}")))
}

/// What came of the gathering. A first fragment that is sent again begins one
/// that looks like the one it drops.
fn outcome(step: &Step) -> &'static str {
    let first = step.message.is_some_and(|message| message.kind == FIRST);
    let begins = first && step.reply.number == 0 && step.mode() == Some(2);
    match step.after {
        None => "dropped",
        Some(_) if begins => "replaced",
        after if step.before == after => "kept",
        Some(_) => "changed",
    }
}

/// What kind of chunk a message carries.
pub fn of(message: &Message) -> &'static str {
    match message.kind {
        VOID => "Void chunk",
        FRAME => "whole frame",
        FIRST => "first fragment",
        SEQUEL => "sequel",
        _ => "other chunk",
    }
}

fn accepted(step: &Step, message: &Message) -> String {
    let configuration = match (message.routing.is_some(), message.close) {
        (true, true) => "Routing and Close",
        (true, false) => "Routing",
        (false, true) => "Close",
        (false, false) => "",
    };
    let kind = of(message);
    match (message.kind, step.mode()) {
        (FIRST, Some(2)) if configuration.is_empty() => kind.into(),
        (FIRST, Some(2)) => format!("{kind} with {configuration}"),
        (FIRST | SEQUEL, _) if configuration.is_empty() => format!("{kind} in mode 0"),
        (_, Some(0)) if message.routing.is_some() => format!("{configuration}, mode 0"),
        _ if configuration.is_empty() => kind.into(),
        _ => configuration.into(),
    }
}

fn refused(step: &Step, message: &Message) -> String {
    let number = step.reply.number;
    let routing = message.routing.is_some();
    match (message.kind, number) {
        (_, 19) if routing => "19 with Routing".into(),
        (FIRST, 26) if routing => "26, first fragment with Routing".into(),
        (_, 19) | (SEQUEL, _) | (FIRST, 16..=18 | 26) => format!("{number}, {}", of(message)),
        _ if routing => "refused Routing".into(),
        _ if message.close => "refused Close".into(),
        _ => format!("{number}, {}", of(message)),
    }
}
