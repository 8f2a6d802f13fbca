//! The list of refused messages beside a picture.

use crate::page::{self, counted, text, wrapped, COLUMN, NOTE, STRONG};
use crate::run::{Refusal, Run};
use crate::sentences;

/// So many entries are listed; how many more there are is said.
const ENTRIES: usize = 400;

const LINE: f64 = 15.0;
const LETTERS: usize = 62;

/// Refused messages in a row, on one channel and with one number.
pub struct Group {
    pub first: usize,
    pub last: usize,
    pub channel: u8,
    pub number: u8,
}

/// Groups of the refusals in their order.
pub fn groups<'a>(refusals: impl Iterator<Item = &'a Refusal>) -> Vec<Group> {
    let mut groups: Vec<Group> = Vec::new();
    for refusal in refusals {
        match groups.last_mut() {
            Some(group)
                if group.last + 1 == refusal.message
                    && (group.channel, group.number) == (refusal.channel, refusal.number) =>
            {
                group.last = refusal.message;
            }
            _ => groups.push(Group {
                first: refusal.message,
                last: refusal.message,
                channel: refusal.channel,
                number: refusal.number,
            }),
        }
    }
    groups
}

/// Lists the refused messages of the picture's channel. Gives the height at
/// which the list ends.
pub fn list_of_channel(body: &mut String, run: &Run, left: f64, top: f64) -> f64 {
    let of_channel = run
        .refusals
        .iter()
        .filter(|refusal| refusal.channel == run.channel);
    list(
        body,
        &format!("on channel {}", run.channel),
        of_channel,
        left,
        top,
    )
}

/// Lists the refused messages of every channel.
pub fn list_of_all(body: &mut String, run: &Run, left: f64, top: f64) -> f64 {
    list(body, "on all channels", run.refusals.iter(), left, top)
}

fn list<'a>(
    body: &mut String,
    which: &str,
    refusals: impl Iterator<Item = &'a Refusal>,
    left: f64,
    top: f64,
) -> f64 {
    let groups = groups(refusals);
    let count = messages_in(&groups);
    let title = format!("Refused {which}: {}", counted(count, "message"));
    let mut y = top + LINE;
    text(body, "refusals", left, y, page::TITLE, &title);
    for group in groups.iter().take(ENTRIES) {
        y += LINE * 1.4;
        text(body, "refused", left, y, STRONG, &heading(group));
        for line in wrapped(&sentences::of(group.number), LETTERS) {
            y += LINE;
            text(body, "sentence", left + 12.0, y, NOTE, &line);
        }
    }
    if groups.len() > ENTRIES {
        y += LINE * 1.4;
        let more = counted(messages_in(&groups[ENTRIES..]), "more message");
        text(body, "more", left, y, NOTE, &format!("and {more}"));
    }
    y + LINE
}

fn messages_in(groups: &[Group]) -> usize {
    groups
        .iter()
        .map(|group| group.last - group.first + 1)
        .sum()
}

fn heading(group: &Group) -> String {
    let Group {
        first,
        last,
        channel,
        number,
    } = group;
    if first == last {
        format!("message {first}, channel {channel}: {number}")
    } else {
        format!("messages {first} to {last}, channel {channel}: {number}")
    }
}

/// The width of a page with a picture so wide and the list beside it.
pub fn width_with(picture: f64) -> f64 {
    page::MARGIN * 3.0 + picture + COLUMN
}
