//! The refused messages beside a picture.

use crate::tally::same;
use crate::told::Told;
use crate::xml::Element;

/// The most groups that are listed.
const MOST: usize = 400;

/// Refused messages one after the other, with one channel and one number.
#[derive(Clone, Debug, PartialEq, Eq)]
pub struct Group {
    /// The places of the first and the last in the stream, from 1.
    pub first: usize,
    pub last: usize,
    pub channel: u8,
    pub number: u32,
}

impl Group {
    fn text(&self) -> String {
        let Group {
            first,
            last,
            channel,
            number,
        } = self;
        if first == last {
            format!("message {first}, channel {channel}: {number}")
        } else {
            format!("messages {first} to {last}, channel {channel}: {number}")
        }
    }

    fn messages(&self) -> usize {
        self.last + 1 - self.first
    }
}

/// The groups of all channels in the order of the stream.
pub fn groups(told: &Told) -> Vec<Group> {
    let mut groups: Vec<Group> = Vec::new();
    for (place, message) in told.messages.iter().enumerate() {
        let (channel, number) = (message.channel, message.reply.number);
        if number == 0 {
            continue;
        }
        match groups.last_mut() {
            Some(group)
                if (group.last, group.channel, group.number) == (place, channel, number) =>
            {
                group.last += 1
            }
            _ => groups.push(Group {
                first: place + 1,
                last: place + 1,
                channel,
                number,
            }),
        }
    }
    groups
}

/// The sentences of the header's table, by number.
pub struct Sentences(Vec<String>);

impl Sentences {
    /// Reads the table of 26 numbers in include/mewkoast.h. A line that begins
    /// with the next number begins its sentence, others go on with it.
    pub fn of(header: &str) -> Result<Sentences, String> {
        let begin = "A refusal has 0 in all but the number:";
        let (_, table) = header.split_once(begin).ok_or("no table of numbers")?;
        let mut sentences: Vec<String> = Vec::new();
        for line in table.lines().skip(2) {
            let text = line.trim_start_matches(" *").trim();
            if text.is_empty() {
                break;
            }
            let begins = text.strip_prefix(&format!("{}  ", sentences.len() + 1));
            match (begins, sentences.last_mut()) {
                (Some(text), _) => sentences.push(text.to_string()),
                (None, Some(sentence)) => *sentence += &format!(" {text}"),
                (None, None) => return Err(format!("the table begins with {text:?}")),
            }
        }
        same("sentences", &26, &sentences.len())?;
        Ok(Sentences(sentences))
    }

    fn get(&self, number: u32) -> &str {
        &self.0[number as usize - 1]
    }
}

fn count(messages: usize) -> String {
    let plural = if messages == 1 { "" } else { "s" };
    format!("{messages} message{plural}")
}

/// The texts of a list in order: class and text, a sentence in one.
type Texts = Vec<(String, String)>;

fn expected(groups: &[Group], channel: Option<u8>, sentences: &Sentences) -> Texts {
    let of = channel.map_or("all channels".into(), |number| format!("channel {number}"));
    let messages = |groups: &[Group]| groups.iter().map(Group::messages).sum::<usize>();
    let title = format!("Refused on {of}: {}", count(messages(groups)));
    let mut texts = vec![("refusals".into(), title)];
    for group in groups.iter().take(MOST) {
        texts.push(("refused".into(), group.text()));
        texts.push(("sentence".into(), sentences.get(group.number).into()));
    }
    if groups.len() > MOST {
        let more = messages(&groups[MOST..]);
        let plural = if more == 1 { "" } else { "s" };
        texts.push(("more".into(), format!("and {more} more message{plural}")));
    }
    texts
}

fn given(elements: &[Element]) -> Texts {
    let mut texts: Texts = Vec::new();
    for element in elements.iter().filter(|element| element.name == "text") {
        let class = element.get("class").unwrap_or("");
        if !matches!(class, "refusals" | "refused" | "sentence" | "more") {
            continue;
        }
        match texts.last_mut() {
            Some((before, text)) if before == class && class == "sentence" => {
                *text += &format!(" {}", element.text);
            }
            _ => texts.push((class.into(), element.text.clone())),
        }
    }
    texts
}

/// The list of a picture; of one channel, or of all.
pub fn check(
    told: &Told,
    channel: Option<u8>,
    elements: &[Element],
    sentences: &Sentences,
) -> Result<(), String> {
    let mut groups = groups(told);
    groups.retain(|group| channel.is_none_or(|channel| group.channel == channel));
    let expected = expected(&groups, channel, sentences);
    let given = given(elements);
    for (expected, given) in expected.iter().zip(&given) {
        same("refusals:", expected, given)?;
    }
    same("texts of refusals:", &expected.len(), &given.len())
}
