//! What the program is asked for.

pub const USAGE: &str = "usage: plot [--frame N | --waves FROM TO | --meters | \
                         --sheet [--messages FROM TO]] [--points N] CHANNEL < STREAM > SVG";

/// Rows are lent for so many points where nothing else is said: the longest
/// message has 21,756, and a frame in fragments can have more.
const POINTS: usize = 65_536;

/// The most points that rows are lent for, so that a digit too many does not ask
/// for all memory.
const MOST_POINTS: usize = 10_000_000;

#[derive(Clone, Copy, Debug, PartialEq)]
pub enum Picture {
    /// The first frame, or where there is none all waves.
    First,
    /// A frame, counted from 1.
    Frame(usize),
    /// The waves with timestamps from one to another.
    Waves(u32, u32),
    /// Every frame, or of the messages from one to another.
    Sheet(Option<(usize, usize)>),
    Meters,
}

#[derive(Clone, Copy, Debug, PartialEq)]
pub struct Arguments {
    pub channel: u8,
    pub picture: Picture,
    pub points: usize,
}

/// None where the arguments are not as the usage says.
pub fn parse(given: &[String]) -> Option<Arguments> {
    let mut channel = None;
    let mut picture = None;
    let mut messages = None;
    let mut points = None;
    let mut rest = given.iter();
    while let Some(word) = rest.next() {
        let asked = match word.as_str() {
            "--sheet" => Picture::Sheet(None),
            "--meters" => Picture::Meters,
            "--frame" => Picture::Frame(rest.next()?.parse().ok()?),
            "--waves" => Picture::Waves(rest.next()?.parse().ok()?, rest.next()?.parse().ok()?),
            "--points" => {
                let count = rest
                    .next()?
                    .parse()
                    .ok()
                    .filter(|count| *count <= MOST_POINTS)?;
                set(&mut points, count)?;
                continue;
            }
            "--messages" => {
                let between = (rest.next()?.parse().ok()?, rest.next()?.parse().ok()?);
                set(&mut messages, between)?;
                continue;
            }
            number => {
                set(
                    &mut channel,
                    number.parse().ok().filter(|channel| *channel < 64)?,
                )?;
                continue;
            }
        };
        set(&mut picture, asked)?;
    }
    let picture = match (picture.unwrap_or(Picture::First), messages) {
        (Picture::Sheet(_), between) => Picture::Sheet(between),
        (picture, None) => picture,
        // Only a sheet can be of some messages.
        (_, Some(_)) => return None,
    };
    Some(Arguments {
        channel: channel?,
        picture,
        points: points.unwrap_or(POINTS),
    })
}

/// Each thing is said once.
fn set<T>(place: &mut Option<T>, value: T) -> Option<()> {
    match place.replace(value) {
        None => Some(()),
        Some(_) => None,
    }
}
