//! Document 02, C-16: "The width, and with it each caller's sample count,
//! includes ignored octets." Samples with ignored octets, worked out by hand.

use crate::dictionary::check;
use crate::fragment_edges::{holds, numbers};
use crate::history::offered;
use crate::listing::listing;
use crate::lookback::{sums, verdicts};
use crate::newer_tags::WITH_OCTET;
use crate::receiver_table::{routed, Host, PLAIN};
use crate::rows::row;
use crate::set_edges::patch;
use crate::table::octets;

/// Samples of four octets: X, Y, an ignored one and a colour.
const FOUR: &str = "4200 4210 4230 527E";

/// Samples of five octets: the precision behind the unknown tag is ignored too.
const FIVE: &str = "4200 4230 4010 4210 527E";

/// Number, points and lit points of a message to a new receiver. The look-back
/// rule has the same number, and the meters of both have the points.
fn offered_once(message: &[u8]) -> (u32, u32, u32) {
    let mut host = Host::new();
    host.rows.truncate(480);
    let reply = host.offer(message);
    let messages = [message.to_vec()];
    let verdicts = verdicts([0; 3], &offered(&messages));
    assert_eq!(verdicts[0].number, reply.number);
    let time = if reply.lit_points == 0 { 0 } else { 100 };
    let meters = [time, reply.points.into(), reply.lit_points.into()];
    assert_eq!(host.receiver.readings(), meters);
    assert_eq!(sums([0; 3], &verdicts), meters);
    (reply.number, reply.points, reply.lit_points)
}

/// Check 20 of frames: 12 octets are three points here, and four without the
/// unknown tag.
#[test]
fn frames() {
    let frame = |words: &str, count: usize| offered_once(&routed(2, 1, 2, words, &vec![1; count]));
    assert_eq!(frame(FOUR, 0), (0, 0, 0));
    assert_eq!(frame(FOUR, 8), (0, 2, 1));
    assert_eq!(frame(FOUR, 12), (0, 3, 2));
    assert_eq!(frame(PLAIN, 12), (0, 4, 3));
    // One point, three octets a sample, one octet short, one too many.
    for count in [4, 6, 7, 9, 11, 13] {
        assert_eq!(frame(FOUR, count), (20, 0, 0), "{count}");
    }
    assert_eq!(frame(FIVE, 10), (0, 2, 1));
    assert_eq!(frame(FIVE, 15), (0, 3, 2));
    for count in [5, 6, 8, 9, 11, 12, 14] {
        assert_eq!(frame(FIVE, count), (20, 0, 0), "{count}");
    }
}

/// Check 20 of waves, which have at least 20 samples with their ignored octets.
#[test]
fn waves() {
    let wave = |words: &str, count: usize| offered_once(&routed(1, 1, 1, words, &vec![1; count]));
    assert_eq!(wave(PLAIN, 60), (0, 20, 20));
    for count in [57, 60, 76, 79, 81] {
        assert_eq!(wave(FOUR, count), (20, 0, 0), "{count}");
    }
    assert_eq!(wave(FOUR, 80), (0, 20, 20));
    for count in [60, 80, 95, 99, 101] {
        assert_eq!(wave(FIVE, count), (20, 0, 0), "{count}");
    }
    assert_eq!(wave(FIVE, 100), (0, 20, 20));
}

/// A point is lit by its colours: ignored octets light nothing.
#[test]
fn ignored_octets_are_dark() {
    for tag in WITH_OCTET {
        let words = format!("4200 4210 527E {tag} 4010");
        let frame = |sample: &str| {
            let samples = octets(sample).repeat(3);
            offered_once(&routed(2, 1, 2, &words, &samples))
        };
        assert_eq!(frame("0000 00 FFFF"), (0, 3, 0), "{tag}");
        assert_eq!(frame("0000 01 0000"), (0, 3, 2), "{tag}");
    }
}

/// Rows of a frame with ignored octets between and behind the signals.
#[test]
fn rows_of_a_frame() {
    let words = "5CFF 4200 4010 4202 4210 4230 4010 527E 4111 0012 FFFF 4010 10F3";
    let sample = |text: &str| octets(&text.replace("--", "EE"));
    let samples = [
        sample("-- 8000 -- 7F -- -- 00 --"),
        sample("-- 0102 -- 81 -- -- FF --"),
    ]
    .concat();
    let mut host = Host::new();
    let reply = host.offer(&routed(2, 1, 2, words, &samples));
    assert_eq!((reply.number, reply.points, reply.lit_points), (0, 2, 1));
    let mut rows = vec![-7; 600];
    rows[..48].fill(0);
    (rows[0], rows[1], rows[5], rows[16]) = (-32768, 0x7F00, 1, 40832);
    (rows[24], rows[25], rows[29], rows[40]) = (0x0102, -0x7F00, 1, 40832);
    rows[32] = 0xFF00;
    assert_eq!(host.rows, rows);
    assert_eq!(host.receiver.readings(), [100, 2, 1]);
}

/// Tags that stand together, each with its octets in one sample: every kind.
const GROUPS: [(&str, &str); 10] = [
    ("1155", ""),
    ("5C10", "FF"),
    ("4101", "60"),
    ("4200 4010", "80 01"),
    ("4000", "AA"),
    ("5C00 4010 5000", "FF FE 02"),
    ("4210", "7F"),
    ("5C20", "81"),
    ("523F 4010", "01 FF"),
    ("4220", "FF"),
];

/// Unknown tags with the octets that they ignore.
const UNKNOWN: [(&str, &str); 6] = [
    ("0012 4200 FFFF", ""),
    ("10FF", ""),
    ("4230", "FF"),
    ("4011 4010", "FF FF"),
    ("5C01", "00"),
    ("5C11 4010 1010 4202 4010 4110", "01 23 45 67 89"),
];

/// The tags, then the octets of one sample, of groups in a row.
fn joined(groups: &[(&str, &str)]) -> (Vec<u8>, Vec<u8>) {
    let tags: String = groups.iter().map(|group| group.0).collect();
    let sample: String = groups.iter().map(|group| group.1).collect();
    (octets(&tags), octets(&sample))
}

/// Rows with ignored octets equal the row without them, wherever they stand
/// among the tags.
#[test]
fn rows_as_without() {
    // The hint 60 has c = 1, i = 2 and a closed shutter.
    let mut expected = [0; 24];
    expected[..3].copy_from_slice(&[-32767, 32512, -256]);
    expected[6..10].copy_from_slice(&[65280 / 16, 33024, 512 / 4, 511 / 4]);
    expected[16..18].copy_from_slice(&[65534, 575 * 64]);
    let same = |groups: &[(&str, &str)]| {
        let (tags, sample) = joined(groups);
        let layout = check(1, &tags).unwrap();
        assert_eq!(layout.width(), sample.len());
        assert_eq!(layout.space, 0x1155);
        assert_eq!(row(&layout, &sample), expected, "{groups:?}");
    };
    same(&GROUPS);
    for unknown in UNKNOWN {
        for place in 0..=GROUPS.len() {
            let mut groups = GROUPS.to_vec();
            groups.insert(place, unknown);
            same(&groups);
            // And again in front and at the end.
            groups.insert(0, unknown);
            groups.push(unknown);
            same(&groups);
        }
    }
}

/// Request C-12: a frame in fragments, cut inside the ignored octets. Eight
/// octets are two samples, seven are not whole.
#[test]
fn fragments() {
    let open = "0014C500 00000000 02010102 42004210 4230527E";
    let first = "000F8503 00000064 00000064 010200";
    let mut host = Host::new();
    let last = "000DC5C0 00000065 00 0304EEFF";
    assert_eq!(numbers(&mut host, &[open, first]), [0; 2]);
    let reply = host.offer(&octets(last));
    assert_eq!((reply.number, reply.points, reply.lit_points), (0, 2, 1));
    holds(&host, "00000064 01020000 0304EEFF");
    assert_eq!(host.rows[24..26], [0x0300, 0x0400]);
    assert_eq!(host.rows[32], 0xFF00);
    let mut host = Host::new();
    let short = "000CC5C0 00000065 00 0304EE";
    assert_eq!(numbers(&mut host, &[open, first, short]), [0, 0, 20]);
    assert_eq!(host.receiver.readings(), [0; 3]);
}

/// A dictionary that is only now accepted opens a channel, also in a set
/// (C-14), and is in force for later messages; one that is refused does not.
#[test]
fn channels() {
    let open = "0014C500 00000000 02010102 42004210 4230527E";
    let hint_2 = "0014C600 00000000 02010102 42004210 4102527E";
    let frame = "00148502 00000000 00000064 01010000 01010001";
    let short = "00128502 00000000 00000064 010100 010101";
    let mut host = Host::new();
    assert_eq!(patch(&mut host, &[open, hint_2]), (1, 9));
    assert_eq!(numbers(&mut host, &[frame]), [16]);
    assert_eq!(patch(&mut host, &[open]), (1, 0));
    assert_eq!(numbers(&mut host, &[frame, short, hint_2]), [0, 20, 9]);
    assert_eq!(host.receiver.readings(), [100, 2, 1]);
    let all = [open, frame, short, hint_2].concat();
    let lines = "5 0 0 0 0\n5 2 0 2 1\n0 0 20 0 0\n0 0 9 0 0\nmeters 100 2 1\n";
    assert_eq!(listing(&octets(&all)), lines);
}

/// Check 22 asks for the rows of the points that there are: 25 points of four
/// octets fit in 600 numbers, 26 do not.
#[test]
fn rows_lent() {
    let number = |count: usize| Host::new().number(&routed(2, 1, 2, FOUR, &vec![0; 4 * count]));
    assert_eq!(number(25), 0);
    assert_eq!(number(26), 22);
    let widest = format!("{FOUR} {}", "5CAB ".repeat(28));
    let wide = |count: usize| Host::new().offer(&routed(2, 1, 2, &widest, &vec![0; count]));
    assert_eq!((wide(64).number, wide(64).points), (0, 2));
    assert_eq!(wide(62).number, 20);
    let too_wide = format!("{widest} 5CAB");
    assert_eq!(Host::new().number(&routed(2, 1, 2, &too_wide, &[])), 11);
}
