//! The dictionaries whose words are replaced one by one. Together they use
//! every tag and unknown tags of each group that has them, and some of them are
//! refused as they stand.

/// The words repeated `count` times.
fn times(count: usize, words: &str) -> String {
    format!("{words} ").repeat(count)
}

/// The dictionaries of source document 003, 3.4.10 and 3.4.11.
pub const SOURCE: &[&str] = &[
    // 3.4.10, whole.
    "4101 5C10 527E 5214 51CC 51BD 5241 51E8 4200 4010 4210 4010 4201 4010",
    // 3.4.10, without what is optional.
    "527E 5214 51CC 4200 4010 4210 4010",
    // 3.4.11, and with visual linearity.
    "4200 4010 4210 4010 527E 5214 51CC",
    "1120 4200 4010 4210 4010 527E 5214 51CC",
];

/// Short dictionaries that are accepted in mode 1.
const SHORT: &[&str] = &[
    // Document 01, "Bench table", a to d.
    "4200 4010 4210 4010 527E 5214 51CC 0000",
    "4200 4210 527E 4100",
    "4200 4210 5C00 5000",
    "4200 4210 527E 4010 4100",
    // The least a dictionary needs, in several orders.
    "4200 4210 527E",
    "53FF 4210 4200",
    "4210 5001 4200 4010",
    // Prefixes with and without precision, first, in the middle and last.
    "5C00 4010 5000 4010 4200 4210",
    "5C00 5000 4010 4210 4200",
    "4200 5C00 4010 5000 4210",
    "4200 4010 4210 4010 527E 5C00 4010 5000 4010",
    "4210 5C00 5000 5C00 4010 5000 5001 5C00 5000 4010 4200",
    // Hints before, between and after the colours.
    "4100 4200 4210 527E 5214",
    "4200 4210 527E 4101 5214",
    "4101 5C00 5000 5C10 4200 4210",
    "5C10 4010 5C20 4010 4200 4210 51CC 4010 4100",
    // NOPs.
    "4000 4200 4000 4210 4000 527E 4000 4000",
    "4200 4010 4000 4210 4010 4000 5C00 4010 5000 4010 4000",
    // Space modifier first, in the middle and last.
    "1155 4200 4210 527E",
    "4200 4210 1177 527E 4010",
    "4200 4010 4210 527E 11FF",
    "4200 4210 5C00 5000 1100",
    "0000 1131 0000 4200 4210 527E",
    // Voids that skip words, in several places.
    "0003 FFFF 5000 4010 4200 4210 527E",
    "4200 0002 4200 4200 4210 0001 3000 527E",
    "4200 4010 0000 4210 4010 0001 4010 5C00 5000 0002 5C00 5C00",
    "4200 4210 527E 0000 0000",
    "4200 4210 527E 0001 1000",
    "0001 0001 0002 0002 0003 4200 4210 0001 000F 527E",
    "0004 4200 4210 527E 5C00 4200 4210 527E",
    // All signals, with and without precision.
    "4200 4210 4220 4201 4211 5C10 5C20 527E",
    "5C20 5C10 4211 4201 4220 4210 4200 4100 5C00 5000",
    "4200 4010 4210 4010 4220 4010 4201 4010 4211 4010 5C10 4010 5C20 4010 527E 4010",
];

/// Dictionaries that are refused as they stand.
const REFUSED: &[&str] = &[
    // 8.
    "4200 4210 527E 3000",
    "4200 4210 5C00 5400",
    // 9.
    "4200 4102 4210 527E",
    "4200 4210 527E 1000 4200",
    "1182 4200 4210 527E",
    // 10.
    "4010 4200 4210 527E",
    "4200 4010 4010 4210 527E",
    "4200 0000 4010 4210 527E",
    "4200 4210 5000",
    "4200 4210 5C00 527E 4010",
    "4200 4210 5C00 4010 4010 5000",
    "4200 4210 5C00 0000 5000",
    "4200 4210 527E 5C00",
    "4200 4210 527E 5C00 4010",
    "4200 4210 527E 0003 4000 4000",
    // 11.
    "4200 4210 527E 4200",
    "5C10 5C10 4200 4210 527E",
    "4100 4200 4210 527E 4101",
    "1101 4200 4210 527E 1101",
    // 12.
    "4210 4201 527E",
    "4200 4211 5C00 5000",
    "4200 4210 4220 5C10",
    "0000",
];

/// Dictionaries with unknown tags that are passed over: request C-16.
const UNKNOWN: &[&str] = &[
    // Each group that has them, first, in the middle and last. 0.0: the parameter
    // alone gives the words to skip, to the end too. 1.0 has no octet.
    "0010 4200 0021 4010 4210 527E 00F2 3000 4200",
    "1010 4200 101F 4210 10FF 527E 1020",
    // 4.0 and 4.1, without precision and with it.
    "4001 4200 4210 527E 40F0 4010",
    "4110 4010 4210 4200 5C00 5000 41FF",
    // 4.2: bench table, h, between X and Y; X, Y and Z with other parameters. The
    // precision of an unknown tag directly behind X is not that of X.
    "4200 4230 4210 527E",
    "4200 4202 4010 4210 4010 4212 4221 527E",
    // 5.12: two in a row, directly before a prefix and behind a prefixed colour.
    "5C01 5C11 4010 5C00 4010 5000 5C30 4200 4210",
    // Between a space modifier, a hint and a NOP.
    "1155 4011 4100 5CFF 4010 4000 4200 4210 527E",
];

/// Dictionaries with unknown tags that are refused as they stand.
const UNKNOWN_REFUSED: &[&str] = &[
    // 10: a second precision; precision where there is no octet.
    "4200 4020 4010 4010 4210 527E",
    "4200 1010 4010 4210 527E",
    "4200 0020 4010 4210 527E",
    // 10: behind a prefix and behind its precision.
    "4200 4210 5C00 42F0 5000",
    "4200 4210 5C00 4010 5C21 5000",
    // 10: a skip that passes the end by one word.
    "4200 4210 527E 0033 4000 4000",
    // 12: X with another parameter is no X.
    "420F 4210 527E",
];

/// Dictionaries at the limits of 8 colours and 32 octets, and past them.
fn limits() -> Vec<String> {
    let precise = times(7, "5C00 4010 5000 4010");
    let signals = "4200 4010 4210 4010 4220 4010 4201 4010 4211 4010 5C10 4010 5C20 4010";
    let colours = times(8, "527E 4010");
    vec![
        // 8 colours: fixed, of one wavelength, prefixed, and a 9th.
        "4200 4210 5001 5002 5003 5004 5005 5006 5007 53FF".to_string(),
        format!("{} 4200 4210", times(8, "527E")),
        format!("4200 4210 {}", times(8, "5C00 5000")),
        format!("4200 4210 {} 5C00", times(8, "527E")),
        format!("4200 4210 {} 5C00 5000", times(8, "527E")),
        format!("{} 4200 4210", times(9, "51CC")),
        // 32 octets with prefixes, with all signals, and with NOPs.
        format!("{precise} 4200 4210 4000 4000"),
        format!("4100 {signals} 1155 {colours} 4000 0001 FFFF"),
        format!("4200 4210 527E {}", times(29, "4000")),
        // 31 and 33 octets.
        format!("{signals} {colours} 4101"),
        format!("4100 {signals} {colours} 4000 4000"),
        format!("{} 4200 4210 5C00 4010 5000 4010", times(27, "4000")),
        // 32 octets of which 29 are ignored, and a word that has none; 33 octets,
        // the last of them the precision of an unknown tag.
        format!("4200 4210 527E {} 5C2F 10F0", times(14, "4230 4010")),
        format!("{} 4200 4210 5C00 4010 5000 40FF 4010", times(26, "41F0")),
    ]
}

/// Dictionaries with Voids that skip many words.
fn voids() -> Vec<String> {
    vec![
        format!("4200 4210 527E 000F {}", times(15, "FFFF")),
        format!(
            "4200 000F {} 4210 000E {} 527E",
            times(15, "4010"),
            times(14, "5000")
        ),
    ]
}

/// The 16-bit words of a text, as octets.
pub fn octets(text: &str) -> Vec<u8> {
    text.split_whitespace()
        .map(|word| u16::from_str_radix(word, 16).expect("a word in hexadecimal"))
        .flat_map(u16::to_be_bytes)
        .collect()
}

/// All dictionaries; those of the source document come first.
pub fn all() -> Vec<Vec<u8>> {
    let fixed = [SOURCE, SHORT, REFUSED, UNKNOWN, UNKNOWN_REFUSED].concat();
    let mut all: Vec<Vec<u8>> = fixed.into_iter().map(octets).collect();
    all.extend(limits().iter().chain(&voids()).map(|text| octets(text)));
    all
}
