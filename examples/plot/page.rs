//! The page around a picture: its size, its title, texts.

use std::fmt::Write;

/// The margin around everything, and the height of the title.
pub const MARGIN: f64 = 20.0;
pub const HEAD: f64 = 56.0;

/// The column of refused messages to the right of a picture.
pub const COLUMN: f64 = 400.0;

/// A page around what is drawn on it.
pub fn page(width: f64, height: f64, body: &str) -> String {
    let mut page = String::from("<?xml version=\"1.0\" encoding=\"UTF-8\"?>\n");
    let _ = writeln!(
        page,
        r#"<svg xmlns="http://www.w3.org/2000/svg" width="{width}" height="{height}" viewBox="0 0 {width} {height}" font-family="sans-serif">"#
    );
    let _ = writeln!(
        page,
        r##"<rect width="{width}" height="{height}" fill="#16161a"/>"##
    );
    page.push_str(body);
    page.push_str("</svg>\n");
    page
}

/// A line of text. Only what this program writes itself is in it, and that has
/// no octets of a stream; still the characters that XML keeps for itself are
/// written as XML asks.
pub fn text(body: &mut String, class: &str, x: f64, y: f64, look: &str, words: &str) {
    let words = words
        .replace('&', "&amp;")
        .replace('<', "&lt;")
        .replace('>', "&gt;");
    let _ = writeln!(
        body,
        r#"<text class="{class}" x="{x:.1}" y="{y:.1}" {look}>{words}</text>"#
    );
}

/// The looks of texts.
pub const TITLE: &str = r##"font-size="17" fill="#fff""##;
pub const NOTE: &str = r##"font-size="12" fill="#aaa""##;
pub const STRONG: &str = r##"font-size="12" fill="#ff8080""##;

/// The title of a picture and a line below it.
pub fn head(body: &mut String, title: &str, below: &str) {
    text(body, "title", MARGIN, 26.0, TITLE, title);
    text(body, "below", MARGIN, 45.0, NOTE, below);
}

/// "1 point", "2 points".
pub fn counted(count: usize, what: &str) -> String {
    match count {
        1 => format!("1 {what}"),
        _ => format!("{count} {what}s"),
    }
}

/// Text in lines of at most so many characters, broken between words.
pub fn wrapped(text: &str, most: usize) -> Vec<String> {
    let mut lines: Vec<String> = Vec::new();
    for word in text.split_whitespace() {
        match lines.last_mut() {
            Some(line) if line.chars().count() + 1 + word.chars().count() <= most => {
                line.push(' ');
                line.push_str(word);
            }
            _ => lines.push(word.to_string()),
        }
    }
    lines
}
