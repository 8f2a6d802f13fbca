//! Documents for the reader of XML itself: it must refuse the wrong ones, or
//! it says nothing about the pictures.

use crate::tally::Tally;
use crate::xml::{self, Element};

const RIGHT: [&str; 10] = [
    "<a/>",
    "<a></a>",
    "\n<a>\n</a>\n",
    "<?xml version=\"1.0\" encoding=\"UTF-8\"?>\n<a/>",
    "<a b=\"1\" c='2'/>",
    "<a b=\"'\" c='\"'/>",
    "<a b=\"&amp;&lt;&gt;&quot;\">&amp;&lt;&gt;&quot;</a>",
    "<a><b><c/></b><b/></a >",
    "<a\nb-c:d=\"\"\n/>",
    "<a>lit time 1 \u{B5}s</a>",
];

const WRONG: [&str; 41] = [
    "",
    "\n",
    "a",
    "<a>",
    "</a>",
    "<a/><b/>",
    "<a></a><a></a>",
    "<a></b>",
    "<a><b></a></b>",
    "<a><b></a>",
    "<a></a></a>",
    "<a/>a",
    "a<a/>",
    "<a/>&amp;",
    "<a b/>",
    "<a b=/>",
    "<a b=1/>",
    "<a b=\"1/>",
    "<a b=\"1'/>",
    "<a b=\"1\"c=\"2\"/>",
    "<a b=\"1\" b=\"2\"/>",
    "<a b=\"1\" c=\"2\" b=\"1\"/>",
    "<a b=\"<\"/>",
    "<a b=\"&\"/>",
    "<a b=\"&nbsp;\"/>",
    "<a>&</a>",
    "<a>& </a>",
    "<a>&amp</a>",
    "<a>&apos;</a>",
    "<a>&#60;</a>",
    "<a>&lt;&</a>",
    "<a><</a>",
    "<a>]]></a>",
    "<a>\u{1}</a>",
    "<a b=\"\u{0}\"/>",
    "<a>\u{85}</a>",
    "<a>\u{FFFF}</a>",
    "<1/>",
    "< a/>",
    "<a><!-- b --></a>",
    "<?xml version=\"1.0\" encoding=\"UTF-8\"?><?xml version=\"1.0\" encoding=\"UTF-8\"?><a/>",
];

/// No UTF-8: an octet of its own, a sequence cut short, one that is too long.
const OCTETS: [&[u8]; 3] = [b"<a>\xFF</a>", b"<a>\xC2</a>", b"<a>\xC0\xBC</a>"];

pub fn check(tally: &mut Tally) {
    for text in RIGHT {
        let read = xml::read(text.as_bytes());
        tally.case(&format!("document {text:?}"), read.map(|_| ()));
    }
    let wrong = WRONG.iter().map(|text| text.as_bytes());
    for octets in wrong.chain(OCTETS) {
        let name = format!("wrong document {:?}", String::from_utf8_lossy(octets));
        tally.truth(&name, xml::read(octets).is_err());
    }
    tally.truth("what a document holds", holds());
}

/// Names, attributes, text and the places of the elements around.
fn holds() -> bool {
    let element = |name: &str, attributes: &[(&str, &str)], parent, text: &str| Element {
        name: name.into(),
        attributes: attributes
            .iter()
            .map(|(key, value)| (key.to_string(), value.to_string()))
            .collect(),
        parent,
        text: text.into(),
    };
    let expected = vec![
        element("a", &[("b", "<1>"), ("c", "2")], None, "xyz&"),
        element("d", &[], Some(0), ""),
        element("e", &[], Some(1), "u"),
        element("f", &[], Some(0), ""),
    ];
    let text = "<a b=\"&lt;1&gt;\" c='2'>x<d><e>u</e></d>y<f/>z&amp;</a>";
    xml::read(text.as_bytes()) == Ok(expected)
}
