//! Reads a document of elements, attributes and text, and refuses what is not
//! well-formed XML. It knows less than XML has: no comments, sections of
//! character data, document types or processing instructions, because the
//! pictures have none.

/// One element, in the order of the start tags.
#[derive(Clone, Debug, Default, PartialEq, Eq)]
pub struct Element {
    pub name: String,
    pub attributes: Vec<(String, String)>,
    /// The place of the element around it; none for the root.
    pub parent: Option<usize>,
    /// The text directly in it, without that of the elements in it.
    pub text: String,
}

impl Element {
    pub fn get(&self, name: &str) -> Option<&str> {
        let found = self.attributes.iter().find(|(key, _)| key == name);
        found.map(|(_, value)| value.as_str())
    }

    /// True for an element of this name and class.
    pub fn is(&self, name: &str, class: &str) -> bool {
        self.name == name && self.get("class") == Some(class)
    }
}

const DECLARATION: &str = "<?xml version=\"1.0\" encoding=\"UTF-8\"?>";

/// What each entity stands for; no other may occur.
const ENTITIES: [(&str, char); 4] = [("amp", '&'), ("lt", '<'), ("gt", '>'), ("quot", '"')];

struct Reader<'a> {
    rest: &'a str,
    elements: Vec<Element>,
    /// The places of the elements that are open.
    open: Vec<usize>,
}

/// The elements of a document, the root first.
pub fn read(octets: &[u8]) -> Result<Vec<Element>, String> {
    let text = std::str::from_utf8(octets).map_err(|_| "no UTF-8".to_string())?;
    let control = |c: char| c.is_control() && c != '\n' || matches!(c, '\u{FFFE}' | '\u{FFFF}');
    if text.contains(control) {
        return Err("a control character".into());
    }
    let mut reader = Reader {
        rest: text.strip_prefix(DECLARATION).unwrap_or(text),
        elements: Vec::new(),
        open: Vec::new(),
    };
    while !reader.rest.is_empty() {
        reader.next()?;
    }
    if !reader.open.is_empty() {
        return Err("an element is not closed".into());
    }
    if reader.elements.is_empty() {
        return Err("no root".into());
    }
    Ok(reader.elements)
}

impl<'a> Reader<'a> {
    /// One tag, or the text up to the next.
    fn next(&mut self) -> Result<(), String> {
        if self.take("</") {
            return self.end();
        }
        if self.take("<") {
            return self.start();
        }
        let text = self.until(|c| c == '<');
        if text.contains("]]>") {
            return Err("]]> in text".into());
        }
        let text = plain(text)?;
        match self.open.last() {
            Some(place) => self.elements[*place].text += &text,
            None if text.trim().is_empty() => {}
            None => return Err(format!("text outside the root: {text:?}")),
        }
        Ok(())
    }

    fn start(&mut self) -> Result<(), String> {
        if self.open.is_empty() && !self.elements.is_empty() {
            return Err("a second root".into());
        }
        let mut element = Element {
            name: self.name()?,
            parent: self.open.last().copied(),
            ..Element::default()
        };
        loop {
            let spaced = self.space();
            if self.take("/>") {
                self.elements.push(element);
                return Ok(());
            }
            if self.take(">") {
                self.open.push(self.elements.len());
                self.elements.push(element);
                return Ok(());
            }
            if !spaced {
                return Err(format!("no space before an attribute of {}", element.name));
            }
            let (name, value) = self.attribute()?;
            if element.get(&name).is_some() {
                return Err(format!("{name} twice in {}", element.name));
            }
            element.attributes.push((name, value));
        }
    }

    fn end(&mut self) -> Result<(), String> {
        let name = self.name()?;
        self.space();
        if !self.take(">") {
            return Err(format!("the end tag of {name} is not closed"));
        }
        match self.open.pop() {
            Some(place) if self.elements[place].name == name => Ok(()),
            _ => Err(format!("the end of {name}, which is not open")),
        }
    }

    fn attribute(&mut self) -> Result<(String, String), String> {
        let name = self.name()?;
        let quote = match (self.take("="), self.rest.chars().next()) {
            (true, Some(quote @ ('"' | '\''))) => quote,
            _ => return Err(format!("{name} has no quoted value")),
        };
        self.rest = &self.rest[1..];
        let value = self.until(|c| c == quote || c == '<');
        if !self.rest.starts_with(quote) {
            return Err(format!("the value of {name} does not end"));
        }
        self.rest = &self.rest[1..];
        Ok((name, plain(value)?))
    }

    fn name(&mut self) -> Result<String, String> {
        let name = self.until(|c| !(c.is_ascii_alphanumeric() || matches!(c, '-' | '_' | ':')));
        if !name.starts_with(|c: char| c.is_ascii_alphabetic()) {
            return Err(format!("a name that begins with {:?}", self.rest.get(..1)));
        }
        Ok(name.to_string())
    }

    fn take(&mut self, text: &str) -> bool {
        let after = self.rest.strip_prefix(text);
        self.rest = after.unwrap_or(self.rest);
        after.is_some()
    }

    fn space(&mut self) -> bool {
        !self.until(|c| c != ' ' && c != '\n').is_empty()
    }

    fn until(&mut self, stop: impl Fn(char) -> bool) -> &'a str {
        let (before, after) = self
            .rest
            .split_at(self.rest.find(stop).unwrap_or(self.rest.len()));
        self.rest = after;
        before
    }
}

/// The text without entities.
fn plain(text: &str) -> Result<String, String> {
    let mut parts = text.split('&');
    let mut plain = parts.next().unwrap_or("").to_string();
    for part in parts {
        let (name, after) = part.split_once(';').ok_or("& without an end")?;
        let known = ENTITIES.iter().find(|(known, _)| *known == name);
        plain.push(known.ok_or(format!("the entity {name:?}"))?.1);
        plain += after;
    }
    Ok(plain)
}
