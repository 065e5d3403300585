//! From the bytes of a tree file to its elements, in one pass and without recursion.

use crate::output::Refusal;
use crate::scan::{are_different, find, is_name_byte, is_name_start, is_space};
use std::borrow::Cow;
use std::ops::Range;

/// Elements are at most so deep; the document element has depth 1.
const DEEPEST: usize = 258;
/// No element.
pub const NONE: u32 = u32::MAX;

/// An attribute: its name, and what its value says once references are replaced.
pub struct Attribute<'f> {
    /// As it is written.
    pub name: &'f str,
    /// Borrowed from the file where it has no reference.
    pub value: Cow<'f, str>,
}

/// An element, linked to its first child and its next sibling by their numbers.
pub struct Element<'f> {
    /// As it is written.
    pub name: &'f str,
    /// How many bytes of the file come before its `<`.
    pub place: usize,
    /// How many children it has.
    pub count: u32,
    attributes: Range<u32>,
    first: u32,
    next: u32,
}

/// All elements of a file in the order of their start marks, so that the document element is number 0.
pub struct Elements<'f> {
    elements: Vec<Element<'f>>,
    attributes: Vec<Attribute<'f>>,
}

impl<'f> Elements<'f> {
    /// The element of this number.
    pub fn get(&self, element: u32) -> &Element<'f> {
        &self.elements[element as usize]
    }

    /// How many there are.
    pub fn len(&self) -> usize {
        self.elements.len()
    }

    /// The attributes of an element, in the order of the file.
    pub fn attributes(&self, element: u32) -> &[Attribute<'f>] {
        let range = &self.get(element).attributes;
        &self.attributes[range.start as usize..range.end as usize]
    }

    /// What the attribute of this name says, where there is one.
    pub fn attribute(&self, element: u32, name: &str) -> Option<&str> {
        self.attributes(element).iter().find(|it| it.name == name).map(|it| &*it.value)
    }

    /// The first child.
    pub fn first_child(&self, element: u32) -> u32 {
        self.get(element).first
    }

    /// The children in order.
    pub fn children(&self, element: u32) -> impl Iterator<Item = u32> + '_ {
        let mut next = self.get(element).first;
        std::iter::from_fn(move || {
            let child = next;
            (child != NONE).then(|| {
                next = self.get(child).next;
                child
            })
        })
    }
}

/// Reads the bytes of a tree file.
pub fn read(bytes: &[u8]) -> Result<Elements<'_>, Refusal> {
    let text = std::str::from_utf8(bytes).map_err(|it| Refusal::tree(format!("NotUtf8 {}", it.valid_up_to())))?;
    let mut scanner = Scanner {
        text,
        bytes,
        has_zeros: bytes.contains(&0),
        at: if text.starts_with('\u{FEFF}') { 3 } else { 0 },
        read: Elements { elements: Vec::with_capacity(64), attributes: Vec::with_capacity(64) },
        open: Vec::with_capacity(16),
        models: 0,
        has_ended: false,
    };
    scanner.file()?;
    Ok(scanner.read)
}

/// An element that stands open.
struct Open {
    element: u32,
    /// Its last child so far.
    last: u32,
}

struct Scanner<'f> {
    text: &'f str,
    bytes: &'f [u8],
    /// Whether a byte 0 is anywhere in the file; mostly there is none to look for.
    has_zeros: bool,
    at: usize,
    read: Elements<'f>,
    open: Vec<Open>,
    /// How many of the open elements are named `TreeNodesModel`.
    models: usize,
    has_ended: bool,
}

impl<'f> Scanner<'f> {
    fn file(&mut self) -> Result<(), Refusal> {
        while self.skip_text()? {
            let place = self.at;
            match self.bytes.get(place + 1) {
                Some(b'?') => self.skip_past(2, b"?>")?,
                Some(b'!') if self.bytes[place..].starts_with(b"<!--") => self.skip_past(4, b"-->")?,
                Some(b'/') => self.end_mark(place)?,
                _ => self.start_mark(place)?,
            }
        }
        if self.has_ended {
            return Ok(());
        }
        Err(Refusal::tree(format!("Unmatched {}", self.bytes.len())))
    }

    /// Goes on to the next `<`, and says whether there is one.
    fn skip_text(&mut self) -> Result<bool, Refusal> {
        if self.models > 0 {
            self.at = find(self.bytes, self.at, b'<').unwrap_or(self.bytes.len());
        } else {
            self.skip_spaces();
        }
        match self.bytes.get(self.at) {
            None => Ok(false),
            Some(b'<') => Ok(true),
            Some(_) => Err(Refusal::tree(format!("StrayText {}", self.at))),
        }
    }

    fn skip_spaces(&mut self) {
        while self.bytes.get(self.at).is_some_and(|&it| is_space(it)) {
            self.at += 1;
        }
    }

    /// Goes past an instruction or a comment, whose opening has so many bytes. Each of the two ends with `>`.
    #[inline(always)]
    fn skip_past<const N: usize>(&mut self, opening: usize, end: &[u8; N]) -> Result<(), Refusal> {
        let place = self.at;
        // Where the last byte of the end may stand at first.
        let mut at = place + opening + N - 1;
        while let Some(found) = find(self.bytes, at, b'>') {
            at = found + 1;
            if self.bytes[at - N..at] == *end {
                if self.has_zeros && self.bytes[place..at].contains(&0) {
                    break;
                }
                self.at = at;
                return Ok(());
            }
        }
        Err(bad_mark(place))
    }

    /// The name that begins here, if one does.
    fn name(&mut self) -> Option<&'f str> {
        let start = self.at;
        if !is_name_start(*self.bytes.get(start)?) {
            return None;
        }
        let mut end = start + 1;
        while self.bytes.get(end).is_some_and(|&it| is_name_byte(it)) {
            end += 1;
        }
        self.at = end;
        Some(&self.text[start..end])
    }

    fn end_mark(&mut self, place: usize) -> Result<(), Refusal> {
        self.at = place + 2;
        let name = self.name().ok_or_else(|| bad_mark(place))?;
        self.skip_spaces();
        if self.bytes.get(self.at) != Some(&b'>') {
            return Err(bad_mark(place));
        }
        self.at += 1;
        match self.open.pop() {
            Some(open) if self.read.get(open.element).name == name => self.close(name),
            _ => return Err(unmatched(place)),
        }
        Ok(())
    }

    fn close(&mut self, name: &str) {
        self.models -= usize::from(name == "TreeNodesModel");
        self.has_ended = self.open.is_empty();
    }

    /// A start mark or an empty mark.
    fn start_mark(&mut self, place: usize) -> Result<(), Refusal> {
        self.at = place + 1;
        let name = self.name().ok_or_else(|| bad_mark(place))?;
        let from = self.read.attributes.len();
        let is_empty = self.mark_attributes().ok_or_else(|| bad_mark(place))?;
        if !are_different(self.read.attributes[from..].iter().map(|it| it.name)) {
            return Err(Refusal::tree(format!("DoubleAttribute {place}")));
        }
        if self.has_ended {
            return Err(unmatched(place));
        }
        if self.open.len() == DEEPEST {
            return Err(Refusal::tree(format!("TooDeep {place}")));
        }
        let attributes = from as u32..self.read.attributes.len() as u32;
        let element = self.read.elements.len() as u32;
        self.link(element);
        self.read.elements.push(Element { name, place, count: 0, attributes, first: NONE, next: NONE });
        self.models += usize::from(name == "TreeNodesModel");
        if is_empty {
            self.close(name);
        } else {
            self.open.push(Open { element, last: NONE });
        }
        Ok(())
    }

    /// Makes the next element a child of the innermost open one.
    fn link(&mut self, element: u32) {
        if let Some(open) = self.open.last_mut() {
            let last = std::mem::replace(&mut open.last, element);
            let parent = &mut self.read.elements[open.element as usize];
            parent.count += 1;
            if last == NONE {
                parent.first = element;
            } else {
                self.read.elements[last as usize].next = element;
            }
        }
    }

    /// The attributes up to the mark's end. Says whether the mark is an empty one.
    fn mark_attributes(&mut self) -> Option<bool> {
        loop {
            let before = self.at;
            self.skip_spaces();
            match *self.bytes.get(self.at)? {
                b'>' => {
                    self.at += 1;
                    return Some(false);
                }
                b'/' => {
                    self.at += 2;
                    return (self.bytes.get(self.at - 1) == Some(&b'>')).then_some(true);
                }
                _ if self.at > before => self.mark_attribute()?,
                _ => return None,
            }
        }
    }

    fn mark_attribute(&mut self) -> Option<()> {
        let name = self.name()?;
        self.skip_spaces();
        if *self.bytes.get(self.at)? != b'=' {
            return None;
        }
        self.at += 1;
        self.skip_spaces();
        let quote = *self.bytes.get(self.at)?;
        if quote != b'"' && quote != b'\'' {
            return None;
        }
        let start = self.at + 1;
        let mut end = start;
        let mut has_references = false;
        loop {
            match *self.bytes.get(end)? {
                it if it == quote => break,
                b'<' | 0 => return None,
                b'&' => has_references = true,
                _ => {}
            }
            end += 1;
        }
        self.at = end + 1;
        let text = &self.text[start..end];
        let value = if has_references { decoded(text) } else { Cow::Borrowed(text) };
        self.read.attributes.push(Attribute { name, value });
        Some(())
    }
}

fn bad_mark(place: usize) -> Refusal {
    Refusal::tree(format!("BadMark {place}"))
}

fn unmatched(place: usize) -> Refusal {
    Refusal::tree(format!("Unmatched {place}"))
}

/// The text with each reference replaced by its character.
fn decoded(text: &str) -> Cow<'_, str> {
    let mut made = String::with_capacity(text.len());
    let mut rest = text;
    while let Some(at) = rest.find('&') {
        made.push_str(&rest[..at]);
        rest = &rest[at..];
        let (character, length) = reference(rest).unwrap_or(('&', 1));
        made.push(character);
        rest = &rest[length..];
    }
    made.push_str(rest);
    Cow::Owned(made)
}

/// The reference with which a text begins: its character, and how many bytes it has.
fn reference(text: &str) -> Option<(char, usize)> {
    const NAMED: [(&str, char); 5] = [("&lt;", '<'), ("&gt;", '>'), ("&amp;", '&'), ("&quot;", '"'), ("&apos;", '\'')];
    if let Some((name, character)) = NAMED.iter().find(|(name, _)| text.starts_with(name)) {
        return Some((*character, name.len()));
    }
    let number = text.strip_prefix("&#")?;
    let (digits, base) = number.strip_prefix('x').map_or((number, 10), |it| (it, 16));
    let length = digits.bytes().take_while(|&it| char::from(it).is_digit(base)).count();
    if length == 0 || digits.as_bytes().get(length) != Some(&b';') {
        return None;
    }
    let mut code = 0u32;
    for digit in digits[..length].chars() {
        code = code.saturating_mul(base).saturating_add(digit.to_digit(base)?);
    }
    let character = char::from_u32(code).filter(|&it| it != '\0')?;
    Some((character, text.len() - digits.len() + length + 1))
}
