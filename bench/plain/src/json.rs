//! JSON text as one flat list of nodes, each in front of what it holds. Names and texts stay where they stand in the text.

/// The text is no JSON, or not what a job has at this place.
#[derive(Debug)]
pub struct BadJob;

#[derive(Clone, Copy, PartialEq)]
enum Kind {
    Null,
    False,
    True,
    /// A whole number below 2^64: both halves.
    Whole,
    /// Any other number.
    Other,
    /// Text from one place of the source to another.
    Plain,
    /// The same of the texts that had escapes.
    Escaped,
    List,
    Object,
}

/// A value; `next` is the node behind all that it holds.
#[derive(Clone, Copy)]
struct Node {
    kind: Kind,
    first: u32,
    second: u32,
    next: u32,
}

/// The place of a value among the nodes.
pub type Value = u32;

pub struct Json<'a> {
    text: &'a [u8],
    escaped: Vec<u8>,
    nodes: Vec<Node>,
}

const MOST_NESTED: u32 = 127;

impl<'a> Json<'a> {
    /// The text as nodes, of which the first is the whole.
    pub fn parse(text: &'a [u8]) -> Result<Json<'a>, BadJob> {
        let mut parser = Parser { text, at: 0, escaped: Vec::new(), nodes: Vec::with_capacity(text.len() / 16 + 8) };
        parser.value(0)?;
        if parser.peek() != 0 || parser.at < text.len() {
            return Err(BadJob);
        }
        Ok(Json { text, escaped: parser.escaped, nodes: parser.nodes })
    }

    pub fn text(&self, value: Value) -> Result<&[u8], BadJob> {
        let node = self.nodes[value as usize];
        match node.kind {
            Kind::Plain => Ok(&self.text[node.first as usize..node.second as usize]),
            Kind::Escaped => Ok(&self.escaped[node.first as usize..node.second as usize]),
            _ => Err(BadJob),
        }
    }

    pub fn number(&self, value: Value) -> Result<u64, BadJob> {
        let node = self.nodes[value as usize];
        match node.kind {
            Kind::Whole => Ok(u64::from(node.first) | u64::from(node.second) << 32),
            _ => Err(BadJob),
        }
    }

    pub fn truth(&self, value: Value) -> Result<bool, BadJob> {
        match self.nodes[value as usize].kind {
            Kind::False => Ok(false),
            Kind::True => Ok(true),
            _ => Err(BadJob),
        }
    }

    /// The items of a list.
    pub fn items(&self, list: Value) -> Result<Items<'_>, BadJob> {
        let node = self.nodes[list as usize];
        match node.kind {
            Kind::List => Ok(Items { nodes: &self.nodes, at: list + 1, end: node.next }),
            _ => Err(BadJob),
        }
    }

    /// How many values a list or an object holds, at any depth: no less than it has items.
    pub fn size(&self, value: Value) -> usize {
        (self.nodes[value as usize].next - value) as usize
    }

    /// A list of so many whole numbers.
    pub fn numbers<const N: usize>(&self, list: Value) -> Result<[u64; N], BadJob> {
        let mut found = [0; N];
        let mut items = self.items(list)?;
        for it in &mut found {
            *it = self.number(items.next().ok_or(BadJob)?)?;
        }
        Ok(found)
    }

    /// The members of these names. One that is null counts as absent, and of one that stands twice the last counts.
    #[inline(always)]
    pub fn members<const N: usize>(&self, object: Value, names: [&str; N]) -> Result<[Option<Value>; N], BadJob> {
        let node = self.nodes[object as usize];
        if node.kind != Kind::Object {
            return Err(BadJob);
        }
        let mut found = [None; N];
        let mut at = object + 1;
        while at < node.next {
            let name = self.text(at)?;
            let value = self.nodes[at as usize + 1];
            for (place, wanted) in found.iter_mut().zip(names) {
                if name == wanted.as_bytes() {
                    *place = (value.kind != Kind::Null).then_some(at + 1);
                }
            }
            at = value.next;
        }
        Ok(found)
    }
}

pub struct Items<'a> {
    nodes: &'a [Node],
    at: u32,
    end: u32,
}

impl Iterator for Items<'_> {
    type Item = Value;

    fn next(&mut self) -> Option<Value> {
        let value = self.at;
        if value == self.end {
            return None;
        }
        self.at = self.nodes[value as usize].next;
        Some(value)
    }
}

struct Parser<'a> {
    text: &'a [u8],
    at: usize,
    escaped: Vec<u8>,
    nodes: Vec<Node>,
}

impl Parser<'_> {
    /// The next byte that is no blank, and 0 at the end.
    fn peek(&mut self) -> u8 {
        loop {
            match self.text.get(self.at) {
                Some(b' ' | b'\n' | b'\r' | b'\t') => self.at += 1,
                Some(&byte) => return byte,
                None => return 0,
            }
        }
    }

    fn push(&mut self, kind: Kind, first: usize, second: usize) {
        let next = self.nodes.len() as u32 + 1;
        self.nodes.push(Node { kind, first: first as u32, second: second as u32, next });
    }

    fn value(&mut self, nested: u32) -> Result<(), BadJob> {
        match self.peek() {
            b'"' => self.string(),
            b'0'..=b'9' | b'-' => self.number(),
            b'{' => self.inside(Kind::Object, b'}', nested + 1),
            b'[' => self.inside(Kind::List, b']', nested + 1),
            b't' => self.word(b"true", Kind::True),
            b'f' => self.word(b"false", Kind::False),
            b'n' => self.word(b"null", Kind::Null),
            _ => Err(BadJob),
        }
    }

    fn word(&mut self, word: &[u8], kind: Kind) -> Result<(), BadJob> {
        if !self.text[self.at..].starts_with(word) {
            return Err(BadJob);
        }
        self.at += word.len();
        self.push(kind, 0, 0);
        Ok(())
    }

    /// The items of a list, or the members of an object, each with its name in front.
    fn inside(&mut self, kind: Kind, end: u8, nested: u32) -> Result<(), BadJob> {
        if nested > MOST_NESTED {
            return Err(BadJob);
        }
        let whole = self.nodes.len();
        self.push(kind, 0, 0);
        self.at += 1;
        if self.peek() == end {
            self.at += 1;
            return Ok(());
        }
        loop {
            if kind == Kind::Object {
                if self.peek() != b'"' {
                    return Err(BadJob);
                }
                self.string()?;
                if self.peek() != b':' {
                    return Err(BadJob);
                }
                self.at += 1;
            }
            self.value(nested)?;
            let byte = self.peek();
            self.at += 1;
            if byte == end {
                self.nodes[whole].next = self.nodes.len() as u32;
                return Ok(());
            }
            if byte != b',' {
                return Err(BadJob);
            }
        }
    }

    fn string(&mut self) -> Result<(), BadJob> {
        let first = self.at + 1;
        let end = self.special(first);
        if self.text.get(end) == Some(&b'"') {
            self.push(Kind::Plain, first, end);
            self.at = end + 1;
            return Ok(());
        }
        self.escaped_string(first, end)
    }

    /// The first quote or backslash from a place on, eight bytes at a time.
    fn special(&self, from: usize) -> usize {
        let mut at = from;
        while let Some(eight) = self.text.get(at..at + 8) {
            let word = u64::from_le_bytes(eight.try_into().expect("eight bytes"));
            let found = zeros(word ^ (ONES * u64::from(b'"'))) | zeros(word ^ (ONES * u64::from(b'\\')));
            if found != 0 {
                return at + found.trailing_zeros() as usize / 8;
            }
            at += 8;
        }
        while at < self.text.len() && self.text[at] != b'"' && self.text[at] != b'\\' {
            at += 1;
        }
        at
    }

    fn escaped_string(&mut self, first: usize, escape: usize) -> Result<(), BadJob> {
        let begin = self.escaped.len();
        let (mut from, mut at) = (first, escape);
        loop {
            self.escaped.extend_from_slice(&self.text[from..at]);
            match self.text.get(at) {
                Some(b'"') => break,
                Some(_) => from = self.unescape(at + 1)?,
                None => return Err(BadJob),
            }
            at = self.special(from);
        }
        self.at = at + 1;
        self.push(Kind::Escaped, begin, self.escaped.len());
        Ok(())
    }

    /// Writes what is meant by the escape behind a backslash, and gives the place behind it.
    fn unescape(&mut self, at: usize) -> Result<usize, BadJob> {
        let byte = match self.text.get(at).ok_or(BadJob)? {
            b'u' => return self.unescape_unit(at + 1),
            b'n' => b'\n',
            b't' => b'\t',
            b'r' => b'\r',
            b'b' => 8,
            b'f' => 12,
            &byte => byte,
        };
        self.escaped.push(byte);
        Ok(at + 1)
    }

    fn unit(&self, at: usize) -> Result<u32, BadJob> {
        let digits = self.text.get(at..at + 4).and_then(|it| std::str::from_utf8(it).ok()).ok_or(BadJob)?;
        u32::from_str_radix(digits, 16).map_err(|_| BadJob)
    }

    fn unescape_unit(&mut self, at: usize) -> Result<usize, BadJob> {
        let (mut code, mut end) = (self.unit(at)?, at + 4);
        if (0xd800..0xdc00).contains(&code) && self.text[end..].starts_with(b"\\u") {
            code = 0x10000 + ((code - 0xd800) << 10) + self.unit(end + 2)?.checked_sub(0xdc00).ok_or(BadJob)?;
            end += 6;
        }
        let letter = char::from_u32(code).ok_or(BadJob)?;
        self.escaped.extend_from_slice(letter.encode_utf8(&mut [0; 4]).as_bytes());
        Ok(end)
    }

    fn number(&mut self) -> Result<(), BadJob> {
        let (first, mut whole) = (self.at, Some(0u64));
        while let Some(byte) = self.text.get(self.at) {
            match byte {
                b'0'..=b'9' => {
                    let digit = u64::from(byte - b'0');
                    whole = whole.and_then(|it| it.checked_mul(10)).and_then(|it| it.checked_add(digit));
                }
                b'-' | b'+' | b'.' | b'e' | b'E' => whole = None,
                _ => break,
            }
            self.at += 1;
        }
        match whole {
            Some(it) => self.push(Kind::Whole, it as u32 as usize, (it >> 32) as usize),
            None => self.push(Kind::Other, first, self.at),
        }
        Ok(())
    }
}

const ONES: u64 = 0x0101_0101_0101_0101;

/// The highest bit of each byte that is 0, up to the first of them; bits behind it say nothing.
fn zeros(word: u64) -> u64 {
    word.wrapping_sub(ONES) & !word & (ONES << 7)
}
