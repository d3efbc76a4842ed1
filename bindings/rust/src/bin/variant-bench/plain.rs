//! A plain Rust writer of the same bytes, to measure against: growing vectors, names found by binary search in a sorted vector, an
//! object's fields in one vector sorted at its close. Nothing is proved of it. It has no roll back.

#[derive(Clone, Copy, Debug, PartialEq, Eq)]
pub enum Error {
    NothingOpen,
    StillOpen,
    Misnamed,
    SecondTop,
    OutOfRange,
    Duplicate,
    TooDeep,
    Empty,
}

struct Container {
    value: usize,
    entries: usize,
    object: bool,
}

#[derive(Default)]
pub struct PlainBuilder {
    value: Vec<u8>,
    text: Vec<u8>,
    ends: Vec<usize>,
    /// The ids in ascending order of their names.
    by_name: Vec<u32>,
    sorted: bool,
    unique: bool,
    /// The fields (id, offset) or elements (0, offset) of all open containers; an object's by id.
    entries: Vec<(u32, u32)>,
    open: Vec<Container>,
    dictionary: Vec<u8>,
}

fn width(n: usize) -> usize {
    match n {
        0..=0xff => 1,
        0x100..=0xffff => 2,
        0x1_0000..=0xff_ffff => 3,
        _ => 4,
    }
}

fn put(buf: &mut [u8], at: usize, n: usize, size: usize) -> usize {
    buf[at..at + size].copy_from_slice(&n.to_le_bytes()[..size]);
    at + size
}

fn name_of<'a>(text: &'a [u8], ends: &[usize], id: u32) -> &'a [u8] {
    let id = id as usize;
    let start = if id == 0 { 0 } else { ends[id - 1] };
    &text[start..ends[id]]
}

impl PlainBuilder {
    pub fn new(unique: bool) -> Self {
        PlainBuilder { unique, ..PlainBuilder::default() }
    }

    /// Empty again, with the room that it has.
    pub fn clear(&mut self) {
        self.value.clear();
        self.text.clear();
        self.ends.clear();
        self.by_name.clear();
        self.sorted = false;
        self.entries.clear();
        self.open.clear();
        self.dictionary.clear();
    }

    pub fn value(&self) -> &[u8] {
        &self.value
    }

    pub fn dictionary(&self) -> &[u8] {
        &self.dictionary
    }

    pub fn add_field_name(&mut self, name: &str) -> Result<(), Error> {
        if !self.open.is_empty() {
            return Err(Error::StillOpen);
        }
        self.id_of(name);
        Ok(())
    }

    /// The name's id, and whether the name is new.
    fn id_of(&mut self, name: &str) -> (u32, bool) {
        let (text, ends) = (&self.text, &self.ends);
        let place = self.by_name.binary_search_by(|&id| name_of(text, ends, id).cmp(name.as_bytes()));
        match place {
            Ok(at) => (self.by_name[at], false),
            Err(at) => (self.add(at, name), true),
        }
    }

    fn add(&mut self, at: usize, name: &str) -> u32 {
        let id = self.ends.len() as u32;
        // Above the one before: only then does it follow it in the order.
        self.sorted = id == 0 || (self.sorted && at == id as usize);
        self.by_name.insert(at, id);
        self.text.extend_from_slice(name.as_bytes());
        self.ends.push(self.text.len());
        id
    }

    /// The entry of a value that starts at the end.
    fn enter(&mut self, name: Option<&str>) -> Result<(), Error> {
        let Some(&Container { value, entries, object }) = self.open.last() else {
            return self.enter_top(name);
        };
        let offset = (self.value.len() - value) as u32;
        match name {
            None if !object => self.entries.push((0, offset)),
            Some(name) if object => return self.enter_field(entries, name, offset),
            _ => return Err(Error::Misnamed),
        }
        Ok(())
    }

    fn enter_top(&self, name: Option<&str>) -> Result<(), Error> {
        if name.is_some() {
            return Err(Error::Misnamed);
        }
        if !self.value.is_empty() {
            return Err(Error::SecondTop);
        }
        Ok(())
    }

    fn enter_field(&mut self, from: usize, name: &str, offset: u32) -> Result<(), Error> {
        let (id, new) = self.id_of(name);
        if new {
            self.entries.push((id, offset));
            return Ok(());
        }
        match self.entries[from..].binary_search_by_key(&id, |e| e.0) {
            Ok(_) if self.unique => return Err(Error::Duplicate),
            Ok(at) => self.entries[from + at].1 = offset,
            Err(at) => self.entries.insert(from + at, (id, offset)),
        }
        Ok(())
    }

    /// A scalar of a type code and its payload.
    #[inline]
    fn fixed<const N: usize>(&mut self, name: Option<&str>, code: u8, payload: [u8; N]) -> Result<(), Error> {
        self.enter(name)?;
        self.value.push(code << 2);
        self.value.extend_from_slice(&payload);
        Ok(())
    }

    pub fn append_bool(&mut self, name: Option<&str>, x: bool) -> Result<(), Error> {
        self.fixed(name, if x { 1 } else { 2 }, [])
    }

    pub fn append_i8(&mut self, name: Option<&str>, x: i8) -> Result<(), Error> {
        self.fixed(name, 3, x.to_le_bytes())
    }

    pub fn append_i32(&mut self, name: Option<&str>, x: i32) -> Result<(), Error> {
        self.fixed(name, 5, x.to_le_bytes())
    }

    pub fn append_i64(&mut self, name: Option<&str>, x: i64) -> Result<(), Error> {
        self.fixed(name, 6, x.to_le_bytes())
    }

    pub fn append_timestamp_micros(&mut self, name: Option<&str>, x: i64) -> Result<(), Error> {
        self.fixed(name, 12, x.to_le_bytes())
    }

    pub fn append_decimal4(&mut self, name: Option<&str>, x: i32, scale: u8) -> Result<(), Error> {
        if x.unsigned_abs() > 999_999_999 || scale > 38 {
            return Err(Error::OutOfRange);
        }
        let [a, b, c, d] = x.to_le_bytes();
        self.fixed(name, 8, [scale, a, b, c, d])
    }

    pub fn append_decimal8(&mut self, name: Option<&str>, x: i64, scale: u8) -> Result<(), Error> {
        if x.unsigned_abs() > 999_999_999_999_999_999 || scale > 38 {
            return Err(Error::OutOfRange);
        }
        let [a, b, c, d, e, f, g, h] = x.to_le_bytes();
        self.fixed(name, 9, [scale, a, b, c, d, e, f, g, h])
    }

    pub fn append_text(&mut self, name: Option<&str>, x: &str) -> Result<(), Error> {
        self.enter(name)?;
        if x.len() < 64 {
            self.value.push((x.len() as u8) << 2 | 1);
        } else {
            self.value.push(16 << 2);
            self.value.extend_from_slice(&(x.len() as u32).to_le_bytes());
        }
        self.value.extend_from_slice(x.as_bytes());
        Ok(())
    }

    pub fn open(&mut self, name: Option<&str>, object: bool) -> Result<(), Error> {
        if self.open.len() == 64 {
            return Err(Error::TooDeep);
        }
        self.enter(name)?;
        self.open.push(Container { value: self.value.len(), entries: self.entries.len(), object });
        Ok(())
    }

    pub fn close(&mut self) -> Result<(), Error> {
        let c = self.open.pop().ok_or(Error::NothingOpen)?;
        if c.object {
            self.close_object(c);
        } else {
            self.close_list(c);
        }
        Ok(())
    }

    fn close_object(&mut self, c: Container) {
        let (text, ends) = (&self.text, &self.ends);
        let fields = &mut self.entries[c.entries..];
        let n = fields.len();
        let id_width = width(fields.last().map_or(0, |e| e.0) as usize);
        fields.sort_unstable_by(|a, b| name_of(text, ends, a.0).cmp(name_of(text, ends, b.0)));
        let size = self.value.len() - c.value;
        let offset_width = width(size);
        let ids = c.value + if n > 255 { 5 } else { 2 };
        let offsets = ids + n * id_width;
        let mut at = self.make_room(c.value, offsets + (n + 1) * offset_width - c.value);
        let large = u8::from(n > 255);
        at = self.put_front(at, 2 | ((offset_width - 1) << 2 | (id_width - 1) << 4) as u8 | large << 6, n);
        for e in &self.entries[c.entries..] {
            at = put(&mut self.value, at, e.0 as usize, id_width);
        }
        self.put_offsets(at, &c, size, offset_width);
    }

    fn close_list(&mut self, c: Container) {
        let n = self.entries.len() - c.entries;
        let size = self.value.len() - c.value;
        let offset_width = width(size);
        let front = if n > 255 { 5 } else { 2 };
        let at = self.make_room(c.value, front + (n + 1) * offset_width);
        let at = self.put_front(at, 3 | ((offset_width - 1) << 2) as u8 | u8::from(n > 255) << 4, n);
        self.put_offsets(at, &c, size, offset_width);
    }

    /// Room for a header of `by` bytes before the data.
    fn make_room(&mut self, start: usize, by: usize) -> usize {
        let used = self.value.len();
        self.value.resize(used + by, 0);
        self.value.copy_within(start..used, start + by);
        start
    }

    fn put_front(&mut self, at: usize, first: u8, n: usize) -> usize {
        self.value[at] = first;
        put(&mut self.value, at + 1, n, if n > 255 { 4 } else { 1 })
    }

    fn put_offsets(&mut self, mut at: usize, c: &Container, size: usize, offset_width: usize) {
        for e in &self.entries[c.entries..] {
            at = put(&mut self.value, at, e.1 as usize, offset_width);
        }
        put(&mut self.value, at, size, offset_width);
        self.entries.truncate(c.entries);
    }

    pub fn finish(&mut self) -> Result<(), Error> {
        if !self.open.is_empty() {
            return Err(Error::StillOpen);
        }
        if self.value.is_empty() {
            return Err(Error::Empty);
        }
        let n = self.ends.len();
        let size = width(n.max(self.text.len()));
        let out = &mut self.dictionary;
        out.resize(1 + size * (n + 2), 0);
        out[0] = 1 | u8::from(self.sorted) << 4 | ((size - 1) as u8) << 6;
        let mut at = put(out, 1, n, size) + size;
        for &end in &self.ends {
            at = put(out, at, end, size);
        }
        out.extend_from_slice(&self.text);
        Ok(())
    }
}
