//! The calls of the records on both writers. A refused call ends the program.
use crate::cases::Writer;
use crate::plain::PlainBuilder;
use variant_writer::{Variant, VariantBuilder};

impl Writer for PlainBuilder {
    fn register(&mut self, name: &str) {
        self.add_field_name(name).unwrap()
    }
    fn open(&mut self, name: Option<&str>, object: bool) {
        PlainBuilder::open(self, name, object).unwrap()
    }
    fn close(&mut self) {
        PlainBuilder::close(self).unwrap()
    }
    fn boolean(&mut self, name: Option<&str>, x: bool) {
        self.append_bool(name, x).unwrap()
    }
    fn int8(&mut self, name: Option<&str>, x: i8) {
        self.append_i8(name, x).unwrap()
    }
    fn int32(&mut self, name: Option<&str>, x: i32) {
        self.append_i32(name, x).unwrap()
    }
    fn int64(&mut self, name: Option<&str>, x: i64) {
        self.append_i64(name, x).unwrap()
    }
    fn timestamp(&mut self, name: Option<&str>, micros: i64) {
        self.append_timestamp_micros(name, micros).unwrap()
    }
    fn decimal4(&mut self, name: Option<&str>, x: i32, scale: u8) {
        self.append_decimal4(name, x, scale).unwrap()
    }
    fn decimal8(&mut self, name: Option<&str>, x: i64, scale: u8) {
        self.append_decimal8(name, x, scale).unwrap()
    }
    fn text(&mut self, name: Option<&str>, x: &str) {
        self.append_text(name, x).unwrap()
    }
    fn finish(&mut self) {
        PlainBuilder::finish(self).unwrap()
    }
}

/// The verified writer's storage: value bytes, name bytes, names, entries, and the dictionary's bytes.
#[derive(Clone, Copy)]
pub struct Sizes {
    pub value: usize,
    pub text: usize,
    pub names: usize,
    pub entries: usize,
    pub out: usize,
}

/// The verified writer and the dictionary that it wrote.
pub struct Verified {
    builder: VariantBuilder<'static>,
    out: Vec<u8>,
    written: usize,
}

impl Verified {
    pub fn new(s: &Sizes) -> Self {
        let mut builder = VariantBuilder::with_capacity(s.value, s.text, s.names, s.entries);
        builder.reset(true);
        Verified { builder, out: vec![0; s.out], written: 0 }
    }

    pub fn clear(&mut self) {
        self.builder.reset(true);
    }

    pub fn value(&self) -> &[u8] {
        self.builder.value()
    }

    pub fn dictionary(&self) -> &[u8] {
        &self.out[..self.written]
    }

    fn append<'v>(&mut self, name: Option<&str>, x: impl Into<Variant<'v>>) {
        self.builder.append_value(name.map(str::as_bytes), x).unwrap()
    }
}

impl Writer for Verified {
    fn register(&mut self, name: &str) {
        self.builder.add_field_name(name.as_bytes()).unwrap()
    }
    fn open(&mut self, name: Option<&str>, object: bool) {
        let name = name.map(str::as_bytes);
        let done = if object { self.builder.new_object(name) } else { self.builder.new_list(name) };
        done.unwrap()
    }
    fn close(&mut self) {
        self.builder.close().unwrap()
    }
    fn boolean(&mut self, name: Option<&str>, x: bool) {
        self.append(name, x)
    }
    fn int8(&mut self, name: Option<&str>, x: i8) {
        self.append(name, x)
    }
    fn int32(&mut self, name: Option<&str>, x: i32) {
        self.append(name, x)
    }
    fn int64(&mut self, name: Option<&str>, x: i64) {
        self.append(name, x)
    }
    fn timestamp(&mut self, name: Option<&str>, micros: i64) {
        self.append(name, Variant::TimestampMicros(micros))
    }
    fn decimal4(&mut self, name: Option<&str>, integer: i32, scale: u8) {
        self.append(name, Variant::Decimal4 { integer, scale })
    }
    fn decimal8(&mut self, name: Option<&str>, integer: i64, scale: u8) {
        self.append(name, Variant::Decimal8 { integer, scale })
    }
    fn text(&mut self, name: Option<&str>, x: &str) {
        self.append(name, x)
    }
    fn finish(&mut self) {
        self.written = self.builder.finish(&mut self.out).unwrap()
    }
}
