//! The records that are measured, written through either writer.

/// The calls that the records need. Every call must be accepted.
pub trait Writer {
    fn register(&mut self, name: &str);
    fn open(&mut self, name: Option<&str>, object: bool);
    fn close(&mut self);
    fn boolean(&mut self, name: Option<&str>, x: bool);
    fn int8(&mut self, name: Option<&str>, x: i8);
    fn int32(&mut self, name: Option<&str>, x: i32);
    fn int64(&mut self, name: Option<&str>, x: i64);
    fn timestamp(&mut self, name: Option<&str>, micros: i64);
    fn decimal4(&mut self, name: Option<&str>, x: i32, scale: u8);
    fn decimal8(&mut self, name: Option<&str>, x: i64, scale: u8);
    fn text(&mut self, name: Option<&str>, x: &str);
    fn finish(&mut self);
}

/// One scan of a tag: eight fields of mixed types.
pub struct Scan {
    pub tag: String,
    pub zone: &'static str,
    pub antenna: i8,
    pub reads: i32,
    pub strength: i32,
    pub price: i64,
    pub seen: i64,
    pub moving: bool,
}

pub fn scans(n: usize) -> Vec<Scan> {
    let zones = ["gate", "dock 7", "cold store", "Kühlraum"];
    let scan = |i: usize| Scan {
        tag: format!("{:024X}", (i as u128 + 1) * 0x9E37_79B9_7F4A_7C15),
        zone: zones[i % zones.len()],
        antenna: (i % 16) as i8,
        reads: (i * 37 % 100_000) as i32,
        strength: -((i * 13 % 9_000) as i32) - 100,
        price: i as i64 * 1_999 - 5_000_000,
        seen: 1_760_000_000_000_000 + i as i64 * 12_345,
        moving: i % 3 == 0,
    };
    (0..n).map(scan).collect()
}

pub fn write_scan<W: Writer>(w: &mut W, s: &Scan) {
    w.open(None, true);
    w.text(Some("tag"), &s.tag);
    w.text(Some("zone"), s.zone);
    w.int8(Some("antenna"), s.antenna);
    w.int32(Some("reads"), s.reads);
    w.decimal4(Some("strength"), s.strength, 2);
    w.decimal8(Some("price"), s.price, 4);
    w.timestamp(Some("seen"), s.seen);
    w.boolean(Some("moving"), s.moving);
    w.close();
    w.finish();
}

/// In which order the names of an object come.
#[derive(Clone, Copy, PartialEq)]
pub enum Order {
    Rising,
    Falling,
    Mixed,
}

/// n different names of `size` bytes; they differ at their ends.
pub fn names(n: usize, size: usize, order: Order) -> Vec<String> {
    let place = |i: usize| match order {
        Order::Rising => i,
        Order::Falling => n - 1 - i,
        Order::Mixed => i * 29 % n.next_power_of_two(),
    };
    (0..n).map(|i| format!("{:f>size$}", format!("{:04}", place(i)))).collect()
}

pub fn write_fields<W: Writer>(w: &mut W, names: &[String], registered: bool) {
    if registered {
        for name in names {
            w.register(name);
        }
    }
    w.open(None, true);
    for (i, name) in names.iter().enumerate() {
        w.int32(Some(name), i as i32);
    }
    w.close();
    w.finish();
}

/// Objects in each other, each with one number before its child.
pub fn write_depth<W: Writer>(w: &mut W, depth: usize) {
    w.open(None, true);
    for i in 1..depth {
        w.int32(Some("id"), i as i32);
        w.open(Some("child"), true);
    }
    w.int32(Some("id"), 0);
    for _ in 0..depth {
        w.close();
    }
    w.finish();
}

/// Objects in each other, each with fields of these names and its child behind them.
pub fn write_wide<W: Writer>(w: &mut W, depth: usize, names: &[String]) {
    for level in 0..depth {
        w.open((level > 0).then_some("child"), true);
        for (i, name) in names.iter().enumerate() {
            w.int32(Some(name), i as i32);
        }
    }
    for _ in 0..depth {
        w.close();
    }
    w.finish();
}

pub fn write_list<W: Writer>(w: &mut W, n: usize) {
    w.open(None, false);
    for i in 0..n {
        w.int64(None, i as i64 * 1_000_003);
    }
    w.close();
    w.finish();
}
