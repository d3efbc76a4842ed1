// The names are derived from the enum `Variant` of parquet-variant 60.1.0, src/variant.rs (see NOTICE). Changed: scalars only; dates, times
// and timestamps are whole numbers, texts are bytes.
/// A scalar. Days, microseconds and nanoseconds count from 1970, a time's microseconds from midnight; a float's bits are kept.
///
/// `Text` is plain text, stored as short text up to 63 bytes and as a String above; `ShortString` and `String` are the explicit
/// forms. Texts are bytes here: what is not UTF-8 is refused (8). A plain `&str` becomes `Text`, a `&[u8]` `Binary`.
#[derive(Clone, Copy, Debug, PartialEq)]
pub enum Variant<'a> {
    Null,
    BooleanTrue,
    BooleanFalse,
    Int8(i8),
    Int16(i16),
    Int32(i32),
    Int64(i64),
    Double(f64),
    Decimal4 { integer: i32, scale: u8 },
    Decimal8 { integer: i64, scale: u8 },
    Decimal16 { integer: i128, scale: u8 },
    Date(i32),
    TimestampMicros(i64),
    TimestampNtzMicros(i64),
    Float(f32),
    Binary(&'a [u8]),
    String(&'a [u8]),
    Time(i64),
    TimestampNanos(i64),
    TimestampNtzNanos(i64),
    Uuid([u8; 16]),
    ShortString(&'a [u8]),
    Text(&'a [u8]),
}

/// A scalar as the linked calls take it (`crates/ffi/specs/Scalars.antt`). Bytes have a kind, 0 to 3; the linked call refuses any other with 7.
pub(crate) enum Numbers<'a> {
    Fixed { code: u8, z: i64, low: u64, scale: u8 },
    Bytes(u8, &'a [u8]),
    Uuid([u8; 16]),
}

impl<'a> Variant<'a> {
    pub(crate) fn numbers(self) -> Numbers<'a> {
        use Variant::*;
        match self {
            Null => fixed(0, 0),
            BooleanTrue => fixed(1, 0),
            BooleanFalse => fixed(2, 0),
            Int8(n) => fixed(3, n.into()),
            Int16(n) => fixed(4, n.into()),
            Int32(n) => fixed(5, n.into()),
            Int64(n) => fixed(6, n),
            Double(x) => bits(7, x.to_bits()),
            Decimal4 { integer, scale } => decimal(8, integer.into(), 0, scale),
            Decimal8 { integer, scale } => decimal(9, integer, 0, scale),
            Decimal16 { integer, scale } => decimal(10, (integer >> 64) as i64, integer as u64, scale),
            Date(n) => fixed(11, n.into()),
            TimestampMicros(n) => fixed(12, n),
            TimestampNtzMicros(n) => fixed(13, n),
            Float(x) => bits(14, x.to_bits().into()),
            Time(n) => fixed(17, n),
            TimestampNanos(n) => fixed(18, n),
            TimestampNtzNanos(n) => fixed(19, n),
            Binary(b) => Numbers::Bytes(0, b),
            String(b) => Numbers::Bytes(1, b),
            ShortString(b) => Numbers::Bytes(2, b),
            Text(b) => Numbers::Bytes(3, b),
            Uuid(u) => Numbers::Uuid(u),
        }
    }
}

fn fixed<'a>(code: u8, z: i64) -> Numbers<'a> {
    decimal(code, z, 0, 0)
}

fn bits<'a>(code: u8, low: u64) -> Numbers<'a> {
    decimal(code, 0, low, 0)
}

fn decimal<'a>(code: u8, z: i64, low: u64, scale: u8) -> Numbers<'a> {
    Numbers::Fixed { code, z, low, scale }
}

impl From<()> for Variant<'_> {
    fn from((): ()) -> Self {
        Variant::Null
    }
}

impl From<bool> for Variant<'_> {
    fn from(b: bool) -> Self {
        if b {
            Variant::BooleanTrue
        } else {
            Variant::BooleanFalse
        }
    }
}

impl<'a> From<&'a str> for Variant<'a> {
    fn from(text: &'a str) -> Self {
        Variant::Text(text.as_bytes())
    }
}

macro_rules! from {
    ($($t:ty => $v:ident),*) => {
        $(impl<'a> From<$t> for Variant<'a> {
            fn from(x: $t) -> Self {
                Variant::$v(x)
            }
        })*
    };
}

from!(i8 => Int8, i16 => Int16, i32 => Int32, i64 => Int64, f32 => Float, f64 => Double, &'a [u8] => Binary);
