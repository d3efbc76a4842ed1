//! One scan at a tag reader as one Variant: an object of eight fields, the last one a list; the same as the program crates/demo_scan.
//! The storage lent to the builder has room for this scan and no more.
use variant_writer::{listing, Refusal, Variant, VariantBuilder};

fn main() -> Result<(), Refusal> {
    let (mut value, mut text, mut ends, mut entries) = ([0; 78], [0; 52], [0; 8], [0; 16]);
    let mut builder = VariantBuilder::lend(&mut value, &mut text, &mut ends, &mut entries);
    builder.reset(true);
    scan(&mut builder)?;
    let mut dictionary = [0; 63];
    let written = builder.finish(&mut dictionary)?;
    let dictionary = &dictionary[..written];
    println!("value {}", hex(builder.value()));
    println!("dictionary {}", hex(dictionary));
    print!("{}", listing(builder.value(), dictionary).expect("a Variant"));
    Ok(())
}

fn scan(b: &mut VariantBuilder) -> Result<(), Refusal> {
    b.new_object(None)?;
    b.append_value(Some(b"tag"), "999000000012345")?;
    b.append_value(Some(b"weight"), Variant::Decimal4 { integer: 4125, scale: 1 })?;
    b.append_value(Some(b"sex"), Variant::ShortString(b"F"))?;
    b.append_value(Some(b"born"), Variant::Date(19_949))?;
    b.append_value(Some(b"scanned"), Variant::TimestampMicros(1_772_696_538_250_000))?;
    b.append_value(Some(b"temperature"), 38.6f32)?;
    b.append_value(Some(b"vaccinated"), true)?;
    b.new_list(Some(b"readings"))?;
    for tenths in [4131i16, 4128, 4125] {
        b.append_value(None, tenths)?;
    }
    b.close()?;
    b.close()
}

fn hex(bytes: &[u8]) -> String {
    bytes.iter().map(|b| format!("{b:02x}")).collect()
}
