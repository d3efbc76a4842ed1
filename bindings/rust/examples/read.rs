//! Records written before are read: a batch of two scans, each judged, then asked for a field, its fields and its first integer.
use variant_writer::{BatchReader, BatchWriter, Refusal, VariantBuilder};

fn main() -> Result<(), Refusal> {
    for record in BatchReader::new(written()?.as_bytes())? {
        let record = record?.read()?;
        println!("{} bytes, {} names", record.value().len(), record.names().len());
        for (name, part) in record.fields() {
            println!("  {} {:02x?}", String::from_utf8_lossy(name), part.value());
        }
        if let Some(inner) = record.field(b"place").and_then(|place| place.field(b"gate")) {
            println!("  its place's gate {:02x?}", inner.value());
        }
        match record.first_integer() {
            Some((id, number)) => println!("  the first integer is {number}, its name has id {id}"),
            None => println!("  no field is an integer"),
        }
    }
    Ok(())
}

/// A scan with a weight, and one without.
fn written() -> Result<BatchWriter, Refusal> {
    let mut batch = BatchWriter::new();
    for (tag, tenths) in [("999000000012345", Some(4125i16)), ("999000000012346", None)] {
        let mut builder = VariantBuilder::new();
        builder.new_object(None)?;
        builder.append_value(Some(b"tag"), tag)?;
        builder.new_object(Some(b"place"))?;
        builder.append_value(Some(b"gate"), 7i8)?;
        builder.close()?;
        if let Some(tenths) = tenths {
            builder.append_value(Some(b"weight"), tenths)?;
        }
        builder.close()?;
        let mut dictionary = [0; 64];
        let len = builder.finish(&mut dictionary)?;
        batch.add(&dictionary[..len], builder.value())?;
    }
    Ok(batch)
}
