// Licensed to the Apache Software Foundation (ASF) under one
// or more contributor license agreements.  See the NOTICE file
// distributed with this work for additional information
// regarding copyright ownership.  The ASF licenses this file
// to you under the Apache License, Version 2.0 (the
// "License"); you may not use this file except in compliance
// with the License.  You may obtain a copy of the License at
//
//   http://www.apache.org/licenses/LICENSE-2.0
//
// Unless required by applicable law or agreed to in writing,
// software distributed under the License is distributed on an
// "AS IS" BASIS, WITHOUT WARRANTIES OR CONDITIONS OF ANY
// KIND, either express or implied.  See the License for the
// specific language governing permissions and limitations
// under the License.

// Derived from the examples in the comments of parquet-variant 60.1.0, src/variant.rs and src/builder.rs (see NOTICE). Changed: made by
// the calls here, the bytes checked.
//! The examples in the comments of parquet-variant 60.1.0. One states its bytes (src/variant.rs, "HI"); of those of `VariantBuilder`
//! (src/builder.rs), which state none, the bytes are what that crate wrote when it was run.
use variant_writer::{Refusal, Variant, VariantBuilder};

/// The value and the dictionary that the calls give, as hex.
fn written(calls: impl FnOnce(&mut VariantBuilder) -> Result<(), Refusal>) -> (String, String) {
    let mut b = VariantBuilder::new();
    calls(&mut b).unwrap();
    let mut out = [0; 64];
    let n = b.finish(&mut out).unwrap();
    let hex = |bytes: &[u8]| bytes.iter().map(|byte| format!("{byte:02x}")).collect();
    (hex(b.value()), hex(&out[..n]))
}

fn pair(value: &str, dictionary: &str) -> (String, String) {
    (value.into(), dictionary.into())
}

#[test]
fn stated_bytes() {
    assert_eq!(written(|b| b.append_value(None, "HI")), pair("094849", "010000"));
}

#[test]
fn primitive() {
    assert_eq!(written(|b| b.append_value(None, Variant::Int8(42))), pair("0c2a", "010000"));
    assert_eq!(written(|b| b.append_value(None, 42i8)), pair("0c2a", "010000"));
}

#[test]
fn object() {
    let names = written(|b| {
        b.new_object(None)?;
        b.append_value(Some(b"first_name"), "Jiaying")?;
        b.append_value(Some(b"last_name"), "Li")?;
        b.close()
    });
    let dictionary = "1102000a1366697273745f6e616d656c6173745f6e616d65";
    assert_eq!(names, pair("0202000100080b1d4a696179696e67094c69", dictionary));
}

#[test]
fn list() {
    let numbers = written(|b| {
        b.new_list(None)?;
        (1..=3i8).try_for_each(|n| b.append_value(None, n))?;
        b.close()
    });
    assert_eq!(numbers, pair("0303000204060c010c020c03", "010000"));
}

#[test]
fn list_of_objects() {
    let rows = written(|b| {
        b.new_list(None)?;
        for (id, kind) in [(1i32, "Cauliflower"), (2, "Beets")] {
            b.new_object(None)?;
            b.append_value(Some(b"id"), id)?;
            b.append_value(Some(b"type"), kind)?;
            b.close()?;
        }
        b.close()
    });
    let value = "030200182a0202000100051114010000002d4361756c69666c6f7765720202000100050b1402000000154265657473";
    assert_eq!(rows, pair(value, "1102000206696474797065"));
}

#[test]
fn unique_fields() {
    let mut b = VariantBuilder::new();
    b.reset(true);
    b.new_object(None).unwrap();
    b.append_value(Some(b"a"), 1i32).unwrap();
    assert_eq!(b.append_value(Some(b"a"), 2i32), Err(Refusal::NameLive));
}

/// The names given beforehand keep their ids, 0 to 2, also where the comment says that a field has id 3.
#[test]
fn names_beforehand() {
    let player = |name: &'static str, age: i32, score: f64| {
        written(|b| {
            for field in ["age", "name", "score"] {
                b.add_field_name(field.as_bytes())?;
            }
            b.new_object(None)?;
            b.append_value(Some(b"name"), name)?;
            b.append_value(Some(b"age"), age)?;
            b.append_value(Some(b"score"), score)?;
            b.close()
        })
    };
    let dictionary = "11030003070c6167656e616d6573636f7265";
    assert_eq!(player("Alice", 30, 95.5), pair("020300010206000b1415416c696365141e0000001c0000000000e05740", dictionary));
    assert_eq!(player("Bob", 25, 88.0), pair("0203000102040009120d426f6214190000001c0000000000005640", dictionary));
}
