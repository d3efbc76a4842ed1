//! The program variant-script: answers, the listing, bad lines.
use std::io::Write;
use std::process::{Command, Stdio};

/// Standard output, standard error and the exit status.
fn run(words: &[&str], script: &str) -> (String, String, i32) {
    let mut child = Command::new(env!("CARGO_BIN_EXE_variant-script"))
        .args(words)
        .stdin(Stdio::piped())
        .stdout(Stdio::piped())
        .stderr(Stdio::piped())
        .spawn()
        .unwrap();
    child.stdin.take().unwrap().write_all(script.as_bytes()).unwrap();
    let out = child.wait_with_output().unwrap();
    let text = |b| String::from_utf8(b).unwrap();
    (text(out.stdout), text(out.stderr), out.status.code().unwrap())
}

fn answers(script: &str) -> String {
    let (out, err, status) = run(&[], script);
    assert_eq!((&err[..], status), ("", 0));
    out
}

#[test]
fn calls() {
    let script = "# outcome 8\nnew\nopen object\nappend name=62 int8 1\nappend name=61 int8 2 # a\n\nclose\nfinish\nfinish\n";
    assert_eq!(answers(script), "new\nok\nok\nok\nok\nok value=020201000200040c010c02 dict=01020001026261\nrefused 2\n");
    let script = "new fill=18446744073709551615 value=3 namebytes=9\nregister 3x6162\nregister\nappend - short 2x63\ndumpvalue\nfinish";
    assert_eq!(answers(script), "new\nok\nok\nok\nvalue 096363\nok value=096363 dict=0102000606616261626162\n");
}

#[test]
fn spellings() {
    let script = "new value=+1_0 namebytes=007\r\nappend double 0X_1f\rdumpvalue\r\r\n\tclose\x1c#nothing open\r";
    assert_eq!(answers(script), "new\nok\nvalue 1c1f0000000000000000\nrefused 3\n");
}

#[test]
fn pokes() {
    let script = "new\npoke container 0 all 0 0 0 0 object 1 replaced 7 8\npoke open 1\npoke nameend 0 1\npoke namebytes 0 61\n\
        poke names_used 1\npoke namebytes_used 1\npoke entry 0 0 0\npoke entries_used 1\ndump\nappend name=61 null\npoke open 65\ndump\nclose\n";
    let answer = answers(script);
    let lines: Vec<&str> = answer.lines().skip(9).collect();
    let counts = "value_used=0 names_used=1 namebytes_used=1 entries_used=1";
    let record = "open=1 unique=0 sorted=- finished=0 undo_used=0 floor=1 c0=object:0,0,0,0:1:-:count=-:undo=0:marks=0";
    assert_eq!(lines[0], format!("dump {counts} {record} value= names=61 e0=0@0 u="));
    assert_eq!(lines[1], "refused 10");
    assert!(lines[3].starts_with(&format!("dump {counts} open=65 ")) && lines[3].ends_with(" broken"));
    assert_eq!(lines[4], "refused 1");
}

#[test]
fn lists() {
    let script = "new entries=0\nopen list\nappend null\nopen list\nappend int8 5\ndump\npoke container 0 count 3\ndump\nclose\n\
        poke container 0 all 0 0 0 0 list 0 new\nrollback\npoke container 0 count +2\npoke container 1 count 2\nclose\npoke container 1 count 1\n\
        close\nclose\nfinish\n";
    let counts = "value_used=3 names_used=0 namebytes_used=0 entries_used=0 open=2 unique=0 sorted=- finished=0 undo_used=0 floor=1";
    let none = ":undo=0:marks=0";
    let containers = |n| format!("dump {counts} c0=list:0,0,0,0:0:-:count={n}{none} c1=list:1,0,0,0:0:new:count=1{none}");
    let first = format!("new\nok\nok\nok\nok\n{} value=000c05 names= e0=- e1=- u=\npoked\n", containers(2));
    let second = format!("{} broken\nrefused 1\npoked\nrefused 1\npoked\npoked\nrefused 1\npoked\nok\nok\n", containers(3));
    assert_eq!(answers(script), first + &second + "ok value=030200010700030100020c05 dict=010000\n");
}

/// The storage has room for one undo record.
#[test]
fn marks() {
    let dump = |value, undo, marks, rest| {
        format!(
            "dump value_used={value} names_used=1 namebytes_used=1 entries_used=1 open=1 unique=0 sorted=- finished=0 undo_used={undo} \
             floor=1 c0=object:0,0,0,0:0:-:count=-:undo=0:marks={marks} {rest}"
        )
    };
    let first = dump(2, 1, 1, "m0.1=1,1,1,1,-,0:0 value=0004 names=61 e0=0@1 u=0@0");
    let second = dump(2, 1, 2, "m0.1=1,1,1,1,-,0:0 m0.2=3,1,1,1,-,1:1 broken");
    let third = dump(1, 0, 1, "m0.1=1,1,1,1,-,0:0 value=00 names=61 e0=0@0 u=");
    let fourth = dump(1, 0, 0, "value=00 names=61 e0=0@0 u=");
    let cases = [
        ("new undo=3", "new"),
        ("mark", "refused 22"),
        ("open object", "ok"),
        ("append name=61 null", "ok"),
        ("mark # 1", "ok"),
        ("append name=61 true", "ok"),
        ("dump", &first),
        ("append name=61 false", "refused 23"),
        ("mark", "ok"),
        ("return 3", "refused 22"),
        ("poke mark 0 2 value 3", "poked"),
        ("poke mark 0 2 unique 1", "poked"),
        ("dump", &second),
        ("return 01", "refused 1"),
        ("poke mark 0 2 value 2", "poked"),
        ("poke undo_used 2", "poked"),
        ("return 1", "refused 1"),
        ("poke undo_used 1", "poked"),
        ("poke undo 0 0 0", "poked"),
        ("return 01", "ok"),
        ("dump", &third),
        ("poke container 0 undo 1", "poked"),
        ("close", "refused 1"),
        ("poke container 0 undo 0", "poked"),
        ("poke container 0 marks 17", "poked"),
        ("close", "refused 1"),
        ("poke container 0 all 0 0 0 0 object 0 new", "poked"),
        ("dump", &fourth),
        ("close", "ok"),
        ("return 1", "refused 22"),
        ("finish", "ok value=020100000100 dict=1101000161"),
    ];
    let asked: String = cases.iter().map(|(line, _)| format!("{line}\n")).collect();
    let told: String = cases.iter().map(|(_, answer)| format!("{answer}\n")).collect();
    assert_eq!(answers(&asked), told);
}

#[test]
fn floors() {
    let script = "new floor=2\nopen object\nclose\nfinish\ndump\nnew\nopen list\npoke floor 3\nclose\npoke floor 5\ndump\nfinish\n";
    let counts = "value_used=4 names_used=0 namebytes_used=0 entries_used=0 open=0 unique=0 sorted=- finished=1 undo_used=0";
    let altered = "value_used=5 names_used=0 namebytes_used=0 entries_used=0 open=0 unique=0 sorted=- finished=0 undo_used=0";
    let first = format!("new\nok\nok\nok value=16000000 dict=4100000000\ndump {counts} floor=2 value=16000000 names= u=\n");
    let second = format!("new\nok\npoked\nok\npoked\ndump {altered} floor=5 broken\nrefused 1\n");
    assert_eq!(answers(script), first + &second);
}

#[test]
fn dates() {
    let script = "new\nopen list\nappend ymd 1970 1 1\nappend - ymdts 1969 12 31 86399999999\nappend ymdtsntz 1970 +1 0_1 256\n\
        append ymd 1900 2 29\nappend ymdts 1970 1 1 86400000000\nclose\nfinish\n";
    let value = "03030005 0e17 2c00000000 30ffffffffffffffff 340001000000000000".replace(' ', "");
    assert_eq!(answers(script), format!("new\n{}refused 17\nrefused 17\nok\nok value={value} dict=010000\n", "ok\n".repeat(4)));
}

#[test]
fn packed_decimal() {
    let script = "new\nopen list\nappend packed 1 04125C\nappend - packed +38 01234567890d\nappend packed 3 20x00\nappend packed 0\n\
        append packed 39 5e\nappend packed 39 5f\nclose\nfinish\n";
    let value = "0302 0006 10 20011d100000 2426 2efd69b6ffffffff".replace(' ', "");
    assert_eq!(
        answers(script),
        format!("new\nok\nok\nok\nrefused 18\nrefused 18\nrefused 18\nrefused 7\nok\nok value={value} dict=010000\n")
    );
}

/// They need no builder.
#[test]
fn packed_decimal_both_ways() {
    let asked =
        "packdec 0 0\npackdec 38 -1_0\npackdec 0 10 out=1\npackdec 39 10 out=1\npackdec 0 100000000000000000000000000000000000000\n\
        readdec 3 000d\nreaddec 2 01000000000F\nreaddec 255 5c\nreaddec 0\nreaddec 0 340282366920938463463374607431768211461c\n\
        readdec 0 099999999999999999999999999999999999999d\n";
    let told = "ok 0c\nok 010d\nrefused 14\nrefused 7\nrefused 7\nok dec4 3 0\nok dec8 2 1000000000\nrefused 7\nrefused 18\nrefused 7\n\
        ok dec16 0 -99999999999999999999999999999999999999\n";
    assert_eq!(answers(asked), told);
    assert_eq!(answers(&format!("new floor=0\n{asked}close\nnew\n{asked}")), format!("refused 24\n{told}no builder\nnew\n{told}"));
}

/// They need no builder. The first twelve are those of tools/model/READINGS_A2_A4_A7.md.
#[test]
fn batch_files() {
    let cases = [
        ("batchadd file=02 dict= value= out=0", "refused 1"),
        ("batchadd file=02 dict= value= out=1", "refused 21"),
        ("batchadd file=01 dict= value= out=1", "refused 14"),
        ("batchadd file= dict= value= out=0", "refused 21"),
        ("batchstart out=0", "refused 14"),
        ("batchadd file=010000 dict= value=", "ok file=0100000000000400000000"),
        ("batchread file=0100000003000000", "ok records=1 !19 tail=0"),
        ("batchread file=01000000030000", "ok records=0 tail=6"),
        ("batchread file=0100000000000000050000000004", "ok records=2 !19 /04 tail=0"),
        ("batchread file=01ffffffff", "ok records=0 tail=4"),
        ("batchread file=01", "ok records=0 tail=0"),
        ("batchadd file=01 dict= value=", "ok file=010000000400000000"),
        ("batchstart", "ok file=01"),
        ("batchstart out=x out=+0_1", "ok file=01"),
        ("batchread", "refused 21"),
        ("batchread file=02", "refused 21"),
        ("batchread file=01000000050000000204", "ok records=1 !19 tail=0"),
        ("batchread file=0100000004ffffffff", "ok records=1 !19 tail=0"),
        ("batchread file=0100000007000000020708090000000400000000ff", "ok records=2 0708/09 / tail=1"),
        ("batchadd", "refused 21"),
        ("batchadd out=12 value=09 dict=0708 file=01", "ok file=010000000700000002070809"),
        ("batchadd out=11 value=09 dict=0708 file=01", "refused 14"),
        ("batchadd file=zz file=1x01 dict=2x0a value= value=0B", "ok file=0100000007000000020a0a0b"),
        ("batchadd file=10x01 out=9", "refused 1"),
    ];
    let asked: String = cases.iter().map(|(line, _)| format!("{line}\n")).collect();
    let told: String = cases.iter().map(|(_, answer)| format!("{answer}\n")).collect();
    assert_eq!(answers(&asked), told);
    assert_eq!(answers(&format!("new floor=0\n{asked}close\nnew\n{asked}")), format!("refused 24\n{told}no builder\nnew\n{told}"));
}

/// They need no builder. The object has b, a number, and a, an object of c.
#[test]
fn records() {
    let pair = "dict=010300010203626163 value=020201000200090c0102010200020c07";
    let other = "value=1x00 dict=010000";
    let cases = [
        (format!("read {pair}"), "ok"),
        (format!("read {pair}00"), "refused 20"),
        (format!("read {pair} dict=0103"), "refused 19"),
        (format!("field {pair} name=62"), "ok at=7 len=2"),
        (format!("field name=61 {pair}"), "ok at=9 len=7"),
        (format!("field name=63 {pair}"), "none"),
        (format!("field name=ff {pair}"), "none"),
        (format!("field {pair}"), "none"),
        (format!("field {pair} value"), "refused 20"),
        (format!("firstint {pair}"), "ok id=0 number=1"),
        (format!("firstint {pair} value=02010200020c80"), "ok id=2 number=-128"),
        (format!("read {other}"), "ok"),
        (format!("field name= {other}"), "none"),
        (format!("firstint {other}"), "none"),
        (format!("firstint {other} value="), "refused 20"),
        ("read dict=010000".into(), "refused 20"),
        ("read".into(), "refused 19"),
        ("field name=61".into(), "refused 19"),
        ("firstint value=00".into(), "refused 19"),
    ];
    let asked: String = cases.iter().map(|(line, _)| format!("{line}\n")).collect();
    let told: String = cases.iter().map(|(_, answer)| format!("{answer}\n")).collect();
    assert_eq!(answers(&asked), told);
    assert_eq!(answers(&format!("new floor=0\n{asked}close\nnew\n{asked}")), format!("refused 24\n{told}no builder\nnew\n{told}"));
}

/// They need no builder.
/// The digests are the model's.
#[test]
fn small_values() {
    let script = "small 1\nsmall 2\nsmall 3\nsmall 0\nsmall 4\nsmall 1 out=48\nsmall 1 out=49\nsmall 3 out=1173830\nsmall 4 out=0\n";
    let one = "ok count=4 bytes=49 sha256=133a2208c00f9bf8cf4472538314a9930f577567dba5ebc696206f68f035070e";
    let two = "ok count=384 bytes=4993 sha256=730800e4d9d1ffff49bdb564ed159da9f40955cb987e4eccd183fc1faf739f45";
    let three = "ok count=83845 bytes=1173831 sha256=62a2612f9ba0fa81c4b9bd7a7ce769d94fe5f80f362e301e2e1a0bbac0db80da";
    assert_eq!(answers(script), format!("{one}\n{two}\n{three}\nrefused 26\nrefused 26\nrefused 14\n{one}\nrefused 14\nrefused 26\n"));
}

#[test]
fn days_and_dates() {
    let asked = "days 1 1 1\ndays 9999 12 31\ndays 2000 2 29\ndays 0 2 29\ndays 9223372036854775807 1 1\n\
        civil -719162\ncivil 2_932_896\ncivil 11016\ncivil -719163\ncivil -9223372036854775808\n";
    let told = "ok -719162\nok 2932896\nok 11016\nrefused 17\nrefused 17\nok 1 1 1\nok 9999 12 31\nok 2000 2 29\nrefused 17\nrefused 17\n";
    assert_eq!(answers(asked), told);
    assert_eq!(answers(&format!("new floor=0\n{asked}close\nnew\n{asked}")), format!("refused 24\n{told}no builder\nnew\n{told}"));
}

/// After a refused `new`, as before any, no call has a builder; what is no call is found out all the same.
#[test]
fn no_builder() {
    let calls =
        "register 61\nappend null\nappend ymd 1 1 0\nopen list\nclose\nrollback\nunique 1\nmark\nreturn 1\nfinish\npoke floor 1\ndump\n\
        dumpvalue\n";
    let none = "no builder\n".repeat(13);
    assert_eq!(answers(calls), none);
    for floor in ["0", "5", "18446744073709551615"] {
        let script = format!("new\nappend null\nnew floor={floor}\n{calls}new floor=4\nfinish\n");
        assert_eq!(answers(&script), format!("new\nok\nrefused 24\n{none}new\nrefused 15\n"));
    }
    for bad in
        ["append int8 128", "append ymd 1 1", "days 1 1", "civil", "close 1", "unique 2", "mark 1", "return", "dump 1", "poke", "fnord"]
    {
        assert_eq!(run(&[], bad).2, 2, "{bad}");
    }
}

/// The kept scripts: the sample with the Rust's answers, the edges with the model's.
#[test]
fn kept_scripts() {
    let data = concat!(env!("CARGO_MANIFEST_DIR"), "/../../crates/test_replay/data");
    for (scripts, kept) in [("scripts.txt", "answers.txt"), ("edges.txt", "edges_answers.txt")] {
        let (out, err, status) = run(&[&format!("{data}/{scripts}")], "");
        assert_eq!((&err[..], status), ("", 0));
        let kept = std::fs::read_to_string(format!("{data}/{kept}")).unwrap();
        assert_eq!(out.lines().count(), kept.lines().count());
        for (at, (answer, kept)) in out.lines().zip(kept.lines()).enumerate() {
            assert_eq!(answer, kept, "answer {} of {scripts}", at + 1);
        }
    }
}

#[test]
fn scan_listed() {
    let script = concat!(env!("CARGO_MANIFEST_DIR"), "/scan.script");
    let (plain, _, _) = run(&[script], "");
    let (listed, _, status) = run(&["--listing", script], "");
    assert_eq!((status, plain.lines().count()), (0, 16));
    let finished = plain.lines().last().unwrap().replace("ok value=", "value ").replace(" dict=", "\ndictionary ");
    assert!(include_str!("../../../crates/demo_scan/stdout").ends_with(&(finished + "\n")));
    let listing = listed.strip_prefix(&plain).unwrap();
    assert!(listing.contains("\n  weight: decimal4 412.5\n"));
    assert!(listing.contains("\n  scanned: timestamp 2026-03-05 07:42:18.250000 UTC\n"));
    assert!(listing.contains("\n  readings: list of 3\n    int16 4131\n"));
}

#[test]
fn help() {
    let (out, err, status) = run(&["--help"], "");
    assert_eq!((&err[..], status), ("", 0));
    assert!(out.starts_with("usage: variant-script ") && out.contains("\n    append [name=BYTES|-] SCALAR\n"));
}

/// One call that is none a line.
const BAD: &str = "fnord
append
append -
append int8 128
append int8
append dec4 256 1
append float 100000000
append text 6
append text 6g
append uuid 00
append ymd 1970 1
append ymd 1970 1 1 0
append ymdts 1970 1 1
append ymdtsntz 1970 1 1 x
append ymd 9223372036854775808 1 1
append packed
append packed 256 5c
append packed 0 5
append packed 0 5c 5c
days
days 1970 1
days 1970 1 1 0
days 1970 1 -9223372036854775809
civil
civil x
civil 1 2
civil 9223372036854775808
packdec
packdec 0
packdec 256 5
packdec 0 170141183460469231731687303715884105728
packdec 0 5 6
packdec 0 5 out=x
packdec 0 5 out=1 out=2
readdec
readdec 256 5c
readdec 0 5
readdec 0 5c 5c
batchstart 1
batchstart out=
batchstart out=-1
batchstart file=01
batchadd 01
batchadd file=1
batchadd file=01 dict=6g
batchadd file=01 name=00
batchadd file=01 out=x
batchread 01
batchread file
batchread file=01 out=9
batchread file=01 file=1
read value=6
read 00
read name=61
read value=zz value=00
field key=61
field name=61=61
firstint dict=6g
firstint out=9
append name=6 null
open
open 61 list
open tree
close 1
unique
unique 2
mark 1
return
return x
return +1
return -1
return 1_0
return 1 2
return 18446744073709551616
finish 3
finish out=-1
finish in=3
new size=3
new value=x
new floor=x
new undo=x
new value=18446744073709551615
poke
poke open
poke floor
poke floor -1
poke container 64 value 0
poke container 64 count 0
poke container 0 count
poke container 0 count x
poke container 0 undo
poke container 0 marks x
poke container 0 kind tree
poke mark
poke mark 0 1 value
poke mark 0 1 kind list
poke mark 0 1 value x
poke mark 0 0 value 0
poke mark 0 17 value 0
poke mark 64 1 value 0
poke undo_used
poke undo 0 0
poke undo 32 0 0
poke value 4096 00
poke nameend 64 0
poke entry 128 0 0
dump 1";

#[test]
fn bad_lines() {
    for bad in BAD.lines() {
        let (out, err, status) = run(&[], &format!("new\nappend null\n{bad}\nclose\n"));
        assert_eq!((&out[..], status), ("new\nok\n", 2), "{bad}");
        assert!(err.starts_with("variant-script: line 3: expected "), "{bad}: {err}");
    }
    assert_eq!(run(&["--other"], "").2, 2);
    assert_eq!(run(&["no such file"], "").2, 2);
}
