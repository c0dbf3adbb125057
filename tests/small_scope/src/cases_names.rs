//! Names: every refusal from 30 to 36, and the specimens; every byte in every place of the ten digits.
//! What is written reads back, nothing else is read, and later bytes of the buffer stay.

use crate::archive::{hold, Archive, Checked};
use std::collections::HashSet;

/// Prefix, name, and the number of the refusal or the id.
const PARSED: [(&str, &str, Result<u32, u32>); 28] = [
    ("rollback", "rollback.0000000001.log", Ok(1)),
    ("rollback", "rollback.4294967295.log", Ok(u32::MAX)),
    ("rollback", "rollback.0000000000.log", Ok(0)),
    (".log", ".log.0000000007.log", Ok(7)),
    ("", "", Err(30)),
    ("", ".0000000001.log", Err(30)),
    ("rollback", "", Err(31)),
    ("rollback", "rollbac", Err(31)),
    ("rollback", "Rollback.0000000001.log", Err(31)),
    ("rollback", "rollback", Err(32)),
    ("rollback", "rollback.0000000001.lo", Err(32)),
    ("rollback", "rollback.0000000001.LOG", Err(32)),
    ("a.log", "a.log", Err(32)),
    ("rollback", "rollback.log", Err(33)),
    ("rollback", "rollback00000000001.log", Err(33)),
    ("rollback", "rollback..log", Err(34)),
    ("rollback", "rollback.000000001.log", Err(34)),
    ("rollback", "rollback.00000000001.log", Err(34)),
    ("rollback", "rollback.4294967296.log", Err(35)),
    ("rollback", "rollback.9999999999.log", Err(35)),
    ("rollback", "rollback.000000000a.log", Err(35)),
    ("rollback", "rollback.+000000001.log", Err(35)),
    ("rollback", "rollback.+4294967295.log", Err(34)),
    ("rollback", "rollback.-000000001.log", Err(35)),
    ("rollback", "rollback. 000000001.log", Err(35)),
    ("rollback", "rollback.00000+0001.log", Err(35)),
    ("rollback", "rollback.++00000001.log", Err(35)),
    ("rollback", "rollback.000000001\u{0}.log", Err(35)),
];

pub fn run(archive: &mut Archive) -> Checked<()> {
    for (prefix, name, expected) in PARSED {
        let answer = archive.name_parse(prefix.as_bytes(), name.as_bytes())?;
        let answered = if answer.refusal == 0 { Ok(answer.id) } else { Err(answer.refusal) };
        hold(answered == expected, &format!("the name {name:?} with prefix {prefix:?}: {answered:?}, the papers say {expected:?}"))?;
    }
    for id in [0, 1, 9, 10, 999_999_999, 1_000_000_000, u32::MAX - 1, u32::MAX] {
        write(archive, b"rollback", id)?;
        write(archive, b"a.0000000001.log", id)?;
    }
    hold(archive.name_write(b"", 1, &[0x80; 40])?.0.refusal == 30, "writing with no prefix is not 30")?;
    hold(archive.name_write(b"", 1, &[])?.0.refusal == 30, "30 is not before 36")?;
    every_byte(archive)
}

/// Every byte in every place of two ids: accepted exactly where writing some id gives the same bytes, and no id twice.
fn every_byte(archive: &mut Archive) -> Checked<()> {
    let mut names = HashSet::new();
    for id in [1u32, 4_294_967_295] {
        for (place, byte) in (0..10).flat_map(|place| (0..=255u8).map(move |byte| (place, byte))) {
            let mut name = format!("rollback.{id:010}.log").into_bytes();
            name[9 + place] = byte;
            names.insert(name);
        }
    }
    let mut ids = HashSet::new();
    for name in &names {
        let answer = archive.name_parse(b"rollback", name)?;
        let writes = answer.refusal == 0 && format!("rollback.{:010}.log", answer.id).as_bytes() == name.as_slice();
        let ten = &name[9..19];
        let number = ten.iter().fold(0, |number, byte| number * 10 + u64::from(byte.wrapping_sub(b'0')));
        let spelled = ten.iter().all(u8::is_ascii_digit) && number <= u64::from(u32::MAX);
        let refused = (answer.refusal, answer.id) == (35, 0);
        hold(if spelled { writes } else { refused }, &format!("the name {:?}: {answer:?}", String::from_utf8_lossy(name)))?;
        hold(!writes || ids.insert(answer.id), "two names have one id")?;
    }
    hold((names.len(), ids.len()) == (5_102, 144), &format!("{} names, {} of them ids", names.len(), ids.len()))
}

/// Into a buffer that is just long enough, into a longer one, and into short ones.
fn write(archive: &mut Archive, prefix: &[u8], id: u32) -> Checked<()> {
    let name = [prefix, format!(".{id:010}.log").as_bytes()].concat();
    for more in [0, 5] {
        let (answer, out) = archive.name_write(prefix, id, &vec![0x80; name.len() + more])?;
        hold(answer.refusal == 0 && answer.length == name.len() as u64, "a name has another length")?;
        hold(out[..name.len()] == name && out[name.len()..] == vec![0x80; more], "a name has other bytes")?;
        hold(archive.name_parse(prefix, &out[..name.len()])?.id == id, "a written name reads as another id")?;
    }
    for length in [0, name.len() - 1] {
        hold(archive.name_write(prefix, id, &vec![0x80; length])?.0.refusal == 36, "a short buffer is not 36")?;
    }
    Ok(())
}
