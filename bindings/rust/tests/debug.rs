//! `Debug` prints numbers and sizes: no byte of a payload, of a key or of the area, in whatever form Rust writes bytes.
use iflughan::delta::{self, Entry};
use iflughan::{calls, Log, Shape};
use std::fmt::Debug;

const SHAPE: Shape = Shape {
    slots: 2,
    capacity: 8192,
    soft_size: 8192,
};
/// 237 stands in no number that is printed.
const SECRET: u8 = 237;

fn says_nothing(what: &dyn Debug) -> String {
    let said = format!("{what:?} {what:#?}");
    for form in ["237", "ed", "ED", "xed"] {
        let words = said.split(|c: char| !c.is_ascii_alphanumeric());
        assert!(words.into_iter().all(|word| word != form), "{said}");
    }
    said
}

#[test]
fn logs_and_refused_recoveries_print_no_bytes() {
    let mut log = Log::new(SHAPE).unwrap();
    log.append(&[SECRET; 100]).unwrap();
    let said = says_nothing(&log);
    assert!(said.contains("area_bytes: 16384"), "{said}");
    assert!(said.contains("live: Some(1..=1)"), "{said}");
    assert!(said.contains("newest_at: 0"), "{said}");
    says_nothing(&log.payloads());
    says_nothing(log.value());

    let refused = Log::recover(SHAPE, log.area().to_vec(), &log.images(), 1, 2).unwrap_err();
    let said = says_nothing(&refused);
    assert!(said.contains("Refused(EndNotFound)"), "{said}");

    let mut lent = log.into_area();
    let view = Log::over(SHAPE, &mut lent[..]).unwrap();
    says_nothing(&view);
}

#[test]
fn deltas_print_no_bytes() {
    let entry = Entry {
        key: [SECRET; 32],
        value: Some(&[SECRET; 3]),
    };
    let bytes = delta::encode(&[entry]).unwrap();
    let said = says_nothing(&delta::decode(&bytes).unwrap());
    assert!(said.contains("value_bytes: Some(3)"), "{said}");
    says_nothing(&calls::delta_decode(&bytes).unwrap());
}
