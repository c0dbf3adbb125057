//! What is refused comes back as document 01's refusal, and nothing has changed.
use iflughan::delta::{self, Entry};
use iflughan::{calls, names, Error, Image, Log, Refusal, Row, Shape};

const SHAPE: Shape = Shape {
    slots: 2,
    capacity: 8192,
    soft_size: 8192,
};

fn two_records() -> Log {
    let mut log = Log::new(SHAPE).unwrap();
    log.append(b"").unwrap();
    log.append(b"abc").unwrap();
    log
}

#[test]
fn refusal_1_shape_outside_the_rules() {
    for (slots, capacity, soft_size) in [
        (0, 8192, 0),
        (65, 4096, 0),
        (2, 4097, 0),
        (2, 4096, 4097),
        (64, 1 << 32, 0),
        (u64::MAX, u64::MAX, 0),
    ] {
        let shape = Shape {
            slots,
            capacity,
            soft_size,
        };
        assert_eq!(shape.area_length(), Err(Refusal::OutsideRules));
        assert_eq!(Log::new(shape), Err(Refusal::OutsideRules.into()));
    }
}

/// The wrapper's test of the numbers, made before memory is asked for, is the archive's.
#[test]
fn area_length_is_refused_where_a_new_log_is() {
    let mut accepted = 0;
    for slots in [0, 1, 2, 64, 65] {
        for capacity in [0, 1, 4095, 4096, 4097, 8192] {
            for soft_size in [0, 1, 4096, 4097, 8192, 8193] {
                let shape = Shape {
                    slots,
                    capacity,
                    soft_size,
                };
                let length = usize::try_from(slots * capacity).unwrap();
                let answer = calls::new(shape, &mut vec![0; length]).map(|_| length);
                assert_eq!(shape.area_length(), answer);
                accepted += answer.iter().count();
            }
        }
    }
    assert!(accepted > 0);
}

#[test]
fn refused_appends_and_prunes_change_nothing() {
    let mut log = two_records();
    let before = log.clone();
    assert_eq!(log.append(&[0; 8192]), Err(Refusal::RecordTooLong.into()));
    assert_eq!(log.prune_oldest(3), Err(Refusal::PruneAboveLiveEnd));
    assert_eq!(log.prune_recent(3), Err(Refusal::PruneAboveLiveEnd));
    assert_eq!(log, before);

    log.prune_oldest(2).unwrap();
    assert_eq!(log.prune_recent(1), Err(Refusal::PruneBelowLiveStart));
}

#[test]
fn refused_recovery_hands_the_area_back() {
    let log = two_records();
    for (s, e, refusal) in [
        (0, 2, Refusal::OneEndZero),
        (2, 1, Refusal::StartAboveEnd),
        (3, 3, Refusal::StartNotFound),
        (1, 3, Refusal::EndNotFound),
        (1, u64::MAX, Refusal::EndNotFound),
    ] {
        let refused = Log::recover(SHAPE, log.area().to_vec(), &log.images(), s, e).unwrap_err();
        assert_eq!(refused.error, Error::Refused(refusal));
        assert_eq!(refused.area, log.area());
    }
}

/// Five bytes of a header behind record 1, and a later image of noise: 1..1 is recovered, and 1..2 is refused with 17.
#[test]
fn a_fault_behind_the_range_refuses_nothing() {
    let log = two_records();
    let mut area = log.area().to_vec();
    area[8192..].fill(0xff);
    let images = [
        Image {
            size: 4096 + 5,
            ..log.images()[0]
        },
        Image {
            id: 2,
            slot: 1,
            size: 8192,
        },
    ];
    let recovered = Log::recover(SHAPE, area.clone(), &images, 1, 1).unwrap();
    assert_eq!(recovered.payload(1), Some(&b""[..]));
    assert_eq!(recovered.segments().len(), 1);
    assert_eq!(recovered.area(), area);

    let refused = Log::recover(SHAPE, area, &images, 1, 2).unwrap_err();
    assert_eq!(refused.error, Error::Refused(Refusal::ShortHeader));
}

#[test]
fn refusals_2_23_and_24_of_the_plain_calls() {
    let log = two_records();
    let mut area = log.area().to_vec();
    let untouched = [Row::default(); 1];
    let mut rows = untouched;
    let short = calls::recover(SHAPE, &mut area, &log.images(), 1, 2, &mut rows);
    assert_eq!((short, rows), (Err(Refusal::IndexShort), untouched));

    let row = Row {
        id: 1,
        slot: 2,
        offset: 0,
        length: 0,
    };
    assert_eq!(
        calls::row_question(log.value(), &area, row),
        Err(Refusal::RowOutside)
    );
    assert_eq!(
        calls::payload(log.value(), &area, row),
        Err(Refusal::RowOutside)
    );
    assert_eq!(
        calls::row_question(log.value(), &area, log.rows()[0]),
        Ok(())
    );

    let mut made_up = *log.value();
    made_up.count = u64::MAX;
    assert_eq!(
        calls::append(&made_up, &mut area, b""),
        Err(Refusal::NotWellShaped)
    );
}

/// A cut at the newest record reads its header and nothing before it; one at another record finds the damage.
#[test]
fn refusal_10_where_the_cut_looks() {
    let log = two_records();
    let newest_at = log.segments()[0].newest_at as usize;
    for (damaged, cut, refusal) in [
        (0, 2, None),
        (0, 1, Some(Refusal::CutNotFound)),
        (newest_at, 2, Some(Refusal::CutNotFound)),
        (newest_at, 1, None),
    ] {
        let mut area = log.area().to_vec();
        area[damaged + 4] ^= 0xff;
        let after = calls::prune_recent(log.value(), &mut area, cut);
        assert_eq!(after.err(), refusal, "byte {damaged}, cut at {cut}");
    }
}

#[test]
fn refusals_of_deltas() {
    let entry = |key: u8| Entry {
        key: [key; 32],
        value: None,
    };
    let too_many: Vec<Entry> = (0..=256).map(|i| entry(i as u8)).collect();
    for (entries, refusal) in [
        (&too_many[..], Refusal::TableOutside),
        (&[entry(1), entry(1)], Refusal::DuplicateKey),
    ] {
        assert_eq!(delta::encode(entries), Err(refusal.into()));
    }
    for (input, refusal) in [
        ([1, 0, 0, 0], Refusal::InputEndsEarly),
        ([1, 1, 0, 0], Refusal::TooManyKeys),
    ] {
        assert_eq!(delta::decode(&input), Err(refusal.into()));
    }
    assert_eq!(delta::encode(&[]), Ok(vec![0; 8]));
}

#[test]
fn refusals_of_names() {
    assert_eq!(names::write("", 1), Err(Refusal::EmptyPrefix.into()));
    assert_eq!(
        calls::name_write(b"a", 1, &mut [0; 15]),
        Err(Refusal::NameBufferShort)
    );
    for (name, refusal) in [
        ("b.0000000001.log", Refusal::PrefixMissing),
        ("a.0000000001", Refusal::SuffixMissing),
        ("a0000000001.log", Refusal::DotMissing),
        ("a.1.log", Refusal::NotTenBytes),
        ("a.000000000x.log", Refusal::NotU32),
    ] {
        assert_eq!(names::parse("a", name), Err(refusal));
    }
}

#[test]
fn numbers_and_refusals_go_both_ways() {
    for refusal in Refusal::ALL {
        assert_eq!(Refusal::from_number(refusal.number()), Some(*refusal));
    }
}

#[test]
fn errors_say_the_words_of_their_refusal() {
    let refusal = Refusal::EndNotFound;
    let log = two_records();
    let refused = Log::recover(SHAPE, log.area().to_vec(), &log.images(), 1, 3).unwrap_err();
    let errors: [Box<dyn std::error::Error>; 3] = [
        Box::new(refusal),
        Box::new(Error::from(refusal)),
        Box::new(refused),
    ];
    for error in errors {
        assert_eq!(error.to_string(), "e not found");
    }
}
