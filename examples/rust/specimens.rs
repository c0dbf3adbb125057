//! Specimens 13 and 14 of document 01 over the wrapper: K 2, C = M = 8192, one page a record.
//!
//! `specimens` runs both; the last line is `ok ..`, or what came instead of document 01's answer: `refused N ..`, `wrong ..`.
//! `specimens 13` writes specimen 13's three lines and nothing else. `./iflughan examples` builds and runs it.
use iflughan::{Error, Log, RecoveryRefused, Refusal, Shape};

const SHAPE: Shape = Shape {
    slots: 2,
    capacity: 8192,
    soft_size: 8192,
};
const PAGE: usize = 4096;

enum Wrong {
    Failed(Error),
    Fact(&'static str),
}

/// A refusal, a refused recovery: whatever is an error.
impl<E: Into<Error>> From<E> for Wrong {
    fn from(error: E) -> Wrong {
        Wrong::Failed(error.into())
    }
}

fn holds(fact: bool, what: &'static str) -> Result<(), Wrong> {
    if fact {
        Ok(())
    } else {
        Err(Wrong::Fact(what))
    }
}

/// Recovers s..e from a copy of the log's images.
fn recover(log: &Log, s: u64, e: u64) -> Result<Log, RecoveryRefused> {
    Log::recover(SHAPE, log.area().to_vec(), &log.images(), s, e)
}

/// A line for the log and one for each live record: record id, slot, offset of the payload, its length.
fn print_log(log: &Log) {
    let live = log.live_range().unwrap_or(0..=0);
    println!(
        "kept {} live {} {}",
        log.segments().len(),
        live.start(),
        live.end()
    );
    for row in log.rows() {
        println!("{} {} {} {}", row.id, row.slot, row.offset, row.length);
    }
}

/// Records 1 and 2, nothing and abc; recovers them and prints the three lines.
fn specimen_13_lines() -> Result<Log, Wrong> {
    let mut log = Log::new(SHAPE)?;
    log.append(b"")?;
    log.append(b"abc")?;
    let log = recover(&log, 1, 2)?;
    print_log(&log);
    Ok(log)
}

/// The bytes at 4096, the third append and the fifth. Leaves the records 1-2 and 3-4.
fn specimen_13_rest(log: &mut Log) -> Result<(), Wrong> {
    let second_record = [3, 0, 0, 0, 2, 0, 0, 0, 0, 0, 0, 0, b'a', b'b', b'c'];
    let bytes = &log.area()[PAGE..][..second_record.len()];
    holds(bytes == second_record, "the bytes of record 2 at 4096")?;
    let hex: String = bytes.iter().map(|byte| format!(" {byte:02x}")).collect();
    println!("at 4096:{hex}");

    log.append(b"")?;
    let slot = log.segments()[log.segments().len() - 1].slot;
    holds(slot == 1, "the third append opens slot 1")?;
    println!("third append: slot {slot}");
    log.append(b"")?;
    holds(
        log.append(b"") == Err(Error::Refused(Refusal::SlotsTaken)),
        "a fifth one-page append meets 6",
    )?;
    println!("fifth append: refused {}", Refusal::SlotsTaken.number());
    Ok(())
}

/// On segments that hold 1-2 and 3-4.
fn specimen_14(log: &Log) -> Result<(), Wrong> {
    for (start, kept) in [(2, 2), (3, 1)] {
        let mut pruned = log.clone();
        pruned.prune_oldest(start)?;
        holds(
            pruned.segments().len() == kept,
            "prune oldest to 2 drops nothing, to 3 the first",
        )?;
        println!("prune oldest to {start}: kept {kept}");
    }

    let middle = recover(log, 2, 3)?;
    let sizes: Vec<u64> = middle
        .segments()
        .iter()
        .map(|segment| segment.size)
        .collect();
    holds(
        sizes == [8192, 4096],
        "recovering 2..3 keeps both, head size 4096",
    )?;
    let newest: Vec<u64> = middle
        .segments()
        .iter()
        .map(|segment| segment.newest_at)
        .collect();
    holds(
        newest == [PAGE as u64, 0],
        "records 2 and 3 start at 4096 and at 0",
    )?;
    print_log(&middle);
    println!("head size {}", sizes[1]);

    for (s, e, number) in [(3, 5, 22), (0, 3, 11)] {
        let refused = recover(log, s, e)
            .err()
            .and_then(|refused| refused.error.refusal())
            .map(Refusal::number);
        holds(refused == Some(number), "range 3..5: 22, range 0..3: 11")?;
        println!("recover {s}..{e}: refused {number}");
    }
    Ok(())
}

fn run(only_13: bool) -> Result<(), Wrong> {
    let mut log = specimen_13_lines()?;
    if only_13 {
        return Ok(());
    }
    specimen_13_rest(&mut log)?;
    specimen_14(&log)?;
    println!("ok specimens 13 and 14");
    Ok(())
}

fn main() {
    let only_13 = std::env::args().nth(1).as_deref() == Some("13");
    match run(only_13) {
        Ok(()) => return,
        Err(Wrong::Failed(Error::Refused(refusal))) => {
            println!("refused {} {refusal}", refusal.number())
        }
        Err(Wrong::Failed(error)) => println!("wrong: {error}"),
        Err(Wrong::Fact(what)) => println!("wrong: {what}"),
    }
    std::process::exit(1);
}
