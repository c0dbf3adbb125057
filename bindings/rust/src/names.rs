//! Names of segment files: prefix, a dot, ten digits, `.log`.
use crate::{calls, memory, Error, Refusal};
use alloc::string::String;

const AFTER_PREFIX: usize = 15;

/// The name of a segment; refuses with 30.
///
/// ```
/// use iflughan::{names, Error, Refusal};
///
/// assert_eq!(names::write("rollback", 1)?, "rollback.0000000001.log");
/// assert_eq!(names::parse("rollback", "rollback.0000000001.log"), Ok(1));
/// assert_eq!(names::parse("rollback", "rollback.4294967296.log"), Err(Refusal::NotU32));
/// assert_eq!(names::parse("rollback", "rollback.+000000001.log"), Err(Refusal::NotU32));
/// # Ok::<(), Error>(())
/// ```
pub fn write(prefix: &str, id: u32) -> Result<String, Error> {
    let mut name = memory::zeros(prefix.len() + AFTER_PREFIX)?;
    calls::name_write(prefix.as_bytes(), id, &mut name)?;
    Ok(String::from_utf8(name).expect("the prefix, and ASCII after it"))
}

/// The id of the segment that has this name: the one for which [`write`] gives it, and where none does, a refusal, 30 to 35.
pub fn parse(prefix: &str, name: &str) -> Result<u32, Refusal> {
    calls::name_parse(prefix.as_bytes(), name.as_bytes())
}
