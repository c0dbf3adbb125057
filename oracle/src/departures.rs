//! The departures from the original that documents 01 and 02 and their readings name, each a row of docs/DIFFERENCES.md.
//! A comparison may explain a case by one of these alone.

#[derive(Debug)]
pub struct Departure {
    pub row: &'static str,
    pub says: &'static str,
}

macro_rules! departures {
    ($($name:ident $row:literal $says:literal;)*) => {
        $(pub static $name: Departure = Departure { row: $row, says: $says };)*
        pub static ALL: &[&Departure] = &[$(&$name),*];
    };
}

departures! {
    EMPTY_PREFIX "empty-prefix" "30: the Rust panics when it parses under an empty prefix, and writes a name that has none";
    NAME_BUFFER "name-buffer" "36: the Rust makes its own string, ours writes to a lent buffer";
    KEY_LIMIT "key-limit" "41, 43: ours holds 256 keys, the Rust what memory holds";
    CLAIMED_LENGTH "claimed-length" "the Rust allocates the value length that the input claims before it reads; ours allocates nothing";
    GROUP_ORDER "group-order" "the Rust writes each group in its hash map's order, ours in ascending key order";
    TABLE_DUPLICATE "table-duplicate" "42 on encoding: the Rust's map cannot hold a key twice";
    VALUE_PLACE "value-place" "43: the Rust's map owns its values, ours are places in a lent slice";
    DELTA_BUFFER "delta-buffer" "44: the Rust makes its own vector, ours writes to a lent buffer";
    MEMORY "memory" "1, 6, 7, 13: ours holds K slots of C bytes in lent memory, the Rust what its disk holds";
    LOG_VALUE "log-value" "2: ours is handed its log value, the Rust's is its own";
    INDEX_ROWS "index-rows" "23, 24: ours writes index rows to a lent slice, the Rust calls back with each payload";
    RECORD_ID_WRAPS "record-id-wraps" "4: after record 2^64 - 1 the Rust appends record 0";
    SEGMENT_ID_WRAPS "segment-id-wraps" "5: after segment 2^32 - 1 the Rust creates segment 0";
    PRUNE_PANICS "prune-panics" "8, 9 of prune oldest: the Rust panics";
    PRUNE_ABOVE_END "prune-above-end" "8 of prune recent: the Rust fails with its writer dropped, and its next append opens a new segment";
    PRUNE_BELOW_START "prune-below-start" "9 of prune recent: the Rust has no such test; it deletes, then cuts there or fails";
    CUT_NOT_FOUND "cut-not-found" "10: the Rust fails with its writer dropped and later segments deleted";
    CUT_LENGTHENS "cut-lengthens" "10, the payload of the record looked for passes the size: the Rust lengthens the file and accepts";
    CUT_AT_NEWEST "cut-at-newest" "a segment's max: ours looks at its header alone, the Rust searches from the front and may stop earlier";
    RANGE_ORDER "range-order" "12: the Rust has no such test";
    EMPTY_BETWEEN "empty-between" "16: the Rust reads on after an empty segment";
    SEQUENCE "sequence" "19: the Rust tests the sequence inside one segment only, takes record id 0, and its ids wrap";
    STARTS_ABOVE "starts-above" "21: where the first record is above s the Rust starts there";
    BEHIND_E "behind-e" "the Rust reads all images to their end and refuses with what it meets behind e's record; ours does not look there";
    DELIVERS_FIRST "delivers-first" "the Rust hands records to its callback before it refuses; ours delivers nothing then";
    DELETES_FIRST "deletes-first" "the Rust deletes segments before it refuses; ours changes nothing then";
    STRAY_NAME "stray-name" "a file whose name only begins with the prefix stops the Rust's open; ours is given rows";
    PLUS_SIGN "plus-sign" "35: the Rust reads a plus sign and nine digits, which it would not write";
    PLUS_FILE "plus-file" "a file named with a plus sign opens, and a later prune of the Rust fails with its live start moved; our parse refuses the name";
}
