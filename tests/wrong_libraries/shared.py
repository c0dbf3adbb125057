"""Makes the errors that library and model share, in a copy of the models: shared.py FOLDER. Each is there where IFLUGHAN_WRONG names it."""
import pathlib
import sys

ERRORS = {
    "log_model.rs": [
        ("if record > log.capacity - head.size {", "shared_7_on_an_exact_fit", "record == log.capacity - head.size"),
        ("if log.end_live == u64::MAX {", "shared_4_one_early", "log.end_live == u64::MAX - 1"),
        ("if last_id == u32::MAX {", "shared_5_one_early", "last_id == u32::MAX - 1"),
        ("if new_start < log.start_live {", "shared_9_at_the_live_start", "new_start == log.start_live"),
        ("if new_end < log.start_live {", "shared_9_at_the_live_start", "new_end == log.start_live"),
        ("if s > e {", "shared_12_for_s_equal_to_e", "s == e && s > 0"),
        (
            "if at > 0 && image.size > 0 && sorted[at - 1].size == 0 {",
            "shared_16_for_a_trailing_empty_image",
            "at > 0 && image.size == 0 && sorted[at - 1].size > 0",
        ),
        ("if id == 0 || !in_sequence {", "shared_19_at_every_later_image", "at == 0 && walk.last.is_some()"),
        ("if walk.rows.first().map(|row| row[0]) != Some(s) {", "shared_21_for_s_first_of_all", "walk.first == Some(s)"),
        ("if index.len() < 4 * walk.rows.len() {", "shared_23_on_an_exact_fit", "index.len() == 4 * walk.rows.len()"),
        ("if id == e {", "shared_stops_before_e", "id.checked_add(1) == Some(e)"),
    ],
    "delta_model.rs": [("if total > limit {", "shared_41_at_256_keys", "total == 256 && limit == 256")],
}

# Where the model has the newest record of a segment: (text, its text with the error).
NEWEST = [
    (
        "head.newest_at = head.size;",
        'let stays = crate::calls::wrong("shared_newest_not_set_by_append");\n'
        '    head.newest_at = if crate::calls::wrong("shared_newest_0_after_append") {\n        0\n    } else if stays {\n        head.newest_at\n'
        "    } else {\n        head.size\n    };",
    ),
    (
        "Ok(with_segments(log, &listed(log)[dropped..], new_start, log.end_live))",
        "let mut next = with_segments(log, &listed(log)[dropped..], new_start, log.end_live);\n"
        '    if crate::calls::wrong("shared_newest_0_after_prune_oldest") {\n'
        "        next.segments.iter_mut().for_each(|segment| segment.newest_at = 0);\n    }\n    Ok(next)",
    ),
    ("head.newest_at = at;", 'if !crate::calls::wrong("shared_newest_stays_after_a_search") {\n        head.newest_at = at;\n    }'),
    ("let at = if head.max == new_end {", 'let at = if head.max == new_end && !crate::calls::wrong("shared_newest_searched") {'),
    ("if id != new_end {", 'if id != new_end && !crate::calls::wrong("shared_newest_id_not_tested") {'),
    (
        "if end > image.len() as u64 {\n        return",
        'let in_page = padded(end) == padded(image.len() as u64) && crate::calls::wrong("shared_newest_payload_not_tested");\n'
        "    if end > image.len() as u64 && !in_page {\n        return",
    ),
    (
        "segments.push(Segment { id: image.id, slot: image.slot, size, min: scan.min, max, newest_at: scan.newest_at });",
        "let start = image.slot as usize * shape.c as usize;\n"
        "        let last = record_places(&area[start..start + image.size as usize]).last().map_or(0, |at| *at as u64);\n"
        '        let read_on = scan.end.is_some() && crate::calls::wrong("shared_newest_of_the_head_read_on");\n'
        '        let known = !crate::calls::wrong("shared_newest_0_after_recovery");\n'
        "        let newest_at = if !known { 0 } else if read_on { last } else { scan.newest_at };\n"
        "        segments.push(Segment { id: image.id, slot: image.slot, size, min: scan.min, max, newest_at });",
    ),
]

# Where the walk of the model ends: (text, its text with the error).
WALK = [
    (
        "if scans.last().map_or(false, |scan| scan.end.is_some()) {",
        'if scans.last().map_or(false, |scan| scan.end.is_some()) && !crate::calls::wrong("shared_reads_on_behind_e") {',
    ),
    (
        "while at < image.len() as u64 && scan.end.is_none() {",
        'while at < image.len() as u64 && (scan.end.is_none() || crate::calls::wrong("shared_reads_on_behind_e")) {',
    ),
    (
        "return refuse(20);",
        'let passed = id == e && padded(end) == padded(image.len() as u64) && crate::calls::wrong("shared_stops_before_the_payload_of_e");\n'
        "                if !passed {\n                    return refuse(20);\n                }",
    ),
    (
        "for (words, row) in index.chunks_exact_mut(4).zip(&walk.rows) {",
        'if let Some(next) = sorted.get(scans.len()).filter(|_| crate::calls::wrong("shared_keeps_a_segment_behind_e")) {\n'
        "        segments.push(Segment { id: next.id, slot: next.slot, size: next.size, min: e, max: e, newest_at: 0 });\n    }\n"
        "    for (words, row) in index.chunks_exact_mut(4).zip(&walk.rows) {",
    ),
]


def edited(text, old, new):
    if text.count(old) != 1:
        sys.exit(f"shared.py: not once in the model: {old}")
    return text.replace(old, new)


for name, errors in ERRORS.items():
    file = pathlib.Path(sys.argv[1]) / name
    text = file.read_text()
    for condition, error, also in errors:
        opened = condition.removeprefix("if ").removesuffix(" {")
        text = edited(text, condition, f'if {opened} || crate::calls::wrong("{error}") && {also} {{')
    if name == "log_model.rs":
        for old, new in WALK + NEWEST:
            text = edited(text, old, new)
        free = "let free = (0..log.slots as u32).find("
        one_left = 'let one_left = crate::calls::wrong("shared_6_with_a_slot_free") && log.count + 1 == log.slots && log.count > 0;\n'
        text = edited(text, free, one_left + "        " + free)
        text = edited(text, "match free {", "match free.filter(|_| !one_left) {")
    file.write_text(text)
