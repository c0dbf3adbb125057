//! Stands where the original's seglog looks for its child module `segment_filename`: it includes that file as it stands.
//! A child module sees what is private in its parent, so what the comparison needs of the log value is handed out here.

include!("../segment_filename.rs");

impl super::SegmentedLog {
    /// Id, min and max of each segment.
    pub fn segment_rows(&self) -> impl Iterator<Item = (u32, u64, u64)> + '_ {
        self.segments.iter().map(|segment| (segment.id, segment.min.0, segment.max.0))
    }

    /// The size of the head as the writer counts it, where there is a writer.
    pub fn head_size(&self) -> Option<u64> {
        self.head_segment_writer.as_ref().map(|writer| writer.file_size())
    }
}
