//! The one name of the crate nomt_core that the original's delta.rs needs.
//! Built as a crate of its own, so that delta.rs is compiled as it stands.

pub mod trie {
    pub type KeyPath = [u8; 32];
}
