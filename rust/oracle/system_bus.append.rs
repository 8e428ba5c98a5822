// The bytes are private. The comparison reads them all; it sets them by `load_at`.
impl FlatMemory {
    pub fn oracle_bytes(&self) -> &[u8] {
        &self.data
    }
}
