//! A recipe while it is written.
use crate::{build, check, AmlSink, Refusal, CREATOR_ID, CREATOR_REVISION};
use alloc::{vec, vec::Vec};

/// The records so far, behind a head.
#[derive(Clone, Debug)]
pub(crate) struct Recipe(Vec<u8>);

impl Recipe {
    /// A head; `table` is 0 PPTT, 1 SRAT, 2 HMAT, 3 CEDT.
    pub(crate) fn new(table: u8, oem_id: [u8; 6], oem_table_id: [u8; 8], oem_revision: u32) -> Self {
        let mut bytes = vec![1, table];
        bytes.vec(&oem_id);
        bytes.vec(&oem_table_id);
        bytes.dword(oem_revision);
        bytes.vec(&CREATOR_ID);
        bytes.vec(&CREATOR_REVISION);
        Recipe(bytes)
    }

    pub(crate) fn bytes(&self) -> &[u8] {
        &self.0
    }

    /// Where the next record is written.
    pub(crate) fn sink(&mut self) -> &mut Vec<u8> {
        &mut self.0
    }

    /// The table, by the proved builder.
    pub(crate) fn try_table(&self) -> Result<Vec<u8>, Refusal> {
        let mut table = vec![0; check(&self.0)?];
        let length = build(&self.0, &mut table)?;
        debug_assert_eq!(length, table.len());
        Ok(table)
    }

    pub(crate) fn to_aml_bytes(&self, sink: &mut dyn AmlSink) {
        match self.try_table() {
            Ok(table) => sink.vec(&table),
            Err(refusal) => panic!("{refusal}"),
        }
    }
}
