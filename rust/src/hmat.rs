//! Heterogeneous memory attributes: names and shapes of `acpi_tables::hmat`.
use crate::recipe::Recipe;
use crate::{Aml, AmlSink, Refusal};
use alloc::vec::Vec;

/// The kinds of the recipe's records.
const DOMAIN: u8 = 48;
const MATRIX: u8 = 49;
const INITIATOR_VALUE: u8 = 50;
const TARGET_VALUE: u8 = 51;
const CELL: u8 = 52;
const SIDE_CACHE: u8 = 53;
const SMBIOS_HANDLE: u8 = 54;

/// A wide matrix, with counts of two bytes. The kinds of its settings stand behind it as those of the other behind 49.
const WIDE_MATRIX: u8 = 55;

/// A matrix has up to so many initiators, and up to so many targets.
const MAX_COUNT: usize = 4096;

/// An HMAT while its nodes are added.
#[derive(Clone, Debug)]
pub struct HMAT {
    recipe: Recipe,
}

impl HMAT {
    pub fn new(oem_id: [u8; 6], oem_table_id: [u8; 8], oem_revision: u32) -> Self {
        HMAT { recipe: Recipe::new(2, oem_id, oem_table_id, oem_revision) }
    }

    pub fn add_memory_proximity(&mut self, m: MemoryProximityDomain) {
        let sink = self.recipe.sink();
        sink.byte(DOMAIN);
        sink.dword(m.proximity_domain_initiator);
        sink.dword(m.proximity_domain_memory);
    }

    pub fn add_system_locality(&mut self, s: SystemLocality) {
        let (sink, width) = (self.recipe.sink(), s.width());
        sink.vec(&[width.kind(MATRIX), s.flags, s.data_type as u8, s.min_transfer_size as u8]);
        sink.qword(s.entry_base_unit);
        width.put(sink, s.initiators);
        width.put(sink, s.targets);
        sink.vec(&s.settings);
    }

    pub fn add_memory_side_cache(&mut self, c: MemorySideCache) {
        let sink = self.recipe.sink();
        sink.byte(SIDE_CACHE);
        sink.dword(c.proximity_domain);
        sink.qword(c.cache_size);
        sink.dword(c.attributes);
        for handle in &c.smbios_handles {
            sink.byte(SMBIOS_HANDLE);
            sink.word(*handle);
        }
    }

    /// The recipe of the calls so far.
    pub fn recipe(&self) -> &[u8] {
        self.recipe.bytes()
    }

    /// The table, or why it is refused: more than 65,535 SMBIOS handles, more than 67,108,864 bytes.
    pub fn try_table(&self) -> Result<Vec<u8>, Refusal> {
        self.recipe.try_table()
    }
}

impl Aml for HMAT {
    fn to_aml_bytes(&self, sink: &mut dyn AmlSink) {
        self.recipe.to_aml_bytes(sink);
    }
}

#[derive(Clone, Copy, Debug, Default)]
pub struct MemoryProximityDomain {
    proximity_domain_initiator: u32,
    proximity_domain_memory: u32,
}

impl MemoryProximityDomain {
    pub fn new(proximity_domain_initiator: u32, proximity_domain_memory: u32) -> Self {
        MemoryProximityDomain { proximity_domain_initiator, proximity_domain_memory }
    }
}

#[repr(u8)]
#[derive(Copy, Clone, Debug)]
pub enum DataType {
    /// If read and write latencies are identical.
    AccessLatency = 0,
    ReadLatency = 1,
    WriteLatency = 2,
    /// If read and write bandwidths are identical.
    AccessBandwidth = 3,
    ReadBandwidth = 4,
    WriteBandwidth = 5,
}

#[repr(u8)]
#[derive(Copy, Clone, Debug)]
pub enum MinTransferSize {
    SizeByteAligned = 0,
    Size64b = 1,
    Size128b = 2,
    Size256b = 3,
    Size512b = 4,
    Size1k = 5,
    Size2k = 6,
    Size4k = 7,
    Size8k = 8,
    Size16k = 9,
    Size32k = 10,
    Size64k = 11,
}

#[repr(u8)]
#[derive(Copy, Clone, Debug)]
pub enum LocalityType {
    Memory = 0,
    FirstLevelCache = 1,
    SecondLevelCache = 2,
    ThirdLevelCache = 3,
}

/// How wide a recipe writes the counts of a matrix and the indices of its settings.
#[derive(Copy, Clone)]
enum Width {
    Byte,
    Pair,
}

impl Width {
    /// In this width, the kind of the matrix or the setting that has this one where its numbers are bytes.
    fn kind(self, kind: u8) -> u8 {
        match self {
            Width::Byte => kind,
            Width::Pair => kind - MATRIX + WIDE_MATRIX,
        }
    }

    /// Writes a count or an index, which is so wide at most.
    fn put(self, sink: &mut Vec<u8>, n: u16) {
        match self {
            Width::Byte => sink.byte(n as u8),
            Width::Pair => sink.word(n),
        }
    }
}

/// A matrix of latencies or bandwidths between initiators and targets, with its settings in the order of the calls.
#[derive(Clone, Debug)]
pub struct SystemLocality {
    flags: u8,
    data_type: DataType,
    min_transfer_size: MinTransferSize,
    entry_base_unit: u64,
    initiators: u16,
    targets: u16,
    settings: Vec<u8>,
}

/// A count of initiators or targets. Panics above the most.
fn count(n: usize, what: &str) -> u16 {
    assert!(n <= MAX_COUNT, "at most {MAX_COUNT} {what}");
    n as u16
}

/// An index of a side with so many places. Panics past its end, as indexing does.
fn index(idx: usize, places: u16) -> u16 {
    assert!(idx < places as usize, "index {idx} of {places}");
    idx as u16
}

impl SystemLocality {
    const MINIMUM_TRANSFER_SIZE_REQD: u8 = 0x10;
    const NON_SEQUENTIAL_TRANSFERS: u8 = 0x20;

    /// Panics for more than 4,096 initiators or targets.
    pub fn new(
        loc_type: LocalityType,
        data_type: DataType,
        min_transfer_size: MinTransferSize,
        entry_base_unit: u64,
        num_initiators: usize,
        num_targets: usize,
    ) -> Self {
        SystemLocality {
            flags: loc_type as u8,
            data_type,
            min_transfer_size,
            entry_base_unit,
            initiators: count(num_initiators, "initiators"),
            targets: count(num_targets, "targets"),
            settings: Vec::new(),
        }
    }

    /// That of the normal form: a byte where both counts are up to 255.
    fn width(&self) -> Width {
        if self.initiators <= 255 && self.targets <= 255 {
            Width::Byte
        } else {
            Width::Pair
        }
    }

    /// Writes kind and indices of a setting, whose value follows.
    fn set(&mut self, kind: u8, indices: &[u16]) {
        let width = self.width();
        self.settings.byte(width.kind(kind));
        for idx in indices {
            width.put(&mut self.settings, *idx);
        }
    }

    pub fn non_sequential_transfers(&mut self) {
        self.flags |= Self::NON_SEQUENTIAL_TRANSFERS;
    }

    pub fn minimum_transfer_size_required(&mut self) {
        self.flags |= Self::MINIMUM_TRANSFER_SIZE_REQD;
    }

    pub fn set_initiator_value(&mut self, idx: usize, value: u32) {
        self.set(INITIATOR_VALUE, &[index(idx, self.initiators)]);
        self.settings.dword(value);
    }

    pub fn set_target_value(&mut self, idx: usize, value: u32) {
        self.set(TARGET_VALUE, &[index(idx, self.targets)]);
        self.settings.dword(value);
    }

    /// The cell of an initiator and a target. Of a matrix with as many targets as initiators acpi_tables has it at the same
    /// place; of others docs/DIFFERENCES.md says what differs.
    pub fn set_entry_value(&mut self, initiator_idx: usize, target_idx: usize, value: u16) {
        self.set(CELL, &[index(initiator_idx, self.initiators), index(target_idx, self.targets)]);
        self.settings.word(value);
    }
}

#[derive(Clone, Debug)]
pub struct MemorySideCache {
    proximity_domain: u32,
    cache_size: u64,
    attributes: u32,
    smbios_handles: Vec<u16>,
}

#[repr(u32)]
#[derive(Copy, Clone, Debug)]
pub enum CacheLevel {
    None = 0,
    One = 1,
    Two = 2,
    Three = 3,
}

#[repr(u32)]
#[derive(Copy, Clone, Debug)]
pub enum Associativity {
    None = 0,
    DirectMapped = 1,
    Complex = 2,
}

#[repr(u32)]
#[derive(Copy, Clone, Debug)]
pub enum WritePolicy {
    None = 0,
    Writeback = 1,
    Writethrough = 2,
}

impl MemorySideCache {
    pub fn new(
        proximity_domain: u32,
        cache_size: u64,
        total_cache_levels: CacheLevel,
        this_cache_level: CacheLevel,
        associativity: Associativity,
        write_policy: WritePolicy,
        cacheline_size: u16,
    ) -> Self {
        let attributes = total_cache_levels as u32
            | (this_cache_level as u32) << 4
            | (associativity as u32) << 8
            | (write_policy as u32) << 12
            | (cacheline_size as u32) << 16;
        MemorySideCache { proximity_domain, cache_size, attributes, smbios_handles: Vec::new() }
    }

    pub fn add_smbios_handle(&mut self, handle: u16) {
        self.smbios_handles.push(handle);
    }
}
