//! Resource affinities: names and shapes of `acpi_tables::srat`.
use crate::recipe::Recipe;
use crate::{Aml, AmlSink, Refusal};
use alloc::vec::Vec;

/// The kinds of the recipe's records.
const MEMORY: u8 = 32;
const INITIATOR_ACPI: u8 = 33;
const INITIATOR_PCI: u8 = 34;
const RINTC: u8 = 36;

/// An SRAT while its nodes are added.
#[derive(Clone, Debug)]
pub struct SRAT {
    recipe: Recipe,
}

impl SRAT {
    pub fn new(oem_id: [u8; 6], oem_table_id: [u8; 8], oem_revision: u32) -> Self {
        SRAT { recipe: Recipe::new(1, oem_id, oem_table_id, oem_revision) }
    }

    pub fn add_memory_affinity(&mut self, st: MemoryAffinity) {
        let sink = self.recipe.sink();
        sink.byte(MEMORY);
        sink.dword(st.proximity_domain);
        sink.qword(st.base_address);
        sink.qword(st.length);
        sink.byte(st.flags);
    }

    pub fn add_generic_initiator(&mut self, st: GenericInitiator) {
        let sink = self.recipe.sink();
        match st.handle {
            Handle::Acpi { hid, uid } => {
                sink.byte(INITIATOR_ACPI);
                sink.dword(st.proximity_domain);
                sink.vec(&hid);
                sink.vec(&uid);
            }
            Handle::Pci { segment, bus, device, function } => {
                sink.byte(INITIATOR_PCI);
                sink.dword(st.proximity_domain);
                sink.word(segment);
                sink.vec(&[bus, device, function]);
            }
        }
        sink.byte(st.flags);
    }

    pub fn add_rintc_affinity(&mut self, ra: RintcAffinity) {
        let sink = self.recipe.sink();
        sink.byte(RINTC);
        sink.dword(ra.proximity_domain);
        sink.vec(&ra.acpi_processor_uid);
        sink.byte(ra.flags);
        sink.dword(ra.clock_domain);
    }

    /// The recipe of the calls so far.
    pub fn recipe(&self) -> &[u8] {
        self.recipe.bytes()
    }

    /// The table, or why it is refused: a device or function out of range, more than 67,108,864 bytes.
    pub fn try_table(&self) -> Result<Vec<u8>, Refusal> {
        self.recipe.try_table()
    }
}

impl Aml for SRAT {
    fn to_aml_bytes(&self, sink: &mut dyn AmlSink) {
        self.recipe.to_aml_bytes(sink);
    }
}

#[derive(Clone, Debug)]
pub struct MemoryAffinity {
    proximity_domain: u32,
    base_address: u64,
    length: u64,
    flags: u8,
}

impl MemoryAffinity {
    const ENABLED: u8 = 1 << 0;
    const HOT_PLUGGABLE: u8 = 1 << 1;
    const NON_VOLATILE: u8 = 1 << 2;

    pub fn new(proximity_domain: u32, base_address: u64, length: u64) -> Self {
        MemoryAffinity { proximity_domain, base_address, length, flags: 0 }
    }

    fn flagged(mut self, flag: u8) -> Self {
        self.flags |= flag;
        self
    }

    pub fn enabled(self) -> Self {
        self.flagged(Self::ENABLED)
    }

    pub fn hotpluggable(self) -> Self {
        self.flagged(Self::HOT_PLUGGABLE)
    }

    pub fn nonvolatile(self) -> Self {
        self.flagged(Self::NON_VOLATILE)
    }
}

#[derive(Copy, Clone, Debug, PartialEq)]
pub enum Handle {
    Acpi { hid: [u8; 8], uid: [u8; 4] },
    Pci { segment: u16, bus: u8, device: u8, function: u8 },
}

impl Handle {
    pub fn new_acpi(hid: [u8; 8], uid: [u8; 4]) -> Self {
        Handle::Acpi { hid, uid }
    }

    /// Panics for a device above 31 or a function above 7.
    pub fn new_pci(segment: u16, bus: u8, device: u8, function: u8) -> Self {
        assert!(device < 32);
        assert!(function < 8);
        Handle::Pci { segment, bus, device, function }
    }
}

#[derive(Clone, Debug)]
pub struct GenericInitiator {
    proximity_domain: u32,
    handle: Handle,
    flags: u8,
}

impl GenericInitiator {
    const ENABLED: u8 = 1 << 0;
    const ARCHITECTURAL: u8 = 1 << 1;

    pub fn new(proximity_domain: u32, handle: Handle) -> Self {
        GenericInitiator { proximity_domain, handle, flags: 0 }
    }

    pub fn enabled(mut self) -> Self {
        self.flags |= Self::ENABLED;
        self
    }

    pub fn architectural(mut self) -> Self {
        self.flags |= Self::ARCHITECTURAL;
        self
    }
}

/// The interrupt controller of a RISC-V hart. It has a proximity domain first, as ACPI 6.6 has it; acpi_tables' leaves it out, and code
/// for it says here which domain the hart is in.
#[derive(Copy, Clone, Debug, Default)]
pub struct RintcAffinity {
    proximity_domain: u32,
    acpi_processor_uid: [u8; 4],
    flags: u8,
    clock_domain: u32,
}

impl RintcAffinity {
    const ENABLED: u8 = 1 << 0;

    pub fn new(proximity_domain: u32, acpi_processor_uid: [u8; 4], clock_domain: u32) -> Self {
        RintcAffinity { proximity_domain, acpi_processor_uid, flags: 0, clock_domain }
    }

    pub fn enabled(mut self) -> Self {
        self.flags |= Self::ENABLED;
        self
    }
}
