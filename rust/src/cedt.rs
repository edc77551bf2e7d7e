//! CXL early discovery: names and shapes of `acpi_tables::cedt`, but for the port association, which recipes do not have.
use crate::recipe::Recipe;
use crate::{Aml, AmlSink, Refusal};
use alloc::vec::Vec;

/// The kinds of the recipe's records.
const BRIDGE: u8 = 64;
const WINDOW: u8 = 65;
const TARGET: u8 = 66;
const MATHS: u8 = 67;
const MAP: u8 = 68;

/// A CEDT while its nodes are added.
#[derive(Clone, Debug)]
pub struct CEDT {
    recipe: Recipe,
}

impl CEDT {
    pub fn new(oem_id: [u8; 6], oem_table_id: [u8; 8], oem_revision: u32) -> Self {
        CEDT { recipe: Recipe::new(3, oem_id, oem_table_id, oem_revision) }
    }

    pub fn add_host_bridge(&mut self, chbs: CxlHostBridge) {
        let sink = self.recipe.sink();
        sink.byte(BRIDGE);
        sink.dword(chbs.host_bridge_uid);
        sink.byte(chbs.cxl_version as u8);
        sink.qword(chbs.port_base);
    }

    pub fn add_fixed_memory(&mut self, cfmws: CxlFixedMemory) {
        let sink = self.recipe.sink();
        sink.byte(WINDOW);
        sink.qword(cfmws.base_addr);
        sink.qword(cfmws.size);
        sink.vec(&[cfmws.interleave_ways as u8, cfmws.interleave_arithmetic as u8, cfmws.interleave_granularity as u8]);
        sink.byte(cfmws.window_restrictions);
        sink.word(cfmws.qtg_id);
        for uid in &cfmws.interleave_targets {
            sink.byte(TARGET);
            sink.vec(uid);
        }
    }

    pub fn add_xor_interleave_math(&mut self, xorm: XorInterleaveMath) {
        let sink = self.recipe.sink();
        sink.vec(&[MATHS, xorm.granularity as u8]);
        for xormap in &xorm.bitmaps {
            sink.byte(MAP);
            sink.qword(*xormap);
        }
    }

    /// The recipe of the calls so far.
    pub fn recipe(&self) -> &[u8] {
        self.recipe.bytes()
    }

    /// The table, or why it is refused: a window with fewer or more targets than ways, more than 255 maps, more than 67,108,864
    /// bytes.
    pub fn try_table(&self) -> Result<Vec<u8>, Refusal> {
        self.recipe.try_table()
    }
}

impl Aml for CEDT {
    fn to_aml_bytes(&self, sink: &mut dyn AmlSink) {
        self.recipe.to_aml_bytes(sink);
    }
}

#[derive(Copy, Clone, Debug, PartialEq)]
#[repr(u8)]
pub enum CxlVersion {
    Cxl1_1 = 0,
    Cxl2 = 1,
}

/// A host bridge; its version settles how many bytes of registers it has.
#[derive(Copy, Clone, Debug)]
pub struct CxlHostBridge {
    host_bridge_uid: u32,
    cxl_version: CxlVersion,
    port_base: u64,
}

impl CxlHostBridge {
    pub fn new(host_bridge_uid: u32, cxl_version: CxlVersion, port_base: u64) -> Self {
        CxlHostBridge { host_bridge_uid, cxl_version, port_base }
    }
}

#[derive(Copy, Clone, Debug, PartialEq)]
#[repr(u8)]
pub enum InterleaveArithmetic {
    Modulo = 0,
    ModuloXor = 1,
}

#[derive(Copy, Clone, Debug, PartialEq)]
#[repr(u8)]
pub enum InterleaveGranularity {
    Granularity256b = 0,
    Granularity512b = 1,
    Granularity1kb = 2,
    Granularity2kb = 3,
    Granularity4kb = 4,
    Granularity8kb = 5,
    Granularity16kb = 6,
}

#[derive(Copy, Clone, Debug, PartialEq)]
#[repr(u8)]
pub enum InterleaveWays {
    Ways1 = 0,
    Ways2 = 1,
    Ways4 = 2,
    Ways8 = 3,
    Ways16 = 4,
    Ways3 = 8,
    Ways6 = 9,
    Ways12 = 10,
}

#[derive(Copy, Clone, Debug, PartialEq)]
#[repr(u16)]
pub enum WindowRestrictions {
    CxlType2Memory = 1 << 0,
    CxlType3Memory = 1 << 1,
    Volatile = 1 << 2,
    Persistent = 1 << 3,
    FixedConfiguration = 1 << 4,
}

/// A window of memory over as many targets as it has ways.
#[derive(Clone, Debug)]
pub struct CxlFixedMemory {
    base_addr: u64,
    size: u64,
    interleave_arithmetic: InterleaveArithmetic,
    interleave_granularity: InterleaveGranularity,
    interleave_ways: InterleaveWays,
    window_restrictions: u8,
    qtg_id: u16,
    interleave_targets: Vec<[u8; 4]>,
}

impl CxlFixedMemory {
    pub fn new(
        base_addr: u64,
        size: u64,
        arithmetic: InterleaveArithmetic,
        granularity: InterleaveGranularity,
        ways: InterleaveWays,
        qtg_id: u16,
    ) -> Self {
        CxlFixedMemory {
            base_addr,
            size,
            interleave_arithmetic: arithmetic,
            interleave_granularity: granularity,
            interleave_ways: ways,
            window_restrictions: 0,
            qtg_id,
            interleave_targets: Vec::new(),
        }
    }

    fn restricted(mut self, restriction: WindowRestrictions) -> Self {
        self.window_restrictions |= restriction as u8;
        self
    }

    pub fn cxl_type_2_memory(self) -> Self {
        self.restricted(WindowRestrictions::CxlType2Memory)
    }

    /// Bit 1; acpi_tables sets bit 0, that of type 2 memory (docs/DIFFERENCES.md).
    pub fn cxl_type_3_memory(self) -> Self {
        self.restricted(WindowRestrictions::CxlType3Memory)
    }

    pub fn volatile(self) -> Self {
        self.restricted(WindowRestrictions::Volatile)
    }

    pub fn persistent(self) -> Self {
        self.restricted(WindowRestrictions::Persistent)
    }

    pub fn fixed_configuration(self) -> Self {
        self.restricted(WindowRestrictions::FixedConfiguration)
    }

    /// One more target. That they are as many as the ways is asked when the table is built.
    pub fn add_target(&mut self, uid: [u8; 4]) {
        self.interleave_targets.push(uid);
    }
}

/// The maps by which windows of a granularity choose a target where their arithmetic is modulo XOR.
#[derive(Clone, Debug)]
pub struct XorInterleaveMath {
    granularity: InterleaveGranularity,
    bitmaps: Vec<u64>,
}

impl XorInterleaveMath {
    pub fn new(granularity: InterleaveGranularity) -> Self {
        XorInterleaveMath { granularity, bitmaps: Vec::new() }
    }

    pub fn add_xormap(&mut self, xormap: u64) {
        self.bitmaps.push(xormap);
    }
}
