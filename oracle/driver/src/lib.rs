//! The table that acpi_tables makes of a recipe, by the crate's own calls. The recipe is one that builds: it is not judged here.
use acpi_tables::cedt::{self, CxlFixedMemory, CxlHostBridge, XorInterleaveMath, CEDT};
use acpi_tables::hmat::{self, MemoryProximityDomain, MemorySideCache, SystemLocality, HMAT};
use acpi_tables::pptt::{self, CacheHandle, CacheNodeBuilder, ProcessorHandle, ProcessorNode, PPTT};
use acpi_tables::srat::{GenericInitiator, Handle, MemoryAffinity, RintcAffinity, SRAT};
use acpi_tables::Aml;

struct Records<'a> {
    bytes: &'a [u8],
    at: usize,
}

impl<'a> Records<'a> {
    fn kind(&self) -> Option<u8> {
        self.bytes.get(self.at).copied()
    }

    fn take(&mut self, n: usize) -> &'a [u8] {
        let part = &self.bytes[self.at..self.at + n];
        self.at += n;
        part
    }

    fn number(&mut self, width: usize) -> u64 {
        self.take(width).iter().rev().fold(0, |sum, b| sum << 8 | *b as u64)
    }

    fn array<const N: usize>(&mut self) -> [u8; N] {
        self.take(N).try_into().expect("as many bytes")
    }
}

enum Node {
    Processor(ProcessorHandle),
    Cache(CacheHandle),
}

fn processor(nodes: &[Node], ordinal: u64) -> Option<&ProcessorHandle> {
    match nodes.get((ordinal as usize).wrapping_sub(1)) {
        Some(Node::Processor(handle)) => Some(handle),
        _ => None,
    }
}

fn cache(nodes: &[Node], ordinal: u64) -> Option<&CacheHandle> {
    match nodes.get((ordinal as usize).wrapping_sub(1)) {
        Some(Node::Cache(handle)) => Some(handle),
        _ => None,
    }
}

fn flagged(mut node: ProcessorNode, flags: u64) -> ProcessorNode {
    for bit in 0..5 {
        if flags >> bit & 1 == 1 {
            node = match bit {
                0 => node.physical(),
                1 => node.valid(),
                2 => node.thread(),
                3 => node.leaf(),
                _ => node.identical(),
            };
        }
    }
    // The crate has setters for five bits; the field is public.
    node.flags = flags as u32;
    node
}

fn cache_node(r: &mut Records, nodes: &[Node]) -> pptt::CacheNode {
    let flags = r.number(1);
    let next = r.number(4);
    let (size, sets) = (r.number(4) as u32, r.number(4) as u32);
    let (ways, attributes) = (r.number(1) as u8, r.number(1));
    let (line, id) = (r.number(2) as u16, r.number(4) as u32);
    let mut b = CacheNodeBuilder::default();
    if let Some(handle) = cache(nodes, next) {
        b = b.next_level(handle);
    }
    if flags & 1 != 0 {
        b = b.size(size);
    }
    if flags & 2 != 0 {
        b = b.sets(sets);
    }
    if flags & 4 != 0 {
        b = b.associativity(ways);
    }
    if flags & 8 != 0 {
        b = b.allocation_type(match attributes & 3 {
            0 => pptt::AllocationType::Read,
            1 => pptt::AllocationType::Write,
            _ => pptt::AllocationType::Both,
        });
    }
    if flags & 16 != 0 {
        b = b.cache_type(match attributes >> 2 & 3 {
            0 => pptt::CacheType::Data,
            1 => pptt::CacheType::Instruction,
            _ => pptt::CacheType::Unified,
        });
    }
    if flags & 32 != 0 {
        b = b.write_policy(match attributes >> 4 & 1 {
            0 => pptt::WritePolicy::Writeback,
            _ => pptt::WritePolicy::Writethrough,
        });
    }
    if flags & 64 != 0 {
        b = b.line_size(line);
    }
    if flags & 128 != 0 {
        b = b.id(id);
    }
    b.to_node()
}

fn build_pptt(r: &mut Records, id: [u8; 6], table: [u8; 8], revision: u32, sink: &mut Vec<u8>) {
    let mut out = PPTT::new(id, table, revision);
    let mut nodes: Vec<Node> = Vec::new();
    while let Some(kind) = r.kind() {
        r.at += 1;
        if kind == 18 {
            let node = cache_node(r, &nodes);
            nodes.push(Node::Cache(out.add_cache(node)));
            continue;
        }
        let (flags, parent, id) = (r.number(4), r.number(4), r.number(4) as u32);
        let mut node = flagged(ProcessorNode::new(processor(&nodes, parent), id), flags);
        while r.kind() == Some(17) {
            r.at += 1;
            let ordinal = r.number(4);
            node = node.add_cache(cache(&nodes, ordinal).expect("a cache"));
        }
        nodes.push(Node::Processor(out.add_processor(node)));
    }
    out.to_aml_bytes(sink);
}

fn initiator(domain: u32, handle: Handle, flags: u64) -> GenericInitiator {
    let mut node = GenericInitiator::new(domain, handle);
    if flags & 1 != 0 {
        node = node.enabled();
    }
    if flags & 2 != 0 {
        node = node.architectural();
    }
    node
}

/// acpi_tables' record has no domain: what it makes of a RINTC lacks the recipe's.
#[cfg(not(feature = "domain"))]
fn rintc(_domain: u32, uid: [u8; 4], clock: u32) -> RintcAffinity {
    RintcAffinity::new(uid, clock)
}

/// Over rust/, whose record has one (tests/rust).
#[cfg(feature = "domain")]
fn rintc(domain: u32, uid: [u8; 4], clock: u32) -> RintcAffinity {
    RintcAffinity::new(domain, uid, clock)
}

fn build_srat(r: &mut Records, id: [u8; 6], table: [u8; 8], revision: u32, sink: &mut Vec<u8>) {
    let mut out = SRAT::new(id, table, revision);
    while let Some(kind) = r.kind() {
        r.at += 1;
        match kind {
            32 => {
                let (domain, base, length, flags) = (r.number(4), r.number(8), r.number(8), r.number(1));
                let mut node = MemoryAffinity::new(domain as u32, base, length);
                if flags & 1 != 0 {
                    node = node.enabled();
                }
                if flags & 2 != 0 {
                    node = node.hotpluggable();
                }
                if flags & 4 != 0 {
                    node = node.nonvolatile();
                }
                out.add_memory_affinity(node);
            }
            33 => {
                let domain = r.number(4) as u32;
                let handle = Handle::new_acpi(r.array(), r.array());
                let flags = r.number(1);
                out.add_generic_initiator(initiator(domain, handle, flags));
            }
            34 => {
                let domain = r.number(4) as u32;
                let (segment, bus) = (r.number(2) as u16, r.number(1) as u8);
                let handle = Handle::new_pci(segment, bus, r.number(1) as u8, r.number(1) as u8);
                let flags = r.number(1);
                out.add_generic_initiator(initiator(domain, handle, flags));
            }
            _ => {
                let domain = r.number(4) as u32;
                let (uid, flags, clock) = (r.array(), r.number(1), r.number(4) as u32);
                let node = rintc(domain, uid, clock);
                out.add_rintc_affinity(if flags & 1 != 0 { node.enabled() } else { node });
            }
        }
    }
    out.to_aml_bytes(sink);
}

/// A matrix of this kind, whose counts and the indices of whose settings have so many bytes. The kinds of its settings follow its own.
fn matrix(r: &mut Records, own: u8, width: usize) -> SystemLocality {
    let (flags, data, size) = (r.number(1), r.number(1), r.number(1));
    let unit = r.number(8);
    let (i, t) = (r.number(width) as usize, r.number(width) as usize);
    let locality = match flags & 3 {
        0 => hmat::LocalityType::Memory,
        1 => hmat::LocalityType::FirstLevelCache,
        2 => hmat::LocalityType::SecondLevelCache,
        _ => hmat::LocalityType::ThirdLevelCache,
    };
    let data = match data {
        0 => hmat::DataType::AccessLatency,
        1 => hmat::DataType::ReadLatency,
        2 => hmat::DataType::WriteLatency,
        3 => hmat::DataType::AccessBandwidth,
        4 => hmat::DataType::ReadBandwidth,
        _ => hmat::DataType::WriteBandwidth,
    };
    use hmat::MinTransferSize::*;
    let sizes = [SizeByteAligned, Size64b, Size128b, Size256b, Size512b, Size1k, Size2k, Size4k, Size8k, Size16k, Size32k, Size64k];
    let mut node = SystemLocality::new(locality, data, sizes[size as usize], unit, i, t);
    if flags & 0x10 != 0 {
        node.minimum_transfer_size_required();
    }
    if flags & 0x20 != 0 {
        node.non_sequential_transfers();
    }
    while let Some(kind) = r.kind().filter(|kind| (own + 1..=own + 3).contains(kind)) {
        r.at += 1;
        let index = r.number(width) as usize;
        match kind - own {
            1 => node.set_initiator_value(index, r.number(4) as u32),
            2 => node.set_target_value(index, r.number(4) as u32),
            _ => {
                let target = r.number(width) as usize;
                node.set_entry_value(index, target, r.number(2) as u16)
            }
        }
    }
    node
}

fn level(bits: u64) -> hmat::CacheLevel {
    match bits & 15 {
        0 => hmat::CacheLevel::None,
        1 => hmat::CacheLevel::One,
        2 => hmat::CacheLevel::Two,
        _ => hmat::CacheLevel::Three,
    }
}

fn side_cache(r: &mut Records) -> MemorySideCache {
    let (domain, size, a) = (r.number(4) as u32, r.number(8), r.number(4));
    let associativity = match a >> 8 & 15 {
        0 => hmat::Associativity::None,
        1 => hmat::Associativity::DirectMapped,
        _ => hmat::Associativity::Complex,
    };
    let policy = match a >> 12 & 15 {
        0 => hmat::WritePolicy::None,
        1 => hmat::WritePolicy::Writeback,
        _ => hmat::WritePolicy::Writethrough,
    };
    let mut node = MemorySideCache::new(domain, size, level(a), level(a >> 4), associativity, policy, (a >> 16) as u16);
    while r.kind() == Some(54) {
        r.at += 1;
        node.add_smbios_handle(r.number(2) as u16);
    }
    node
}

fn build_hmat(r: &mut Records, id: [u8; 6], table: [u8; 8], revision: u32, sink: &mut Vec<u8>) {
    let mut out = HMAT::new(id, table, revision);
    while let Some(kind) = r.kind() {
        r.at += 1;
        match kind {
            48 => {
                let (initiator, memory) = (r.number(4) as u32, r.number(4) as u32);
                out.add_memory_proximity(MemoryProximityDomain::new(initiator, memory));
            }
            49 => out.add_system_locality(matrix(r, 49, 1)),
            55 => out.add_system_locality(matrix(r, 55, 2)),
            _ => out.add_memory_side_cache(side_cache(r)),
        }
    }
    out.to_aml_bytes(sink);
}

fn bridge(r: &mut Records) -> CxlHostBridge {
    let (uid, version, base) = (r.number(4) as u32, r.number(1), r.number(8));
    let version = match version {
        0 => cedt::CxlVersion::Cxl1_1,
        _ => cedt::CxlVersion::Cxl2,
    };
    CxlHostBridge::new(uid, version, base)
}

fn granularity(code: u64) -> cedt::InterleaveGranularity {
    use cedt::InterleaveGranularity::*;
    match code {
        0 => Granularity256b,
        1 => Granularity512b,
        2 => Granularity1kb,
        3 => Granularity2kb,
        4 => Granularity4kb,
        5 => Granularity8kb,
        _ => Granularity16kb,
    }
}

fn ways(code: u64) -> cedt::InterleaveWays {
    use cedt::InterleaveWays::*;
    match code {
        0 => Ways1,
        1 => Ways2,
        2 => Ways4,
        3 => Ways8,
        4 => Ways16,
        8 => Ways3,
        9 => Ways6,
        _ => Ways12,
    }
}

fn restricted(mut node: CxlFixedMemory, restrictions: u64) -> CxlFixedMemory {
    for bit in 0..5 {
        if restrictions >> bit & 1 == 1 {
            node = match bit {
                0 => node.cxl_type_2_memory(),
                1 => node.cxl_type_3_memory(),
                2 => node.volatile(),
                3 => node.persistent(),
                _ => node.fixed_configuration(),
            };
        }
    }
    node
}

fn window(r: &mut Records) -> CxlFixedMemory {
    let (base, size) = (r.number(8), r.number(8));
    let ways = ways(r.number(1));
    let arithmetic = match r.number(1) {
        0 => cedt::InterleaveArithmetic::Modulo,
        _ => cedt::InterleaveArithmetic::ModuloXor,
    };
    let granularity = granularity(r.number(1));
    let restrictions = r.number(1);
    let mut node = restricted(CxlFixedMemory::new(base, size, arithmetic, granularity, ways, r.number(2) as u16), restrictions);
    while r.kind() == Some(66) {
        r.at += 1;
        node.add_target(r.array());
    }
    node
}

fn maths(r: &mut Records) -> XorInterleaveMath {
    let mut node = XorInterleaveMath::new(granularity(r.number(1)));
    while r.kind() == Some(68) {
        r.at += 1;
        node.add_xormap(r.number(8));
    }
    node
}

fn build_cedt(r: &mut Records, id: [u8; 6], table: [u8; 8], revision: u32, sink: &mut Vec<u8>) {
    let mut out = CEDT::new(id, table, revision);
    while let Some(kind) = r.kind() {
        r.at += 1;
        match kind {
            64 => out.add_host_bridge(bridge(r)),
            65 => out.add_fixed_memory(window(r)),
            _ => out.add_xor_interleave_math(maths(r)),
        }
    }
    out.to_aml_bytes(sink);
}

/// The crate's table of a recipe; it panics where the crate does.
pub fn table(recipe: &[u8]) -> Vec<u8> {
    let mut r = Records { bytes: recipe, at: 1 };
    let code = r.number(1);
    let (id, name, revision) = (r.array(), r.array(), r.number(4) as u32);
    r.at += 8; // creator ID and revision: the crate has its own
    let mut sink = Vec::new();
    match code {
        0 => build_pptt(&mut r, id, name, revision, &mut sink),
        1 => build_srat(&mut r, id, name, revision, &mut sink),
        2 => build_hmat(&mut r, id, name, revision, &mut sink),
        _ => build_cedt(&mut r, id, name, revision, &mut sink),
    }
    sink
}
