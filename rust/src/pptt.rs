//! Processor properties: names and shapes of `acpi_tables::pptt`.
use crate::recipe::Recipe;
use crate::{Aml, AmlSink, Refusal};
use alloc::vec::Vec;

/// The kinds of the recipe's records.
const PROCESSOR: u8 = 16;
const RESOURCE: u8 = 17;
const CACHE: u8 = 18;

/// A PPTT while its nodes are added.
#[derive(Clone, Debug)]
pub struct PPTT {
    recipe: Recipe,
    nodes: u32,
}

/// Names a processor of the table: its ordinal among processors and caches, counted from 1.
#[derive(Copy, Clone, Debug)]
pub struct ProcessorHandle(u32);

/// Names a cache of the table in the same way.
#[derive(Copy, Clone, Debug)]
pub struct CacheHandle(u32);

impl PPTT {
    pub fn new(oem_id: [u8; 6], oem_table_id: [u8; 8], oem_revision: u32) -> Self {
        PPTT { recipe: Recipe::new(0, oem_id, oem_table_id, oem_revision), nodes: 0 }
    }

    pub fn add_processor(&mut self, node: ProcessorNode) -> ProcessorHandle {
        let sink = self.recipe.sink();
        sink.byte(PROCESSOR);
        sink.dword(node.flags);
        sink.dword(node.parent);
        sink.dword(node.acpi_processor_id);
        for cache in &node.resources {
            sink.byte(RESOURCE);
            sink.dword(cache.0);
        }
        self.nodes += 1;
        ProcessorHandle(self.nodes)
    }

    pub fn add_cache(&mut self, node: CacheNode) -> CacheHandle {
        let node = node.0;
        let sink = self.recipe.sink();
        sink.byte(CACHE);
        sink.byte(node.flags);
        sink.dword(node.next_level);
        sink.dword(node.size);
        sink.dword(node.set_count);
        sink.byte(node.associativity);
        sink.byte(node.attributes);
        sink.word(node.line_size);
        sink.dword(node.id);
        self.nodes += 1;
        CacheHandle(self.nodes)
    }

    /// The recipe of the calls so far.
    pub fn recipe(&self) -> &[u8] {
        self.recipe.bytes()
    }

    /// The table, or why it is refused: a handle of another table, more than 58 resources, more than 67,108,864 bytes.
    pub fn try_table(&self) -> Result<Vec<u8>, Refusal> {
        self.recipe.try_table()
    }
}

impl Aml for PPTT {
    fn to_aml_bytes(&self, sink: &mut dyn AmlSink) {
        self.recipe.to_aml_bytes(sink);
    }
}

#[derive(Clone, Debug)]
pub struct ProcessorNode {
    pub flags: u32,
    /// The parent's ordinal (acpi_tables: its offset); 0 for none.
    pub parent: u32,
    pub acpi_processor_id: u32,
    resources: Vec<CacheHandle>,
}

impl ProcessorNode {
    const PHYSICAL: u32 = 1 << 0;
    const VALID: u32 = 1 << 1;
    const THREAD: u32 = 1 << 2;
    const LEAF: u32 = 1 << 3;
    const IDENTICAL: u32 = 1 << 4;

    pub fn new(parent: Option<&ProcessorHandle>, acpi_processor_id: u32) -> Self {
        ProcessorNode { flags: 0, parent: parent.map_or(0, |handle| handle.0), acpi_processor_id, resources: Vec::new() }
    }

    pub fn add_cache(mut self, c: &CacheHandle) -> Self {
        self.resources.push(*c);
        self
    }

    fn flagged(mut self, flag: u32) -> Self {
        self.flags |= flag;
        self
    }

    pub fn physical(self) -> Self {
        self.flagged(Self::PHYSICAL)
    }

    pub fn valid(self) -> Self {
        self.flagged(Self::VALID)
    }

    pub fn thread(self) -> Self {
        self.flagged(Self::THREAD)
    }

    pub fn leaf(self) -> Self {
        self.flagged(Self::LEAF)
    }

    pub fn identical(self) -> Self {
        self.flagged(Self::IDENTICAL)
    }
}

#[derive(Copy, Clone, Debug, PartialEq)]
#[repr(u8)]
pub enum AllocationType {
    Read = 0,
    Write = 1,
    Both = 2,
}

#[derive(Copy, Clone, Debug, PartialEq)]
#[repr(u8)]
pub enum CacheType {
    Data = 0,
    Instruction = 4,
    Unified = 8,
}

#[derive(Copy, Clone, Debug, PartialEq)]
#[repr(u8)]
pub enum WritePolicy {
    Writeback = 0,
    Writethrough = 16,
}

#[derive(Copy, Clone, Debug, Default)]
pub struct CacheNodeBuilder {
    next_level: u32,
    size: u32,
    set_count: u32,
    associativity: u8,
    attributes: u8,
    line_size: u16,
    id: u32,
    flags: u8,
}

impl CacheNodeBuilder {
    const SIZE: u8 = 1 << 0;
    const SETS: u8 = 1 << 1;
    const ASSOCIATIVITY: u8 = 1 << 2;
    const ALLOCATION: u8 = 1 << 3;
    const TYPE: u8 = 1 << 4;
    const POLICY: u8 = 1 << 5;
    const LINE_SIZE: u8 = 1 << 6;
    const ID: u8 = 1 << 7;

    pub fn next_level(mut self, c: &CacheHandle) -> Self {
        self.next_level = c.0;
        self
    }

    pub fn size(mut self, size: u32) -> Self {
        self.size = size;
        self.flags |= Self::SIZE;
        self
    }

    pub fn sets(mut self, set_count: u32) -> Self {
        self.set_count = set_count;
        self.flags |= Self::SETS;
        self
    }

    pub fn associativity(mut self, associativity: u8) -> Self {
        self.associativity = associativity;
        self.flags |= Self::ASSOCIATIVITY;
        self
    }

    pub fn allocation_type(mut self, a: AllocationType) -> Self {
        self.attributes |= a as u8;
        self.flags |= Self::ALLOCATION;
        self
    }

    pub fn cache_type(mut self, c: CacheType) -> Self {
        self.attributes |= c as u8;
        self.flags |= Self::TYPE;
        self
    }

    pub fn write_policy(mut self, w: WritePolicy) -> Self {
        self.attributes |= w as u8;
        self.flags |= Self::POLICY;
        self
    }

    pub fn line_size(mut self, line_size: u16) -> Self {
        self.line_size = line_size;
        self.flags |= Self::LINE_SIZE;
        self
    }

    pub fn id(mut self, id: u32) -> Self {
        self.id = id;
        self.flags |= Self::ID;
        self
    }

    pub fn to_node(self) -> CacheNode {
        CacheNode(self)
    }
}

/// A cache that is complete.
#[derive(Copy, Clone, Debug, Default)]
pub struct CacheNode(CacheNodeBuilder);

impl CacheNode {
    /// The length of its record.
    #[allow(clippy::len_without_is_empty)]
    pub fn len() -> usize {
        28
    }
}
