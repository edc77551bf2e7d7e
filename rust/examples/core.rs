//! A package with one core and its cache, built and read back.
use ispalmutzu::pptt::{CacheNodeBuilder, ProcessorNode, PPTT};
use ispalmutzu::{records, Aml, EVERY};

fn main() {
    let mut pptt = PPTT::new(*b"VMMOEM", *b"VMMTABLE", 1);
    let cache = pptt.add_cache(CacheNodeBuilder::default().size(1 << 20).line_size(64).to_node());
    let package = pptt.add_processor(ProcessorNode::new(None, 0).physical().valid());
    pptt.add_processor(ProcessorNode::new(Some(&package), 0).valid().leaf().add_cache(&cache));
    let mut table = Vec::new();
    pptt.to_aml_bytes(&mut table);
    for record in records(&table, EVERY).expect("what is built is accepted") {
        println!("{} {} {:?}", record.place, record.length, record.node);
    }
}
