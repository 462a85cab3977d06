//! layout FILE: where a file's roots, entries and advice values lie, or why it is refused.
use vekalumist::{Facts, Forest, ScanOptions, Word};

fn main() -> Result<(), Box<dyn std::error::Error>> {
    let facts = Facts { magic: *b"MAST", version: [0, 0, 2], hashless: 0x02, reserved: 0xFC, max_nodes: (1 << 30) - 1 };
    let file = std::fs::read(std::env::args().nth(1).ok_or("usage: layout FILE")?)?;
    let forest = Forest::scan(&file, &facts, ScanOptions::new().allow_hashless())?; // or a refusal with its number and place
    println!("{} nodes, entries at byte {}", forest.layout().node_count, forest.layout().node_entry_offset);
    for root in forest.roots() {
        let root = root?; // a NodeId; a root that names no node is refused here
        println!("root: node {root}, {}", forest.entry(root)?);
        for child in forest.children(root)? {
            println!("  child: node {child}, {}", forest.entry(child)?); // a child that is no node is refused here
        }
    }
    let mut keys = vec![0; forest.key_places()]; // lent: a place for each entry of the map
    let map = forest.advice(&mut keys)?;
    for entry in &map {
        let entry = entry?; // keys rise, whatever their order in the file
        println!("{}: {} values at byte {}", entry.key, entry.values.len(), entry.values.offset());
    }
    match map.get(Word([1, 0, 0, 0]))? {
        Some(values) => println!("key 1,0,0,0: {:?}", values.iter().collect::<Vec<u64>>()),
        None => println!("key 1,0,0,0 is absent"),
    }
    println!("the map ends at byte {}, and {} bytes follow", map.end(), map.trailing());
    Ok(())
}
