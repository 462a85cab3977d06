//! The proved code beside the published Rust and beside a plain read of the same memory, in one
//! process. `bench CSV [SIZE ..] [NAME ..]`: prints the table and stores it; with names only the
//! operations whose name starts with one of them.
mod beside;
mod counts;
mod files;
mod input;
mod maps;
mod measure;
mod nodes;
mod plain;
mod table;

const SIZES: [usize; 4] = [1_000, 10_000, 100_000, 1_000_000];

fn main() {
    let mut args = std::env::args().skip(1);
    let csv = args.next().expect("usage: bench CSV [SIZE ..] [NAME ..]");
    let (numbers, names): (Vec<_>, Vec<_>) = args.partition(|a| a.parse::<usize>().is_ok());
    let named: Vec<usize> = numbers.iter().flat_map(|n| n.parse()).collect();
    let sizes = if named.is_empty() { &SIZES[..] } else { &named };
    beside::set_facts(&input::FACTS);
    println!("ns for one node, entry or count, best of {} rounds in turn", measure::ROUNDS);
    let mut table = table::Table::new(names);
    for &n in sizes {
        nodes::rows(&mut table, n);
        maps::rows(&mut table, n);
        files::rows(&mut table, n);
        counts::rows(&mut table, n);
    }
    table.store(&csv).expect("the CSV file");
}
