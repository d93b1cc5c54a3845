//! Times the proved library and ordinary fast Rust on the same pools, turn by turn, and prints times and ratios.
#![deny(warnings)]
#![forbid(unsafe_code)]

mod jobs;
mod plot;
mod timing;

use jobs::{Job, Pools};
use timing::{pair, Times};

/// A job's times on pools of one width and size.
pub struct Row {
    pub width: u32,
    pub nodes: usize,
    pub job: Job,
    pub times: Times,
}

const SEED: u64 = 20261115;
const SIZES: [usize; 4] = [1_000, 4_000, 16_000, 60_000];

fn main() {
    let plot_file = std::env::args().nth(1);
    println!("seed {SEED}; a pool: each node below one drawn from all, one in five without data, the right pool is the left one with");
    println!("a third of the nodes' data drawn anew and one node in twenty cut off; roots 0/0; equality: a pool against itself.");
    println!("ns a node: of the left pool. A list's Rust walks and writes once and checks nothing; ours checks both pools and writes; without spare room it counts first.");
    println!();
    println!("| width | nodes | job | Rust, us | ours, us | ours without checks, us | Rust / ours | Rust / ours without checks | ours, ns a node |");
    println!("|---|---|---|---|---|---|---|---|---|");
    let mut rows = Vec::new();
    for width in [32, 64] {
        for nodes in SIZES {
            eprintln!("width {width}, {nodes} nodes");
            let mut pools = Pools::new(SEED, width, nodes);
            for job in jobs::ALL {
                pools.agree(job);
                let row = Row {
                    width,
                    nodes,
                    job,
                    times: pair(&mut pools, job),
                };
                println!("{}", line(&row));
                rows.push(row);
            }
        }
    }
    if let Some(file) = plot_file {
        std::fs::write(&file, plot::svg(&rows))
            .unwrap_or_else(|e| panic!("cannot write {file}: {e}"));
    }
}

/// A row of the table.
fn line(row: &Row) -> String {
    let Times {
        rust,
        ours,
        ours_alone,
    } = row.times;
    format!(
        "| {} | {} | {} | {:.1} | {:.1} | {:.1} | {:.2} | {:.2} | {:.1} |",
        row.width,
        row.nodes,
        row.job.name(),
        rust / 1e3,
        ours / 1e3,
        ours_alone / 1e3,
        rust / ours,
        rust / ours_alone,
        ours / row.nodes as f64
    )
}
