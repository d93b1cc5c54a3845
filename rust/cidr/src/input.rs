//! Lists of networks to the text program's input, and to the words of a pool.

use crate::list;
use crate::network::Network;
use pools::Table;
use std::fmt::Write as _;
use std::fs::File;
use std::io::BufReader;

/// What the text program takes.
const MOST_NODES: usize = 1_024;
const MOST_BYTES: usize = 65_536;

/// The networks of a file, with their lines.
pub fn open(file: &str) -> Result<Vec<(usize, Network)>, String> {
    let opened = File::open(file).map_err(|e| format!("{file}: {e}"))?;
    list::read(file, BufReader::new(opened))
}

/// The pool words of a list; a network that is there twice is told of and counts once.
pub fn pool(name: &str, networks: &[(usize, Network)]) -> Vec<u32> {
    let mut table = Table::from([((0, 0), 0)]);
    for (at, network) in networks {
        if !pools::add_prefix(&mut table, network.key, network.len) {
            eprintln!("{name}: line {at}: {network} is there twice");
        }
    }
    pools::words(&table)
}

/// The node lines of a pool.
fn node_lines(text: &mut String, letter: char, pool: &[u32]) {
    for node in pool.chunks_exact(4) {
        writeln!(text, "{letter}\t{:08x}\t{:08x}", node[0], node[1]).expect("text takes all");
    }
}

/// A call of the text program.
pub struct Call {
    pub operation: String,
    pub left: String,
    pub right: String,
    pub left_root: Option<Network>,
    pub right_root: Option<Network>,
}

/// A root line: the root given, or the whole pool.
fn root_line(letter: char, root: Option<Network>) -> String {
    let (key, len) = root.map_or((0, 0), |root| (root.key, root.len));
    format!("{letter}\t{key:016x}\t{len}\n")
}

/// The program's input for a call.
pub fn text(call: &Call) -> Result<String, String> {
    let (left, right) = (open(&call.left)?, open(&call.right)?);
    let roots = [call.left_root, call.right_root];
    let roots: Vec<_> = roots.iter().flatten().map(|&root| (0, root)).collect();
    let lists = [
        (&call.left[..], &left[..]),
        (&call.right, &right),
        ("a root", &roots),
    ];
    let width = list::common_width(&lists)?;
    let mut text = format!("W\t{width}\nO\t{}\n", call.operation);
    text += &root_line('L', call.left_root);
    text += &root_line('R', call.right_root);
    for (letter, name, networks) in [('l', &call.left, &left), ('r', &call.right, &right)] {
        let pool = pool(name, networks);
        let nodes = pool.len() / 4;
        if nodes > MOST_NODES {
            return Err(format!(
                "{name}: its pool has {nodes} nodes, and the text program takes {MOST_NODES}"
            ));
        }
        node_lines(&mut text, letter, &pool);
    }
    if text.len() > MOST_BYTES {
        let bytes = text.len();
        return Err(format!(
            "the input would have {bytes} bytes, and the text program takes {MOST_BYTES}"
        ));
    }
    Ok(text)
}
