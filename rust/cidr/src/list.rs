//! A list of networks, one to a line.

use crate::network::Network;
use std::io::BufRead;

/// Lines between two words of progress.
const STRIDE: usize = 100_000;

/// The networks of a list, in its order, each with its line. Empty lines and lines that begin with # are passed over.
pub fn read(name: &str, input: impl BufRead) -> Result<Vec<(usize, Network)>, String> {
    let mut networks = Vec::new();
    for (place, line) in input.split(b'\n').enumerate() {
        let at = place + 1;
        let line = line.map_err(|e| format!("{name}: {e}"))?;
        let line = String::from_utf8(line).map_err(|_| format!("{name}: line {at}: not UTF-8"))?;
        let text = line.trim();
        if !text.is_empty() && !text.starts_with('#') {
            let network = Network::parse(text).map_err(|e| format!("{name}: line {at}: {e}"))?;
            networks.push((at, network));
        }
        if at % STRIDE == 0 {
            eprintln!("{name}: {at} lines read");
        }
    }
    Ok(networks)
}

/// The width of lists that must all be of one kind: 32 or 64, or 32 where there is nothing.
pub fn common_width(lists: &[(&str, &[(usize, Network)])]) -> Result<u32, String> {
    let mut width = None;
    for (name, list) in lists {
        for (at, network) in *list {
            let first = *width.get_or_insert(network.width);
            if network.width != first {
                return Err(format!(
                    "{name}: line {at}: {network} among networks of the other kind"
                ));
            }
        }
    }
    Ok(width.unwrap_or(32))
}
