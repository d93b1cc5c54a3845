//! A network such as 10.0.0.0/8 or 2001:db8::/32.

use std::fmt;
use std::net::{IpAddr, Ipv4Addr, Ipv6Addr};

/// A prefix of a width: 32 for IPv4, 64 for the first half of IPv6.
#[derive(Clone, Copy, Debug, PartialEq, Eq)]
pub struct Network {
    pub width: u32,
    pub key: u64,
    pub len: u32,
}

/// The key of an address, and the width.
fn key_of(address: IpAddr) -> (u64, u32) {
    match address {
        IpAddr::V4(a) => (u64::from(u32::from(a)) << 32, 32),
        IpAddr::V6(a) => ((u128::from(a) >> 64) as u64, 64),
    }
}

/// The first bits of a key.
pub fn cut(key: u64, len: u32) -> u64 {
    match len {
        0 => 0,
        _ => key >> (64 - len) << (64 - len),
    }
}

impl Network {
    /// The network that a text names, or what is wrong with it.
    pub fn parse(text: &str) -> Result<Network, String> {
        let (address, len) = text
            .split_once('/')
            .ok_or_else(|| format!("'{text}' has no length such as /8"))?;
        let address: IpAddr = address
            .parse()
            .map_err(|_| format!("'{address}' is no IPv4 or IPv6 address"))?;
        let is_plain = !len.is_empty() && len.len() <= 3 && len.bytes().all(|b| b.is_ascii_digit());
        let len = match len.parse::<u32>() {
            Ok(n) if is_plain && (len == "0" || !len.starts_with('0')) => n,
            _ => return Err(format!("'/{len}' is no length")),
        };
        let (key, width) = key_of(address);
        if len > width {
            return Err(too_long(width, len));
        }
        let network = Network { width, key, len };
        network.without_stray_bits(address)
    }

    /// The network itself, if no bit of the address is set past the length.
    fn without_stray_bits(self, address: IpAddr) -> Result<Network, String> {
        let low = match address {
            IpAddr::V4(_) => 0,
            IpAddr::V6(a) => u128::from(a) as u64,
        };
        let clean = Network {
            key: cut(self.key, self.len),
            ..self
        };
        if clean != self || low != 0 {
            let len = self.len;
            return Err(format!(
                "{address}/{len} has bits set past its length; is {clean} meant?"
            ));
        }
        Ok(self)
    }
}

/// Why a length is too long.
fn too_long(width: u32, len: u32) -> String {
    match width {
        32 => format!("/{len} is longer than an IPv4 address"),
        _ => format!("/{len} is longer than /64, the longest IPv6 prefix that fits a pool"),
    }
}

impl fmt::Display for Network {
    fn fmt(&self, f: &mut fmt::Formatter) -> fmt::Result {
        match self.width {
            32 => write!(
                f,
                "{}/{}",
                Ipv4Addr::from((self.key >> 32) as u32),
                self.len
            ),
            _ => write!(
                f,
                "{}/{}",
                Ipv6Addr::from(u128::from(self.key) << 64),
                self.len
            ),
        }
    }
}
