//! Listener addresses, of which each is two words.
use std::net::{IpAddr, Ipv6Addr};

/// The words of a column of type IpAddr: two for each address, the high word first. An IPv4 address
/// becomes the IPv6 address that it is mapped to, as `::ffff:192.0.2.7`.
///
/// ```
/// use jadmirus::{ColumnType, Segment, ip_words};
/// use std::net::Ipv4Addr;
///
/// let words = ip_words([Ipv4Addr::new(192, 0, 2, 7)]);
/// assert_eq!(words, [0, 0xffff_c000_0207]);
/// let segment = Segment::optional(ColumnType::IpAddr, 3, vec![1], words);
/// ```
pub fn ip_words<A: Into<IpAddr>>(addresses: impl IntoIterator<Item = A>) -> Vec<u64> {
    let words: Vec<_> = addresses.into_iter().map(words_of).collect();
    words.into_flattened()
}

/// The addresses that the words of a column of type IpAddr stand for. A last word without its
/// second one is passed over.
///
/// ```
/// use jadmirus::ip_addrs;
///
/// let addresses = [0x2001_0db8_0000_0000, 1, 0, 0xffff_c000_0207];
/// let text: Vec<String> = ip_addrs(&addresses).map(|a| a.to_string()).collect();
/// assert_eq!(text, ["2001:db8::1", "::ffff:192.0.2.7"]);
/// ```
pub fn ip_addrs(words: &[u64]) -> impl ExactSizeIterator<Item = Ipv6Addr> {
    let (pairs, _) = words.as_chunks();
    pairs.iter().map(|&[high, low]| ip_addr(high, low))
}

pub(crate) fn words_of(address: impl Into<IpAddr>) -> [u64; 2] {
    let bits = match address.into() {
        IpAddr::V4(address) => address.to_ipv6_mapped().to_bits(),
        IpAddr::V6(address) => address.to_bits(),
    };
    [(bits >> 64) as u64, bits as u64]
}

pub(crate) fn ip_addr(high: u64, low: u64) -> Ipv6Addr {
    Ipv6Addr::from_bits(u128::from(high) << 64 | u128::from(low))
}
