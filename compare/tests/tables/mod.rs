//! Entries and frames by their fields, and what a lookup has to say of them, in the papers' words.

/// What an entry of kind 4 asks for beside address, choice and VLAN.
#[derive(Clone, Copy, Debug)]
pub struct Ip {
    pub source: [u8; 4],
    pub destination: [u8; 4],
    pub dscp: u8,
    pub next: u8,
    pub ports: [u16; 2],
}

impl Ip {
    /// Every IP header that is whole and not bad.
    pub const ANY: Ip =
        Ip { source: [0; 4], destination: [0; 4], dscp: 255, next: 1, ports: [0; 2] };
}

#[derive(Clone, Copy, Debug)]
pub struct Entry {
    pub kind: u8,
    pub address: [u8; 6],
    pub choice: u8,
    pub vlan: u16,
    /// Of kind 4 alone.
    pub ip: Ip,
    pub handle: u16,
}

impl Entry {
    pub fn octets(&self) -> Vec<u8> {
        let mut octets = vec![self.kind];
        octets.extend(self.address);
        octets.push(self.choice);
        octets.extend(self.vlan.to_be_bytes());
        if self.kind == 4 {
            octets.extend(self.ip.source);
            octets.extend(self.ip.destination);
            octets.extend([self.ip.dscp, self.ip.next]);
            octets.extend(self.ip.ports.map(u16::to_be_bytes).concat());
        }
        octets.extend(self.handle.to_be_bytes());
        octets
    }
}

pub fn table(entries: &[Entry]) -> Vec<u8> {
    entries.iter().flat_map(Entry::octets).collect()
}

#[derive(Clone, Debug)]
pub struct Frame {
    pub destination: [u8; 6],
    pub source: [u8; 6],
    pub vlan: Option<u16>,
    /// An R-TAG or an HSR tag, or none.
    pub tag: &'static [u8],
    pub ethertype: u16,
    pub payload: Vec<u8>,
}

impl Frame {
    pub fn octets(&self) -> Vec<u8> {
        let mut octets = [self.destination, self.source].concat();
        if let Some(vlan) = self.vlan {
            octets.extend([0x81, 0x00, 0xE0 | (vlan >> 8) as u8, vlan as u8]);
        }
        octets.extend(self.tag);
        octets.extend(self.ethertype.to_be_bytes());
        octets.extend(&self.payload);
        octets
    }
}

/// Whether an entry in range matches, by the sentences in the papers.
pub fn fits(entry: &Entry, frame: &Frame) -> bool {
    let compared = match entry.kind {
        2 => frame.source,
        _ => frame.destination,
    };
    let allowed = [frame.vlan.is_some(), frame.vlan.is_none() || frame.vlan == Some(0), true];
    entry.address == compared
        && allowed[usize::from(entry.choice) - 1]
        && (entry.vlan == 0 || entry.vlan == frame.vlan.unwrap_or(0))
        && (entry.kind != 4 || ip_fits(&entry.ip, frame.ethertype, &frame.payload))
}

fn ip_fits(ip: &Ip, ethertype: u16, payload: &[u8]) -> bool {
    // "A type other than 0800 .. is no match." A payload of no octets is shorter than any header.
    if ethertype != 0x0800 || payload.is_empty() {
        return false;
    }
    // "Bad means a version other than 4 or a header length below 5 words."
    let (version, words) = (payload[0] / 16, payload[0] % 16);
    // "Cut means a payload shorter than its header, or than that plus four octets where a port is asked."
    let header = 4 * usize::from(words);
    let port_asked = ip.next != 1 && ip.ports != [0, 0];
    let least = if port_asked { header + 4 } else { header };
    if version != 4 || words < 5 || payload.len() < least {
        return false;
    }
    // "A later fragment where a port is asked is no match." The three highest bits are flags.
    let first_fragment = payload[6] % 32 == 0 && payload[7] == 0;
    if port_asked && !first_fragment {
        return false;
    }
    // "1 none, 2 UDP, 3 TCP, 4 SCTP. With none, protocol and ports aren't compared."
    let protocol = [payload[9], 17, 6, 132][usize::from(ip.next) - 1];
    let port = |at: usize| u16::from(payload[at]) * 256 + u16::from(payload[at + 1]);
    (ip.source == [0; 4] || ip.source == payload[12..16])
        && (ip.destination == [0; 4] || ip.destination == payload[16..20])
        && (ip.dscp == 255 || ip.dscp == payload[1] / 4)
        && protocol == payload[9]
        && (!port_asked || ip.ports[0] == 0 || ip.ports[0] == port(header))
        && (!port_asked || ip.ports[1] == 0 || ip.ports[1] == port(header + 2))
}
