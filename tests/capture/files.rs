//! Capture files of the test: classic pcap and pcapng, in either byte order.

use std::ops::Range;

/// A packet as it was captured. `original` is its length on the link, and the
/// time is in microseconds.
#[derive(Clone)]
pub struct Packet {
    pub data: Vec<u8>,
    pub original: usize,
    pub time: u64,
}

/// Packets that are captured whole, a millisecond apart.
pub fn packets(all: &[Vec<u8>]) -> Vec<Packet> {
    let packet = |(at, data): (usize, &Vec<u8>)| Packet {
        data: data.clone(),
        original: data.len(),
        time: 1_700_000_000_000_000 + 1000 * at as u64,
    };
    all.iter().enumerate().map(packet).collect()
}

/// Which block of pcapng holds a packet.
#[derive(Clone, Copy, Debug, PartialEq)]
pub enum Block {
    Enhanced,
    Simple,
    Old,
}

#[derive(Clone, Copy, Debug)]
pub enum Form {
    Pcap { big: bool, nano: bool },
    Ng { big: bool, block: Block },
}

pub const PCAP: Form = Form::Pcap {
    big: false,
    nano: false,
};
pub const NG: Form = Form::Ng {
    big: false,
    block: Block::Enhanced,
};

pub fn forms() -> Vec<Form> {
    let mut all = Vec::new();
    for big in [false, true] {
        for nano in [false, true] {
            all.push(Form::Pcap { big, nano });
        }
        for block in [Block::Enhanced, Block::Simple, Block::Old] {
            all.push(Form::Ng { big, block });
        }
    }
    all
}

/// A file as it grows: where each record with a packet ends, and where the
/// octets of its packet are.
pub struct Writer {
    pub big: bool,
    pub octets: Vec<u8>,
    pub ends: Vec<usize>,
    pub data: Vec<Range<usize>>,
}

impl Writer {
    pub fn new(big: bool) -> Writer {
        Writer {
            big,
            octets: Vec::new(),
            ends: Vec::new(),
            data: Vec::new(),
        }
    }

    pub fn two(&self, value: u16) -> [u8; 2] {
        if self.big {
            value.to_be_bytes()
        } else {
            value.to_le_bytes()
        }
    }

    pub fn four(&self, value: usize) -> [u8; 4] {
        if self.big {
            (value as u32).to_be_bytes()
        } else {
            (value as u32).to_le_bytes()
        }
    }

    pub fn fours(&self, values: &[usize]) -> Vec<u8> {
        values.iter().flat_map(|v| self.four(*v)).collect()
    }

    fn close(&mut self, data: usize, length: usize) {
        self.data.push(data..data + length);
        self.ends.push(self.octets.len());
    }

    pub fn pcap(&mut self, nano: bool, link: u32) {
        let magic = if nano { 0xA1B2_3C4D } else { 0xA1B2_C3D4 };
        self.octets.extend(self.four(magic));
        self.octets.extend([self.two(2), self.two(4)].concat());
        self.octets
            .extend(self.fours(&[0, 0, 262_144, link as usize]));
    }

    pub fn record(&mut self, nano: bool, packet: &Packet) {
        let scale = if nano { 1000 } else { 1 };
        let seconds = (packet.time / 1_000_000) as usize;
        let rest = (packet.time % 1_000_000) as usize * scale;
        let header = self.fours(&[seconds, rest, packet.data.len(), packet.original]);
        self.octets.extend(header);
        let data = self.octets.len();
        self.octets.extend(&packet.data);
        self.close(data, packet.data.len());
    }

    /// Any block: its body is made a multiple of four octets long.
    pub fn block(&mut self, kind: usize, body: &[u8]) {
        let length = 12 + body.len().div_ceil(4) * 4;
        self.octets.extend(self.fours(&[kind, length]));
        self.octets.extend(body);
        self.octets.resize(self.octets.len().div_ceil(4) * 4, 0);
        self.octets.extend(self.four(length));
    }

    pub fn section(&mut self) {
        // Blocks are counted from the start of the file in whole words.
        assert!(self.octets.len().is_multiple_of(4));
        let mut body = self.four(0x1A2B_3C4D).to_vec();
        body.extend([self.two(1), self.two(0)].concat());
        body.extend([0xFF; 8]);
        self.block(0x0A0D_0D0A, &body);
    }

    /// An interface whose times are of this resolution (option 9), where given.
    pub fn interface(&mut self, link: u32, snap: usize, resolution: Option<u8>) {
        let mut body = [self.two(link as u16), [0; 2]].concat();
        body.extend(self.four(snap));
        if let Some(units) = resolution {
            body.extend([self.two(2), self.two(3)].concat());
            body.extend(b"eth\0");
            body.extend([self.two(9), self.two(1)].concat());
            body.extend([units, 0, 0, 0, 0, 0, 0, 0]);
        }
        self.block(1, &body);
    }

    /// A packet in a block, with the time in the units of its interface.
    pub fn packet(&mut self, block: Block, interface: usize, time: u64, packet: &Packet) {
        let (high, low) = ((time >> 32) as usize, (time & 0xFFFF_FFFF) as usize);
        let lengths = [packet.data.len(), packet.original];
        let mut body = match block {
            Block::Enhanced => self.fours(&[interface, high, low]),
            Block::Simple => self.four(packet.original).to_vec(),
            Block::Old => [self.two(interface as u16), [0xFF; 2]].concat(),
        };
        match block {
            Block::Enhanced => body.extend(self.fours(&lengths)),
            Block::Simple => {}
            Block::Old => body.extend(self.fours(&[high, low, lengths[0], lengths[1]])),
        }
        let data = self.octets.len() + 8 + body.len();
        body.extend(&packet.data);
        // Every other packet has a comment behind it.
        if block != Block::Simple && self.ends.len() % 2 == 1 {
            body.resize(body.len().div_ceil(4) * 4, 0);
            body.extend([self.two(1), self.two(3)].concat());
            body.extend(b"why\0\0\0\0\0");
        }
        let kind = match block {
            Block::Enhanced => 6,
            Block::Simple => 3,
            Block::Old => 2,
        };
        self.block(kind, &body);
        self.close(data, packet.data.len());
    }
}

/// A capture of one link type.
pub fn file(form: Form, link: u32, packets: &[Packet]) -> Writer {
    match form {
        Form::Pcap { big, nano } => {
            let mut writer = Writer::new(big);
            writer.pcap(nano, link);
            for packet in packets {
                writer.record(nano, packet);
            }
            writer
        }
        Form::Ng { big, block } => {
            let mut writer = Writer::new(big);
            writer.section();
            // Microseconds are also what no option means.
            writer.interface(link, 0, big.then_some(6));
            for packet in packets {
                writer.packet(block, 0, packet.time, packet);
            }
            writer
        }
    }
}
