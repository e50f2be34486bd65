//! Replays the committed list on the oracle as a program without heap memory would: bytes come
//! in pieces whose length is known, and each answer is compared while it is read. This reader
//! shares nothing with the crate's own writer and reader.

use oracle::{HNSWParams, Metric, Oracle};
use std::io::Read;

struct Replay<R: Read> {
    from: R,
    dimension: usize,
    vector: [f32; 256],
    searches: usize,
    builds: usize,
}

impl<R: Read> Replay<R> {
    fn bytes<const N: usize>(&mut self) -> [u8; N] {
        let mut piece = [0; N];
        self.from.read_exact(&mut piece).unwrap();
        piece
    }

    fn byte(&mut self) -> u8 {
        self.bytes::<1>()[0]
    }

    fn short(&mut self) -> usize {
        u16::from_le_bytes(self.bytes()) as usize
    }

    fn vector(&mut self) {
        for at in 0..self.dimension {
            self.vector[at] = f32::from_bits(u32::from_le_bytes(self.bytes()));
        }
    }

    fn scenario(&mut self) {
        assert_eq!(self.byte(), 1);
        let mut oracle = self.begin();
        loop {
            match self.byte() {
                0 => return,
                2 => {
                    let level = self.byte() as usize;
                    self.vector();
                    oracle.add(&self.vector[..self.dimension], level);
                }
                3 => self.build(&mut oracle),
                4 => oracle.mark(self.short()),
                5 => self.search(&oracle),
                tag => panic!("tag {tag}"),
            }
        }
    }

    fn begin(&mut self) -> Oracle {
        self.dimension = self.short();
        let params = HNSWParams {
            max_item: self.short(),
            n_neighbor: self.short(),
            n_neighbor0: self.short(),
            max_level: self.short(),
            ef_build: self.short(),
            ef_search: self.short(),
            has_deletion: self.short() == 1,
            e_type: 0.0,
        };
        Oracle::new(self.dimension, &params)
    }

    fn build(&mut self, oracle: &mut Oracle) {
        self.builds += 1;
        oracle.build(match self.short() {
            1 => Metric::Manhattan,
            2 => Metric::DotProduct,
            3 => Metric::Euclidean,
            number => panic!("metric {number}"),
        });
        assert_eq!(self.short(), oracle.built());
        for id in 0..oracle.built() {
            assert_eq!(self.byte() as usize, oracle.level(id));
            for level in 0..=oracle.level(id) {
                let links = oracle.links(id, level);
                assert_eq!(self.short(), links.len());
                links.iter().for_each(|to| assert_eq!(self.short(), *to));
            }
        }
    }

    fn search(&mut self, oracle: &Oracle) {
        self.searches += 1;
        let k = self.short();
        self.vector();
        let found = oracle.search(&self.vector[..self.dimension], k);
        assert_eq!(self.short(), found.len());
        for (id, distance) in found {
            assert_eq!(self.short(), id);
            assert_eq!(u32::from_le_bytes(self.bytes()), distance.to_bits());
        }
    }
}

#[test]
fn the_oracle_answers_as_the_list_says() {
    let path = concat!(env!("CARGO_MANIFEST_DIR"), "/oracle.list");
    let mut replay = Replay {
        from: std::io::BufReader::new(std::fs::File::open(path).unwrap()),
        dimension: 0,
        vector: [0.0; 256],
        searches: 0,
        builds: 0,
    };
    assert_eq!(&replay.bytes::<8>(), b"GASKLIST");
    let count = u32::from_le_bytes(replay.bytes());
    for _ in 0..count {
        replay.scenario();
    }
    assert_eq!(replay.byte(), 255);
    assert_eq!(replay.from.read(&mut [0]).unwrap(), 0);
    assert!(replay.builds >= 300 && replay.searches >= 300);
}
