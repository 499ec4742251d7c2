//! The assembler: whole blocks from fragments that come in rising order, one block after the other or many in turn.

use std::hint::black_box;

use crate::rounds::Case;
use protocol::Random;

const BLOCKS: u32 = 32;
/// When every fragment comes: the original's clock stands there too.
const NOW: u64 = 1;

pub fn cases() -> Vec<Box<dyn Case>> {
    let large = Shape {
        fragment_size: 1_024,
        fragments: 8,
    };
    let small = Shape {
        fragment_size: 64,
        fragments: 16,
    };
    let rows = [
        ("fragments of 1,024 by eight, one block at a time", large, Order::InTurn),
        ("fragments of 1,024 by eight, copied out", large, Order::CopiedOut),
        (
            "fragments of 1,024 by eight, 32 blocks interleaved",
            large,
            Order::Interleaved,
        ),
        ("fragments of 64 by sixteen, one block at a time", small, Order::InTurn),
        (
            "fragments of 64 by sixteen, 32 blocks interleaved",
            small,
            Order::Interleaved,
        ),
    ];
    let case = |(name, shape, order)| -> Box<dyn Case> { Box::new(Fragments::new(name, shape, order)) };
    rows.into_iter().map(case).collect()
}

#[derive(Clone, Copy)]
struct Shape {
    fragment_size: u16,
    fragments: u32,
}

impl Shape {
    fn block(&self) -> u32 {
        u32::from(self.fragment_size) * self.fragments
    }
}

#[derive(Clone, Copy, PartialEq, Eq)]
enum Order {
    /// One block is whole before the next begins.
    InTurn,
    /// The same, and the port's block is copied out of the area, as one that is kept must be.
    CopiedOut,
    /// The first fragments of all blocks, then the second ones, and so on.
    Interleaved,
}

struct Fragments {
    name: &'static str,
    order: Order,
    original: original::FragmentAssembler,
    port: drucenal::FragmentAssembler,
    datafrags: Vec<original::DataFrag>,
}

impl Fragments {
    fn new(name: &'static str, shape: Shape, order: Order) -> Self {
        original::Timestamp::set_now(NOW);
        let datafrag = |at: u32| {
            let (block, fragment) = match order {
                Order::InTurn | Order::CopiedOut => (at / shape.fragments, at % shape.fragments),
                Order::Interleaved => (at % BLOCKS, at / BLOCKS),
            };
            original::DataFrag {
                writer_sn: original::SequenceNumber::from(i64::from(block + 1)),
                fragment_starting_num: original::FragmentNumber::from(fragment + 1),
                fragments_in_submessage: 1,
                data_size: shape.block(),
                fragment_size: shape.fragment_size,
                serialized_payload: payload(at, shape.fragment_size).into(),
            }
        };
        let port = drucenal::FragmentAssembler::new(shape.fragment_size, true, shape.block());
        let mut fragments = Self {
            name,
            order,
            original: original::FragmentAssembler::new(shape.fragment_size, true),
            port: port.expect("the sizes are accepted"),
            datafrags: (0..BLOCKS * shape.fragments).map(datafrag).collect(),
        };
        fragments.compare();
        fragments
    }

    /// Every byte of every block is the same.
    fn compare(&mut self) {
        let (mut original, mut port) = (Vec::new(), Vec::new());
        self.by_original(|block| original.push(block.to_vec()));
        self.by_port(|block| port.push(block.to_vec()));
        assert_eq!(original.len(), BLOCKS as usize);
        assert!(original == port, "{}: other blocks", self.name);
    }

    #[inline(always)]
    fn by_original(&mut self, mut see: impl FnMut(&[u8])) {
        for datafrag in &self.datafrags {
            if let Some(data) = self.original.new_datafrag(black_box(datafrag)) {
                see(&data.0 .0);
            }
        }
    }

    #[inline(always)]
    fn by_port(&mut self, mut see: impl FnMut(&[u8])) {
        let copied = self.order == Order::CopiedOut;
        for datafrag in &self.datafrags {
            let outcome = self.port.new_datafrag(NOW, &for_the_port(black_box(datafrag)));
            if let Ok(drucenal::Outcome::Returned { place, length, .. }) = outcome {
                let shown = self.port.view(place, length as usize);
                if copied {
                    see(&black_box(shown.to_vec()));
                } else {
                    see(shown);
                }
            }
        }
    }
}

fn payload(seed: u32, length: u16) -> Vec<u8> {
    let mut random = Random::new(seed.into());
    (0..length).map(|_| random.bits() as u8).collect()
}

#[inline(always)]
fn for_the_port(datafrag: &original::DataFrag) -> drucenal::DataFrag<'_> {
    drucenal::DataFrag {
        writer_sn: datafrag.writer_sn.into(),
        fragment_starting_num: datafrag.fragment_starting_num.into(),
        fragments_in_submessage: datafrag.fragments_in_submessage,
        data_size: datafrag.data_size,
        fragment_size: datafrag.fragment_size,
        serialized_payload: &datafrag.serialized_payload,
    }
}

/// A finished block's length, and a byte of each eighth: few, so that looking costs little beside the calls.
fn look(block: &[u8]) -> u64 {
    let block = black_box(block);
    let eighths = block.iter().step_by(block.len() / 8);
    eighths.fold(block.len() as u64, |sum, byte| sum.rotate_left(5) ^ u64::from(*byte))
}

impl Case for Fragments {
    fn name(&self) -> &str {
        self.name
    }

    fn calls(&self) -> usize {
        self.datafrags.len()
    }

    fn original(&mut self) -> u64 {
        let mut sum = 0u64;
        self.by_original(|block| sum = sum.wrapping_add(look(block)));
        sum
    }

    fn port(&mut self) -> u64 {
        let mut sum = 0u64;
        self.by_port(|block| sum = sum.wrapping_add(look(block)));
        sum
    }

    fn agree(&self) -> bool {
        self.original.in_assembly() == 0 && self.port.in_assembly() == 0
    }
}
