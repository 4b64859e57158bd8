//! The plan reader's refusals, the packers', the plan's meaning, and series of loads.

use super::{map, plan, refused, words};
use crate::generate::{case_of, Call, Case, Size};
use crate::interface::map_of;
use crate::map::Map;
use crate::outcome::{Entry, Refusal};
use crate::pack;
use crate::plan::{meaning, read, stretch, Ending, Piece};
use crate::random::Random;
use crate::series::{granted, loads, meant, Medium};
use crate::{aplx, srom};

fn number(piece: [u32; 4], unit: u32) -> Result<(), u32> {
    let found = read(&plan(&[[2, 0, 32, 0], piece], &[0; 64]), unit);
    found.map(|_| ()).map_err(|refusal| {
        assert_eq!(refusal.place, 1);
        refusal.number
    })
}

#[test]
fn headers() {
    assert_eq!(read(&[0; 15], 1), refused(2, 0));
    assert_eq!(read(&words(&[65, 99, 99, 99]), 1), refused(11, 0));
    assert_eq!(read(&words(&[1, 16, 16, 0]), 1), refused(2, 0));
    assert_eq!(read(&words(&[0, 17, 16, 0]), 1), refused(2, 0), "even if empty");
    assert_eq!(read(&words(&[0, 16, 17, 0]), 1), refused(2, 0), "even if empty");
    assert_eq!(read(&words(&[0, 16, 15, 2]), 1), refused(2, 0));
    assert_eq!(read(&words(&[0, u32::MAX, 0, 0]), 1), refused(2, 0));
    assert_eq!(read(&words(&[0, 0, u32::MAX, 1]), 1), refused(2, 0), "sums do not wrap");
    assert_eq!(read(&words(&[0, 16, 16, 0]), 1), Ok(vec![]));
    // Table and header may share bytes: the first piece is the header itself.
    let shared = words(&[2, 0, 16, 0, 3, 4, 0, 0]);
    let fill = Piece::Fill { address: 0, length: 16, word: 0 };
    assert_eq!(read(&shared, 1), Ok(vec![fill, Piece::Run { address: 4 }]));
}

#[test]
fn pieces() {
    assert_eq!(number([0, 0, 0, 0], 1), Err(11));
    assert_eq!(number([4, 0, 0, 0], 1), Err(11));
    assert_eq!(number([3, 2, 1, 0], 1), Err(11));
    assert_eq!(number([3, 2, 0, 1], 1), Err(11));
    assert_eq!(number([3, 2, 0, 0], 1), Err(9));
    assert_eq!(number([3, 3, 0, 0], 1), Ok(()));
    assert_eq!(number([1, 1, 0, 0], 1), Err(5));
    assert_eq!(number([2, 1, 65_537, 0], 1), Err(11));
    assert_eq!(number([2, 0, 65_536, 0], 32), Ok(()));
    assert_eq!(number([1, 1, 65, 0], 1), Err(3));
    assert_eq!(number([1, 4, 65, 0], 32), Err(2));
    assert_eq!(number([1, 4, 1, 64], 1), Err(2));
    assert_eq!(number([1, 4, 32, u32::MAX], 1), Err(2), "sums do not wrap");
    assert_eq!(number([1, 4, 33, 31], 32), Err(12));
    assert_eq!(number([1, 4, 36, 28], 4), Ok(()));
    assert_eq!(number([1, 4, 33, 31], 1), Ok(()));
    let early = plan(&[[2, 0, 20, 0], [9, 0, 0, 0]], &[]);
    assert_eq!(read(&early, 32), refused(12, 0), "12 belongs to its piece");
    assert_eq!(read(&early, 4), refused(11, 1));
}

#[test]
fn the_lengths_of_images() {
    let bytes: Vec<u8> = (0..96).collect();
    let plan = plan(&[[1, 0, 32, 0], [2, 64, 32, 5], [3, 1, 0, 0], [1, 4, 64, 32]], &bytes);
    let mut output = vec![0; 300];
    assert_eq!(pack::pack_aplx(&plan, &mut output), Ok(16 * 5 + 96));
    assert_eq!(output[80..176], bytes[..]);
    assert_eq!(output[48..64], words(&[2, 4, 112 - 48, 64])[..]);
    assert_eq!(pack::pack_srom(&plan, &mut output), Ok(2 + 7 * 4 + 128));
    assert_eq!(pack::pack_srom(&plan, &mut output[..157]), refused(10, 4));
    assert_eq!(pack::pack_aplx(&plan, &mut output[..175]), refused(10, 4));
}

#[test]
fn the_meaning() {
    let map = map(&[[0x100, 16, 4, 6]]);
    let bytes = plan(
        &[[1, 0x100, 6, 1], [2, 0x104, 7, 0x0403_0201], [3, 0x101, 0, 0], [2, 0x100, 4, 0], [3, 0, 0, 0]],
        &[9, 10, 11, 12, 13, 14, 15],
    );
    let pieces = read(&bytes, 1).expect("a plan");
    let mut memory = [0xee; 24];
    let run = Ending::Run { entry: Entry::Thumb, address: 0x101, piece: 2 };
    assert_eq!(meaning(&bytes, &pieces, &map, &mut memory, 0), run);
    let expected =
        [0xee, 0xee, 0xee, 0xee, 10, 11, 12, 13, 1, 2, 3, 4, 1, 2, 3, 0xee];
    assert_eq!(memory[..16], expected);
    let before = memory;
    let denied = Ending::Denied { number: 9, piece: 4 };
    assert_eq!(meaning(&bytes, &pieces, &map, &mut memory, 3), denied);
    assert_eq!(memory, before);
    assert_eq!(meaning(&bytes, &pieces, &map, &mut memory, 5), Ending::End);
    assert_eq!(stretch(&pieces, 1), 1..3);
    assert_eq!(stretch(&pieces, 5), 5..5);
    let empty = Map::empty();
    let denied = Ending::Denied { number: 4, piece: 0 };
    assert_eq!(meaning(&bytes, &pieces, &empty, &mut memory, 0), denied);
}

/// Demand 3 of the reference itself, on random series.
#[test]
fn series_of_loads() {
    let mut random = Random::new(7);
    for _ in 0..4_000 {
        let Case::Series { plan, table, memory, medium, steps } =
            case_of(Call::Series, &mut random, Size::Free)
        else {
            panic!("a series");
        };
        let map = map_of(&table).expect("a map");
        let pieces = read(&plan, 1).expect("a plan");
        let mut output = vec![0; 40_000];
        let packed: Result<u64, Refusal> = match medium {
            Medium::Srom => pack::pack_srom(&plan, &mut output),
            Medium::Aplx { .. } => pack::pack_aplx(&plan, &mut output),
        };
        output.truncate(packed.expect("an image") as usize);
        assert!(granted(medium, &pieces, &output, &map, &memory, &steps));
        let trace = loads(medium, &pieces, memory.clone(), &steps, &mut |memory, start| match medium {
            Medium::Srom => srom::load(&map, memory, &output, start as usize),
            Medium::Aplx { .. } => aplx::load(&map, memory, start as u32),
        });
        assert_eq!(trace, meant(medium, &plan, &pieces, &map, memory, &steps));
    }
}
