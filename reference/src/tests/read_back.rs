//! Images read back as plans: the paper's pieces, each refusal number and the order of the tests, the last entries, and
//! where data may lie.

use super::{plan, refused, words};
use crate::bytes::unhex;
use crate::compare::compare;
use crate::generate::{case_of, Call, Case, Size};
use crate::interface::Reference;
use crate::pack::pack_aplx;
use crate::plan::{self as plans, Piece};
use crate::random::Random;
use crate::read_back::{pieces, read_back};
use crate::tally::Tally;

const END: [u32; 4] = [u32::MAX, 0, 0, 0];
/// Accepted at any entry.
const FILL: [u32; 4] = [3, 0x100, 32, 0x0403_0201];
const EXEC: [u32; 4] = [4, 0x101, 0, 0];

fn image(entries: &[[u32; 4]], data: &[u8]) -> Vec<u8> {
    let mut bytes: Vec<u8> = entries.iter().flat_map(|entry| words(entry)).collect();
    bytes.extend(data);
    bytes
}

/// The plan that is written for an image.
fn plan_read(image: &[u8]) -> Vec<u8> {
    let mut output = vec![0x77; 70_000];
    let length = read_back(image, &mut output).expect("an image that is read back") as usize;
    assert!(output[length..].iter().all(|byte| *byte == 0x77), "the output past the plan");
    output.truncate(length);
    output
}

/// The refusal number of an entry behind one other, with the end and 64 bytes of data behind it.
fn number(entry: [u32; 4]) -> Result<(), u32> {
    let bytes = image(&[FILL, entry, END], &[9; 64]);
    let mut output = [0x77; 256];
    let answer = read_back(&bytes, &mut output);
    answer.map(|_| ()).map_err(|refusal| {
        assert_eq!((refusal.place, output), (1, [0x77; 256]));
        refusal.number
    })
}

#[test]
fn the_papers_pieces() {
    let fill_and_run = unhex(
        "03000000 00004000 20000000 00000000 04000000 00000000 00000000 00000000
         ffffffff 00000000 00000000 00000000",
    );
    assert_eq!(plan_read(&fill_and_run), plan(&[[2, 0x0040_0000, 32, 0], [3, 0, 0, 0]], &[]));
    let data: Vec<u8> = (1..=32).collect();
    let put_and_run = image(&[[2, 0, 48, 32], [4, 0, 0, 0], END], &data);
    assert_eq!(plan_read(&put_and_run), plan(&[[1, 0, 32, 0], [3, 0, 0, 0]], &data));
    assert_eq!(plan_read(&image(&[END], &[])), words(&[0, 16, 16, 0]));
}

#[test]
fn the_plan_has_its_data_in_the_order_of_the_puts() {
    let data: Vec<u8> = (0..96).collect();
    // The second put's bytes lie before the first one's.
    let entries = [[2, 0x40, 64 + 64, 32], FILL, [2, 0x20, 64 - 32, 64], END];
    let mut in_order = data[64..].to_vec();
    in_order.extend(&data[..64]);
    let expected = plan(&[[1, 0x40, 32, 0], [2, 0x100, 32, 0x0403_0201], [1, 0x20, 64, 32]], &in_order);
    assert_eq!(plan_read(&image(&entries, &data)), expected);
}

#[test]
fn unused_words_and_bytes_behind_are_ignored() {
    let entries = [[4, 0x103, u32::MAX, 2], [u32::MAX, 1, 2, 3], [9, 9, 9, 9]];
    assert_eq!(plan_read(&image(&entries, &[1, 2, 3])), plan(&[[3, 0x103, 0, 0]], &[]));
}

#[test]
fn entries() {
    assert_eq!(number(FILL), Ok(()));
    assert_eq!(number(EXEC), Ok(()));
    assert_eq!(number([2, 4, 32, 64]), Ok(()));
    for command in [0, 1, 5, 0x0100_0002, 0x8000_0003, u32::MAX - 1] {
        assert_eq!(number([command, 0, 32, 32]), Err(20));
    }
    for address in [2, 6, 0xffff_fffe] {
        assert_eq!(number([4, address, 0, 0]), Err(9));
    }
    for address in [0, 1, 3, 0xffff_ffff] {
        assert_eq!(number([4, address, 0, 0]), Ok(()));
    }
    assert_eq!(number([2, 0, 32, 0]), Err(5));
    assert_eq!(number([3, 0, 0, 32]), Err(5));
    for length in [1, 31, 33, 36, 48, 65_535, 65_537, 65_568, 0x8000_0000, u32::MAX, u32::MAX - 31] {
        assert_eq!(number([2, 0, 32, length]), Err(22));
        assert_eq!(number([3, 0, length, 32]), Err(22));
    }
    assert_eq!(number([3, 0, 65_536, 0]), Ok(()));
    for odd in 1..4 {
        assert_eq!(number([2, odd, 32, 32]), Err(3));
        assert_eq!(number([3, odd, 32, 0]), Err(3));
        assert_eq!(number([2, 0, 32 + odd, 32]), Err(3));
    }
    assert_eq!(number([3, 0, 32, 3]), Ok(()), "the word of a fill is any word");
}

#[test]
fn the_order_of_the_tests() {
    assert_eq!(number([1, 1, 1, 0]), Err(20));
    assert_eq!(number([2, 1, 1, 0]), Err(5), "5 before 3 and 23");
    assert_eq!(number([3, 1, 0, 0]), Err(5), "5 before 3");
    assert_eq!(number([2, 1, 1, 33]), Err(22), "22 before 3");
    assert_eq!(number([3, 1, 33, 0]), Err(22), "22 before 3");
    assert_eq!(number([2, 1, 0x1000, 32]), Err(3), "3 before 23");
    assert_eq!(number([2, 0, 0x1001, 32]), Err(3), "3 before 23");
    assert_eq!(number([2, 0, 0x1000, 32]), Err(23));
    // An earlier entry comes first, and the output last.
    let late = image(&[[2, 0, 0x1000, 32], [1, 0, 0, 0]], &[]);
    assert_eq!(read_back(&late, &mut []), refused(23, 0));
    let cut = image(&[FILL], &[0xff; 15]);
    assert_eq!(read_back(&cut, &mut []), refused(2, 1));
    assert_eq!(read_back(&[], &mut []), refused(2, 0));
    assert_eq!(read_back(&[0xff; 15], &mut []), refused(2, 0));
    assert_eq!(read_back(&[0xff; 16], &mut []), refused(10, 0));
}

#[test]
fn too_small_an_output_keeps_its_bytes() {
    let bytes = image(&[[2, 0, 48, 32], EXEC, END], &[5; 32]);
    for room in [0, 1, 16, 48, 79] {
        let mut output = vec![0x77; room];
        assert_eq!(read_back(&bytes, &mut output), refused(10, 2));
        assert_eq!(output, vec![0x77; room]);
    }
    assert_eq!(read_back(&bytes, &mut [0; 80]), Ok(80));
}

#[test]
fn the_65th_entry() {
    let at_64 = |entry: &[u8]| {
        let mut bytes = image(&[FILL; 64], &[]);
        bytes.extend(entry);
        read_back(&bytes, &mut [0; 1_040])
    };
    assert_eq!(at_64(&words(&END)), Ok(1_040));
    assert_eq!(at_64(&words(&END)[..15]), refused(2, 64));
    assert_eq!(at_64(&[]), refused(2, 64));
    assert_eq!(at_64(&words(&[1, 0, 0, 0])), refused(20, 64), "20 before 21");
    assert_eq!(at_64(&words(&[0, 0, 0, 0])), refused(20, 64));
    assert_eq!(at_64(&words(&FILL)), refused(21, 64));
    assert_eq!(at_64(&words(&[3, 1, 0, 0])), refused(21, 64), "21 before 5");
    assert_eq!(at_64(&words(&[4, 2, 0, 0])), refused(21, 64), "21 before 9");
    assert_eq!(at_64(&words(&[2, 1, 1, 33])), refused(21, 64), "21 before 22");
    let short = image(&[FILL; 63], &words(&END));
    assert_eq!(pieces(&short).map(|pieces| pieces.len()), Ok(63));
    let long = image(&[EXEC; 66], &words(&END));
    assert_eq!(read_back(&long, &mut []), refused(21, 64));
}

#[test]
fn where_data_may_lie() {
    let data = |offset: u32, length: usize, size: usize| {
        // Entry 2 of three; bytes of the image count up behind the entries.
        let mut bytes = image(&[EXEC, FILL, [2, 0x80, offset, length as u32], END], &[]);
        let behind = bytes.len();
        bytes.extend((behind..size).map(|k| k as u8));
        let mut output = vec![0; 64 + length];
        let answer = read_back(&bytes, &mut output);
        if answer.is_ok() {
            let start = 32u32.wrapping_add(offset) as usize;
            assert_eq!(output[64..], bytes[start..start + length]);
        }
        answer.map_err(|refusal| (refusal.number, refusal.place))
    };
    assert_eq!(data(32, 32, 96), Ok(96));
    assert_eq!(data(36, 32, 96), Err((23, 2)), "one word past the slice");
    assert_eq!(data(32, 32, 95), Err((23, 2)), "one byte past the slice");
    assert_eq!(data(32, 64, 200), Ok(128));
    assert_eq!(data(104, 64, 200), Ok(128));
    assert_eq!(data(108, 64, 200), Err((23, 2)));
    assert_eq!(data(0, 32, 64), Ok(96), "over its own entry and the end");
    assert_eq!(data(0u32.wrapping_sub(32), 32, 64), Ok(96), "backward, over the first entries");
    assert_eq!(data(0u32.wrapping_sub(4), 32, 64), Ok(96));
    assert_eq!(data(0u32.wrapping_sub(36), 32, 64), Err((23, 2)), "before the image");
    assert_eq!(data(0u32.wrapping_sub(64), 32, 64), Err((23, 2)), "no sum of a place and a length wraps");
    assert_eq!(data(0x8000_0000, 32, 200), Err((23, 2)));
    // Two puts of the same bytes, and of bytes in part the same.
    let shared = image(&[[2, 0, 64, 32], [2, 64, 48, 32], [2, 128, 48, 32], END], &(0..48).collect::<Vec<u8>>());
    let mut copied: Vec<u8> = (0..32).chain(0..32).collect();
    copied.extend(16..48);
    assert_eq!(plan_read(&shared), plan(&[[1, 0, 32, 0], [1, 64, 32, 32], [1, 128, 32, 64]], &copied));
}

#[test]
fn the_longest_put() {
    let bytes = image(&[[2, 0, 32, 65_536], END], &vec![7; 65_536]);
    assert_eq!(plan_read(&bytes), plan(&[[1, 0, 65_536, 0]], &vec![7; 65_536]));
    let long = image(&[[2, 0, 32, 65_568], END], &vec![7; 65_568]);
    assert_eq!(read_back(&long, &mut []), refused(22, 0));
}

#[test]
fn the_example_of_the_formats() {
    let data: Vec<u8> = (1..=32).collect();
    let whole = [[2, 0x0040_0000, 64, 32], [3, 0x0040_0020, 32, 0x0102_0304], [4, 0x101, 0, 0], END];
    let pieces = [[1, 0x0040_0000, 32, 0], [2, 0x0040_0020, 32, 0x0102_0304], [3, 0x101, 0, 0]];
    let expected = plan(&pieces, &data);
    assert_eq!(plan_read(&image(&whole, &data)), expected);
    let mut packed = [0; 96];
    assert_eq!(pack_aplx(&expected, &mut packed), Ok(96));
    assert_eq!(packed[..], image(&whole, &data)[..]);
}

/// What a plan says, with the bytes of its puts.
pub fn said(plan: &[u8]) -> Vec<(Piece, Vec<u8>)> {
    let pieces = plans::read(plan, plans::APLX_UNIT).expect("a plan");
    let bytes = |piece: &Piece| match piece {
        Piece::Put { data, .. } => plan[data.clone()].to_vec(),
        _ => Vec::new(),
    };
    let plain = |piece: Piece| match piece {
        Piece::Put { address, data } => Piece::Put { address, data: 0..data.len() },
        other => other,
    };
    pieces.into_iter().map(|piece| (plain(piece.clone()), bytes(&piece))).collect()
}

/// A plan in any layout that is packed and read back says the same, and packs to the same bytes.
#[test]
fn random_plans_there_and_back() {
    let mut random = Random::new(11);
    let mut packed = 0;
    while packed < 2_000 {
        let Case::PackAplx { plan, .. } = case_of(Call::PackAplx, &mut random, Size::Free) else {
            panic!("a plan");
        };
        let mut image = vec![0; 6_000_000.min(plan.len() * 70 + 2_000)];
        let Ok(length) = pack_aplx(&plan, &mut image) else { continue };
        image.truncate(length as usize);
        packed += 1;
        let mut back = vec![0; image.len()];
        assert_eq!(read_back(&image, &mut back), Ok(length), "an image and its plan are equally long");
        assert_eq!(said(&back), said(&plan));
        let mut again = vec![0; image.len()];
        assert_eq!(pack_aplx(&back, &mut again), Ok(length));
        assert_eq!(again, image);
    }
}

/// Images as the differential test makes them.
#[test]
fn random_images() {
    let mut tally = Tally::default();
    for number in 0..4_000 {
        let mut random = Random::of_case(11, number);
        let call = if number % 4 == 0 { Call::OldImage } else { Call::AplxRead };
        let case = case_of(call, &mut random, Size::Free);
        assert_eq!(compare(&case, &Reference, &mut random, &mut tally).err(), None, "case {number}");
    }
    assert!(tally.of("aplx_read", "packed to the same bytes") > 100);
    assert!(tally.of("series old image", "stop end") > 100);
}
