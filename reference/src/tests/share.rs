//! Plans packed with equal data kept once: what is shared and what is not, and in what order the contents stand.

use super::check::{bytes, image, END, RUN, WORD};
use super::{plan, words};
use crate::pack::{aplx_length, pack_aplx};
use crate::plan::{read, APLX_UNIT};
use crate::share::pack_aplx_shared;

/// The image of a plan, with room to spare, which is left as it was.
pub fn packed(plan: &[u8]) -> Vec<u8> {
    let plain = aplx_length(&read(plan, APLX_UNIT).expect("a plan")) as usize;
    let mut output = vec![0x77; plain + 40];
    let length = pack_aplx_shared(plan, &mut output).expect("an image") as usize;
    assert!(output[length..].iter().all(|byte| *byte == 0x77), "past the image");
    output.truncate(length);
    output
}

pub fn plainly_packed(plan: &[u8]) -> Vec<u8> {
    let mut output = vec![0; aplx_length(&read(plan, APLX_UNIT).expect("a plan")) as usize];
    pack_aplx(plan, &mut output).expect("an image");
    output
}

#[test]
fn one_table_for_sixteen_channels() {
    let table = bytes(1, 64);
    let address = |k: u32| 0x0040_0000 + 64 * k;
    let whole = plan(&(0..16).map(|k| [1, address(k), 64, 0]).collect::<Vec<_>>(), &table);
    let entries: Vec<[u32; 4]> = (0..16).map(|k| [2, address(k), 0, 64]).chain([END]).collect();
    let shared = packed(&whole);
    assert_eq!(shared, image(&entries, &table));
    assert_eq!(shared.len(), 16 * 17 + 64);
    // Each entry counts from itself: 272 bytes before the table, 256, and so on.
    assert_eq!(shared[..16], words(&[2, 0x0040_0000, 272, 64])[..]);
    assert_eq!(shared[240..256], words(&[2, 0x0040_03c0, 32, 64])[..]);
    let own_copies = plan(&(0..16).map(|k| [1, address(k), 64, 64 * k]).collect::<Vec<_>>(), &table.repeat(16));
    assert_eq!(packed(&own_copies), shared, "where the bytes stand in the plan does not matter");
    // One channel is corrected in its last byte.
    let mut data = table.repeat(2);
    data[127] ^= 1;
    let corrected = plan(&(0..16).map(|k| [1, address(k), 64, if k == 5 { 64 } else { 0 }]).collect::<Vec<_>>(), &data);
    let entry = |k| [2, address(k), if k == 5 { 64 } else { 0 }, 64];
    assert_eq!(packed(&corrected), image(&(0..16).map(entry).chain([END]).collect::<Vec<_>>(), &data));
}

/// Up to six puts of three contents, two of them equally long.
#[test]
fn three_contents_in_any_repetition() {
    let contents = [bytes(1, 32), bytes(40, 64), bytes(120, 32)];
    for count in 0..=6 {
        for code in 0..3usize.pow(count) {
            let order: Vec<usize> = (0..count).map(|k| code / 3usize.pow(k) % 3).collect();
            let mut puts = Vec::new();
            let mut entries = Vec::new();
            let mut behind = Vec::new();
            let mut starts = [None; 3];
            for (k, which) in order.iter().enumerate() {
                let (address, length) = (0x100 * k as u32, contents[*which].len() as u32);
                puts.push([1, address, length, [0, 32, 96][*which]]);
                let start = *starts[*which].get_or_insert(behind.len() as u32);
                if start == behind.len() as u32 {
                    behind.extend(&contents[*which]);
                }
                entries.push([2, address, start, length]);
            }
            entries.push(END);
            assert_eq!(packed(&plan(&puts, &contents.concat())), image(&entries, &behind), "{order:?}");
        }
    }
}

/// Two puts of 64 bytes that differ in one byte, the first and the last too: nothing is shared.
#[test]
fn equal_lengths_and_other_bytes() {
    for at in 0..64 {
        for bit in [0, 3, 7] {
            let mut data = bytes(1, 64).repeat(2);
            data[64 + at] ^= 1 << bit;
            let two = plan(&[[1, 0, 64, 0], [1, 64, 64, 64]], &data);
            assert_eq!(packed(&two), image(&[[2, 0, 0, 64], [2, 64, 64, 64], END], &data), "byte {at}");
        }
    }
    // The same bytes in another order.
    let turned = [bytes(1, 32), bytes(33, 32), bytes(33, 32), bytes(1, 32)].concat();
    let two = plan(&[[1, 0, 64, 0], [1, 64, 64, 64]], &turned);
    assert_eq!(packed(&two), image(&[[2, 0, 0, 64], [2, 64, 64, 64], END], &turned));
}

#[test]
fn a_part_of_another_put() {
    let data = bytes(1, 96);
    // All of it, its front, its middle, its end.
    for (start, length) in [(0, 32), (32, 32), (64, 32), (0, 64), (32, 64)] {
        let part = &data[start..start + length];
        let (start, length) = (start as u32, length as u32);
        let after = plan(&[[1, 0x100, 96, 0], [1, 0x200, length, start]], &data);
        let entries = [[2, 0x100, 0, 96], [2, 0x200, 96, length], END];
        assert_eq!(packed(&after), image(&entries, &[&data, part].concat()), "after the longer one");
        let before = plan(&[[1, 0x200, length, start], [1, 0x100, 96, 0]], &data);
        let entries = [[2, 0x200, 0, length], [2, 0x100, length, 96], END];
        assert_eq!(packed(&before), image(&entries, &[part, &data].concat()), "before it");
    }
    // Zeros of three lengths.
    let zeros = plan(&[[1, 0, 64, 0], [1, 64, 32, 0], [1, 96, 96, 0], [1, 192, 32, 64]], &[0; 96]);
    let entries = [[2, 0, 0, 64], [2, 64, 64, 32], [2, 96, 96, 96], [2, 192, 64, 32], END];
    assert_eq!(packed(&zeros), image(&entries, &[0; 192]));
}

/// Fills and runs are as before: they share nothing, and do not part what is shared.
#[test]
fn fills_and_runs_between() {
    let fill = [2, 0x300, 32, WORD];
    let data = words(&[WORD; 8]);
    let pieces = [[1, 0x100, 32, 0], fill, [3, RUN, 0, 0], [1, 0x200, 32, 0], fill];
    let entries = [[2, 0x100, 0, 32], [3, 0x300, 32, WORD], [4, RUN, 0, 0], [2, 0x200, 0, 32], [3, 0x300, 32, WORD], END];
    assert_eq!(packed(&plan(&pieces, &data)), image(&entries, &data));
    let none = plan(&[fill, [3, RUN, 0, 0], fill], &[]);
    assert_eq!(packed(&none), plainly_packed(&none));
    // A put that is listed twice has two entries.
    let twice = plan(&[[1, 0x100, 32, 0]; 2], &data);
    assert_eq!(packed(&twice), image(&[[2, 0x100, 0, 32], [2, 0x100, 0, 32], END], &data));
}

/// Puts whose bytes lie over each other in the plan, over its header and its table.
#[test]
fn bytes_that_overlap_in_the_plan() {
    let sevens = plan(&[[1, 0, 32, 0], [1, 32, 32, 1], [1, 64, 32, 8]], &[7; 40]);
    assert_eq!(packed(&sevens), image(&[[2, 0, 0, 32], [2, 32, 0, 32], [2, 64, 0, 32], END], &[7; 32]));
    let data = bytes(1, 40);
    let others = plan(&[[1, 0, 32, 4], [1, 32, 32, 3], [1, 64, 32, 4], [1, 96, 32, 8]], &data);
    let behind = [&data[4..36], &data[3..35], &data[8..40]].concat();
    let entries = [[2, 0, 0, 32], [2, 32, 32, 32], [2, 64, 0, 32], [2, 96, 64, 32], END];
    assert_eq!(packed(&others), image(&entries, &behind));
    let itself = words(&[2, 16, 0, 48, 1, 0x100, 32, 8, 1, 0x200, 32, 8]);
    assert_eq!(packed(&itself), image(&[[2, 0x100, 0, 32], [2, 0x200, 0, 32], END], &itself[8..40]));
}

/// The order of first appearance: not the plan's, not by address, length or last appearance.
#[test]
fn the_order_of_the_contents() {
    let data = bytes(1, 160);
    let [long, middle, short] = [(64, 96), (0, 64), (96, 32)];
    let puts = [(0x300, middle), (0x100, long), (0x500, middle), (0x200, short), (0x400, long), (0x000, middle)];
    let pieces: Vec<[u32; 4]> = puts.iter().map(|(address, (start, length))| [1, *address, *length, *start]).collect();
    let behind = [&data[..64], &data[64..160], &data[96..128]].concat();
    let entries =
        [[2, 0x300, 0, 64], [2, 0x100, 64, 96], [2, 0x500, 0, 64], [2, 0x200, 160, 32], [2, 0x400, 64, 96], [2, 0, 0, 64], END];
    assert_eq!(packed(&plan(&pieces, &data)), image(&entries, &behind));
}

#[test]
fn no_equal_puts() {
    let some = plan(&[[1, 0, 32, 0], [2, 64, 32, 5], [3, RUN, 0, 0], [1, 4, 64, 32], [1, 0, 32, 1]], &bytes(1, 96));
    for plan in [plan(&[], &[]), plan(&[], &bytes(1, 32)), plan(&[[1, 0, 32, 0]], &[0; 32]), some] {
        assert_eq!(packed(&plan), plainly_packed(&plan));
    }
}

#[test]
fn the_most_and_the_longest_puts() {
    let data: Vec<u8> = (0..65_536u32).map(|k| (k * k >> 7) as u8).collect();
    let equal = plan(&(0..64).map(|k| [1, 0x1_0000 * k, 65_536, 0]).collect::<Vec<_>>(), &data);
    let shared = packed(&equal);
    assert_eq!(shared.len(), 16 * 65 + 65_536);
    assert_eq!(shared[1_040..], data);
    assert_eq!(shared[1_008..1_024], words(&[2, 0x3f_0000, 32, 65_536])[..]);
    assert_eq!(plainly_packed(&equal).len(), 16 * 65 + 64 * 65_536);
    // 64 different contents, each a byte further on in the plan.
    let apart = plan(&(0..64).map(|k| [1, 32 * k, 32, k]).collect::<Vec<_>>(), &bytes(1, 95));
    assert_eq!(packed(&apart), plainly_packed(&apart));
    assert_eq!(packed(&apart).len(), 16 * 65 + 64 * 32);
}
