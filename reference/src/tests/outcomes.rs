//! The eight numbers of each event, as the header has them: refusal, place, event, kind, address, resume, items, bytes.

use super::map;
use crate::interface::{identity_of, load_numbers, load_of, table_of, Library, Reference};
use crate::outcome::{Entry, Loaded, Refusal, Stop};
use crate::scp::Identity;

#[test]
fn loads() {
    let loaded = |stop| Ok(Loaded { stop, taken: 2, stored: 64 });
    let run = |entry, address| Stop::Run { entry, address, resume: 16 };
    let rows = [
        (Err(Refusal { number: 4, place: 7 }), [4, 7, 0, 0, 0, 0, 0, 0]),
        (loaded(Stop::End { place: 3 }), [0, 3, 1, 0, 0, 0, 2, 64]),
        (loaded(Stop::Unknown { command: 9, place: 3 }), [0, 3, 2, 0, 9, 0, 2, 64]),
        (loaded(run(Entry::Arm, 4096)), [0, 0, 3, 1, 4096, 16, 2, 64]),
        (loaded(run(Entry::Thumb, 4097)), [0, 0, 3, 2, 4097, 16, 2, 64]),
    ];
    for (answer, numbers) in rows {
        assert_eq!(load_numbers(answer), numbers);
        assert_eq!(load_of(&numbers), Some(answer));
    }
}

#[test]
fn packets() {
    let table = table_of(&map(&[[0x100, 64, 0, 7]]));
    let mut memory = vec![0; 64];
    // at 0x100: EXEC 0x121, then the end
    memory[..8].copy_from_slice(&[4, 0, 0, 0, 0x21, 1, 0, 0]);
    memory[16..20].fill(0xff);
    let mut answer = |table: &[u8], packet: &[u8], room: usize| {
        let mut numbers = [9; 8];
        let number =
            Reference.scp_answer(table, &mut memory, &[1, 2, 3, 4, 5], packet, &mut vec![0; room], &mut numbers);
        assert_eq!(u64::from(number), numbers[0]);
        numbers
    };
    assert_eq!(answer(&table, &[0, 0, 1, 2], 271), [10, 0, 0, 0, 0, 0, 0, 272]);
    assert_eq!(answer(&table[1..], &[0, 0, 1, 2], 272), [1, 0, 0, 0, 0, 0, 0, 0]);
    assert_eq!(answer(&table, &[0, 0, 1], 272), [0, 0, 6, 0, 0, 0, 0, 0]);
    assert_eq!(answer(&table, &[0, 0, 1, 2], 272), [0, 0, 5, 0, 0, 0, 0, 31]);
    assert_eq!(answer(&table, &[1, 0, 1, 2, 0, 1, 0, 0], 272), [0, 0, 4, 1, 0x100, 0, 0, 0]);
    assert_eq!(answer(&table, &[4, 0, 1, 2, 0, 1, 0, 0], 272), [0, 0, 3, 2, 0x121, 0x110, 0, 0]);
}

#[test]
fn identities() {
    let wide = identity_of(&[0x1_0203, 0x104, 0x205, 0x3_0607, 0xf000_0008]);
    let fields = Identity { point_to_point: 0x203, physical: 4, virtual_cpu: 5, version: 0x607, date: 0xf000_0008 };
    assert_eq!(wide, fields);
}

#[test]
fn plans() {
    let mut plan: Vec<u8> = [2, 16, 48, 0, 2, 0, 32, 0, 3, 0, 0, 0].iter().flat_map(|w: &u32| w.to_le_bytes()).collect();
    let mut numbers = [9; 8];
    assert_eq!(Reference.plan_read(&plan, 0, &mut numbers), 0);
    assert_eq!(numbers, [0, 0, 7, 0, 0, 0, 2, 0]);
    assert_eq!(Reference.pack_aplx(&plan, &mut [0; 47], &mut numbers), 10);
    assert_eq!(numbers, [10, 2, 0, 0, 0, 0, 0, 48]);
    assert_eq!(Reference.pack_aplx(&plan, &mut [0; 48], &mut numbers), 0);
    assert_eq!(numbers, [0, 0, 8, 0, 0, 0, 0, 48]);
    assert_eq!(Reference.pack_srom(&plan, &mut [], &mut numbers), 10);
    assert_eq!(numbers, [10, 2, 0, 0, 0, 0, 0, 48]);
    plan.truncate(47);
    assert_eq!(Reference.pack_srom(&plan, &mut [], &mut numbers), 2);
    assert_eq!(numbers, [2, 0, 0, 0, 0, 0, 0, 0]);
}

#[test]
fn images_read_back() {
    let mut image: Vec<u8> = [3, 0, 32, 7, 4, 1, 0, 0, u32::MAX, 0, 0, 0].iter().flat_map(|w| w.to_le_bytes()).collect();
    let mut numbers = [9; 8];
    assert_eq!(Reference.aplx_read(&image, &mut [0; 48], &mut numbers), 0);
    assert_eq!(numbers, [0, 0, 8, 0, 0, 0, 0, 48]);
    assert_eq!(Reference.aplx_read(&image, &mut [0; 47], &mut numbers), 10);
    assert_eq!(numbers, [10, 2, 0, 0, 0, 0, 0, 48]);
    image[16] = 1;
    assert_eq!(Reference.aplx_read(&image, &mut [], &mut numbers), 20);
    assert_eq!(numbers, [20, 1, 0, 0, 0, 0, 0, 0]);
}
