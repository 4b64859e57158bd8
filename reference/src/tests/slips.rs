//! Paper 01, "Slips seen on this bench": each test falls where the slip is made.

use super::{ended, map, plan, refused, words};
use crate::aplx::{self, ACOPY, END, FILL, RCOPY};
use crate::bytes::unhex;
use crate::outcome::{Entry, Loaded, Stop};
use crate::pack::{pack_aplx, pack_srom};
use crate::scp::{self, Identity, Reply};
use crate::srom;

#[test]
fn a_20_byte_put_is_not_padded() {
    let plan = plan(&[[1, 0, 20, 0]], &[7; 20]);
    let mut output = [0x77; 200];
    assert_eq!(pack_aplx(&plan, &mut output), refused(12, 0));
    assert_eq!(output, [0x77; 200]);
    assert_eq!(pack_srom(&plan, &mut output), Ok(29));
    let short = super::plan(&[[1, 0, 18, 0]], &[7; 18]);
    assert_eq!(pack_srom(&short, &mut output), refused(12, 0));
}

#[test]
fn an_rcopy_offset_counts_from_its_entry() {
    let map = map(&[[0x100, 160, 0, 1], [0x1000, 64, 160, 2]]);
    let mut memory = words(&[FILL, 0x1000, 32, 0, RCOPY, 0x1020, 0x30, 32, END, 0, 0, 0]);
    memory.resize(224, 0);
    memory[64..96].fill(1);
    memory[48..64].fill(2);
    // The second entry stands at 0x110; its data at 0x140, the buffer's byte 64.
    assert_eq!(aplx::load(&map, &mut memory, 0x100), ended(2, 2, 64));
    assert_eq!(memory[192..224], [1; 32]);
    // An offset may point back, to data before the header.
    let mut memory = vec![5; 32];
    memory.extend(words(&[RCOPY, 0x1000, 0u32.wrapping_sub(32), 32, END, 0, 0, 0]));
    memory.resize(224, 0);
    assert_eq!(aplx::load(&map, &mut memory, 0x120), ended(1, 1, 32));
    assert_eq!(memory[160..192], [5; 32]);
}

#[test]
fn srom_words_are_not_stored_in_rom_order() {
    let map = map(&[[0, 8, 0, 2]]);
    let mut memory = [0; 8];
    let rom = unhex("3a 0002 00000000 01020304 05060708 ff");
    assert_eq!(srom::load(&map, &mut memory, &rom, 0), ended(15, 1, 8));
    assert_eq!(memory, [4, 3, 2, 1, 8, 7, 6, 5]);
}

#[test]
fn srom_length_0_is_a_run() {
    let map = map(&[[0, 8, 0, 4]]);
    let mut memory = [0; 8];
    let rom = unhex("55 3a 0000 00000005 3a 0000 00000000 ff");
    let stop = Stop::Run { entry: Entry::Thumb, address: 5, resume: 8 };
    assert_eq!(srom::load(&map, &mut memory, &rom, 0), Ok(Loaded { stop, taken: 0, stored: 0 }));
    let stop = Stop::Run { entry: Entry::Arm, address: 0, resume: 15 };
    assert_eq!(srom::load(&map, &mut memory, &rom, 8), Ok(Loaded { stop, taken: 0, stored: 0 }));
}

#[test]
fn a_copy_goes_up_and_repeats_its_beginning() {
    let map = map(&[[0, 32, 0, 1], [0x1000, 96, 32, 3]]);
    let mut memory = words(&[ACOPY, 0x1004, 0x1000, 64, END, 0, 0, 0]);
    memory.extend(0..96);
    assert_eq!(aplx::load(&map, &mut memory, 0), ended(1, 1, 64));
    for k in 0..17 {
        assert_eq!(memory[32 + 4 * k..36 + 4 * k], [0, 1, 2, 3]);
    }
    assert_eq!(memory[32 + 68], 68);
}

#[test]
fn read_data_starts_at_offset_4() {
    let map = map(&[[0, 4, 0, 1]]);
    let identity = Identity { point_to_point: 0, physical: 0, virtual_cpu: 0, version: 0, date: 0 };
    let mut packet = vec![2, 0, 1, 2];
    packet.extend(words(&[0, 4, 2]));
    let mut output = [0; 272];
    let answer = scp::answer(&map, &mut [6, 7, 8, 9], identity, &packet, &mut output);
    assert_eq!(answer, Ok(Reply::Response(8)));
    assert_eq!(output[..8], [0x80, 0, 1, 2, 6, 7, 8, 9]);
}

#[test]
fn every_entry_is_checked_before_the_first_is_done() {
    let map = map(&[[0, 48, 0, 1], [0x1000, 32, 48, 2]]);
    let mut memory = words(&[FILL, 0x1000, 32, 0x1111_1111, FILL, 0x2000, 32, 0, END, 0, 0, 0]);
    memory.resize(80, 0);
    let before = memory.clone();
    assert_eq!(aplx::load(&map, &mut memory, 0), refused(4, 1));
    assert_eq!(memory, before);
    let rom = unhex("3a 0001 00001000 01020304 3a 0001 00002000 01020304 ff");
    assert_eq!(srom::load(&map, &mut memory, &rom, 0), refused(4, 11));
    assert_eq!(memory, before);
}
