//! Calls as text: what is written is read again, and what is no call is refused.

use crate::text::{read_call, shortened, write_bytes, Buffers};

fn numbers(line: &str) -> Option<Vec<u64>> {
    read_call(line, &mut Buffers::default()).map(|(_, numbers)| numbers)
}

#[test]
fn a_byte_string_is_read_as_it_was_written() {
    let mut bytes = vec![1, 2, 2, 2, 2, 2, 2, 2];
    bytes.extend([7; 300]);
    bytes.push(9);
    for length in [0, 1, 8, 15, 16, 300, bytes.len()] {
        let mut buffers = Buffers::default();
        let line = format!("plan_read {} 2", write_bytes(&bytes[..length]));
        assert!(read_call(&line, &mut buffers).is_some(), "{line}");
        assert_eq!(buffers.input, bytes[..length]);
    }
    assert_eq!(write_bytes(&[]), "x");
    assert_eq!(write_bytes(&[3, 7, 7, 7, 7, 7, 7, 7, 7, 1]), "x03+x07*8+x01");
}

#[test]
fn a_buffer_is_kept() {
    let mut buffers = Buffers::default();
    assert!(read_call("pack_srom x0102 xee*3", &mut buffers).is_some());
    buffers.output[0] = 0x55;
    assert!(read_call("pack_aplx = =", &mut buffers).is_some());
    assert!(read_call("pack_aplx_shared = =", &mut buffers).is_some());
    assert!(read_call("aplx_read = =", &mut buffers).is_some());
    assert_eq!((buffers.input, buffers.output), (vec![1, 2], vec![0x55, 0xee, 0xee]));
}

#[test]
fn the_old_plan_is_a_memory_and_the_new_one_an_input() {
    let mut buffers = Buffers::default();
    assert_eq!(read_call("compare x0102 x03 xa5*8192", &mut buffers), Some(("compare", vec![])));
    buffers.output[1] = 7;
    assert!(read_call("plan_read x0405 0", &mut buffers).is_some());
    assert!(read_call("compare = = =", &mut buffers).is_some());
    assert_eq!((buffers.memory, buffers.input), (vec![1, 2], vec![4, 5]));
    assert_eq!((buffers.output[1], buffers.output.len()), (7, 8192));
    for line in ["compare x x", "compare x x x x", "compare x x xa5*8193", "compare x x x 0"] {
        assert_eq!(numbers(line), None, "{line}");
    }
}

#[test]
fn the_plan_is_a_memory_and_its_image_an_input() {
    let mut buffers = Buffers::default();
    assert_eq!(read_call("aplx_check x0102 x03", &mut buffers), Some(("aplx_check", vec![])));
    assert!(read_call("aplx_read x0405 x", &mut buffers).is_some());
    assert!(read_call("aplx_check = =", &mut buffers).is_some());
    assert_eq!((buffers.memory, buffers.input), (vec![1, 2], vec![4, 5]));
    for line in ["aplx_check x", "aplx_check x x x", "aplx_check x x 0", "aplx_check x00*8193 x"] {
        assert_eq!(numbers(line), None, "{line}");
    }
}

#[test]
fn a_shortened_buffer() {
    assert_eq!(shortened(&[]), "");
    assert_eq!(shortened(&[7]), "+07*1");
    assert_eq!(shortened(&[0xa5; 8192]), "+a5*8192");
    assert_eq!(shortened(&[0xa5, 1, 0xa5, 0xa5]), "a501+a5*2");
    assert_eq!(shortened(&[1, 2]), "01+02*1");
}

#[test]
fn a_receiver_is_a_table_of_1544_bytes_and_its_image_a_memory() {
    let mut buffers = Buffers::default();
    assert!(read_call("flood_fill_start x00*1544 x77*8 1 1", &mut buffers).is_some());
    buffers.table[0] = 2;
    buffers.memory[7] = 0;
    let line = "flood_fill_block_data = = 4294967295 4294967295 4294967295";
    let largest = u64::from(u32::MAX);
    assert_eq!(read_call(line, &mut buffers), Some(("flood_fill_block_data", vec![largest; 3])));
    assert!(read_call("flood_fill_block_start = = 0 1", &mut buffers).is_some());
    assert!(read_call("flood_fill_block_end = = 0", &mut buffers).is_some());
    assert_eq!((buffers.table[0], buffers.table.len()), (2, 1544));
    assert_eq!(buffers.memory, [0x77, 0x77, 0x77, 0x77, 0x77, 0x77, 0x77, 0]);
    for line in [
        "flood_fill_start x00*1543 x77*8 1 1",
        "flood_fill_start x00*1545 x77*8 1 1",
        "flood_fill_block_end x x 0",
        "flood_fill_block_end = = 0",
        "flood_fill_start x00*1544 x 4294967296 1",
        "flood_fill_start x00*1544 x 1",
        "flood_fill_block_start x00*1544 x 1 1 1",
        "flood_fill_block_data x00*1544 x 1 1",
        "flood_fill_block_end x00*1544 x 1 1",
    ] {
        assert_eq!(numbers(line), None, "{line}");
    }
}

#[test]
fn what_is_no_call_is_refused() {
    assert_eq!(numbers("map_sound x 18446744073709551615"), Some(vec![u64::MAX]));
    for line in [
        "map_sound x 18446744073709551616",
        "map_sound x",
        "map_sound x 1 2",
        "map_sound  x 1",
        "map_sounds x 1",
        "map_sound x0 1",
        "map_sound xAB 1",
        "map_sound 00 1",
        "map_sound x00+ 1",
        "map_sound =+x00 1",
        "map_sound x00*0 1",
        "map_sound x00*8193 1",
        "map_sound x +1",
        "run_entry x 4294967296",
        "plan_read x -1",
        "pack_aplx_shared x",
        "pack_aplx_shared x x x",
        "pack_aplx_share x x",
        "aplx_read x",
        "aplx_read x x 0",
    ] {
        assert_eq!(numbers(line), None, "{line}");
    }
}
