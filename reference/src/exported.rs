//! The reference as a library for C, with the same names as the project's. It stands in for the project's library
//! where the differential test itself is tested.

use reference::interface::{Library, Numbers, Outcome, Reference};
use reference::receiver::ReceiverBytes;
use std::slice::{from_raw_parts, from_raw_parts_mut};

#[no_mangle]
pub unsafe extern "C" fn reidhintsje_map_add(
    map: *mut u8, map_length: usize,
    base: u32, length: u32, place: u32, rights: u32,
) -> u32 {
    Reference.map_add(from_raw_parts_mut(map, map_length), base, length, place, rights)
}

#[no_mangle]
pub unsafe extern "C" fn reidhintsje_map_sound(map: *const u8, map_length: usize, memory_length: usize) -> u32 {
    Reference.map_sound(from_raw_parts(map, map_length), memory_length)
}

#[no_mangle]
pub unsafe extern "C" fn reidhintsje_srom_load(
    map: *const u8, map_length: usize,
    memory: *mut u8, memory_length: usize,
    rom: *const u8, rom_length: usize,
    offset: usize,
    outcome: *mut Outcome,
) -> u32 {
    Reference.srom_load(
        from_raw_parts(map, map_length),
        from_raw_parts_mut(memory, memory_length),
        from_raw_parts(rom, rom_length),
        offset,
        &mut *outcome,
    )
}

#[no_mangle]
pub unsafe extern "C" fn reidhintsje_aplx_load(
    map: *const u8, map_length: usize,
    memory: *mut u8, memory_length: usize,
    header: u32,
    outcome: *mut Outcome,
) -> u32 {
    Reference.aplx_load(
        from_raw_parts(map, map_length),
        from_raw_parts_mut(memory, memory_length),
        header,
        &mut *outcome,
    )
}

#[no_mangle]
pub unsafe extern "C" fn reidhintsje_scp_answer(
    map: *const u8, map_length: usize,
    memory: *mut u8, memory_length: usize,
    identity: *const Numbers,
    packet: *const u8, packet_length: usize,
    output: *mut u8, output_length: usize,
    outcome: *mut Outcome,
) -> u32 {
    Reference.scp_answer(
        from_raw_parts(map, map_length),
        from_raw_parts_mut(memory, memory_length),
        &*identity,
        from_raw_parts(packet, packet_length),
        from_raw_parts_mut(output, output_length),
        &mut *outcome,
    )
}

#[no_mangle]
pub unsafe extern "C" fn reidhintsje_plan_read(
    plan: *const u8, plan_length: usize,
    target: u32,
    outcome: *mut Outcome,
) -> u32 {
    Reference.plan_read(from_raw_parts(plan, plan_length), target, &mut *outcome)
}

#[no_mangle]
pub unsafe extern "C" fn reidhintsje_pack_srom(
    plan: *const u8, plan_length: usize,
    output: *mut u8, output_length: usize,
    outcome: *mut Outcome,
) -> u32 {
    Reference.pack_srom(
        from_raw_parts(plan, plan_length),
        from_raw_parts_mut(output, output_length),
        &mut *outcome,
    )
}

#[no_mangle]
pub unsafe extern "C" fn reidhintsje_pack_aplx(
    plan: *const u8, plan_length: usize,
    output: *mut u8, output_length: usize,
    outcome: *mut Outcome,
) -> u32 {
    Reference.pack_aplx(
        from_raw_parts(plan, plan_length),
        from_raw_parts_mut(output, output_length),
        &mut *outcome,
    )
}

#[no_mangle]
pub unsafe extern "C" fn reidhintsje_pack_aplx_shared(
    plan: *const u8, plan_length: usize,
    output: *mut u8, output_length: usize,
    outcome: *mut Outcome,
) -> u32 {
    Reference.pack_aplx_shared(
        from_raw_parts(plan, plan_length),
        from_raw_parts_mut(output, output_length),
        &mut *outcome,
    )
}

#[no_mangle]
pub unsafe extern "C" fn reidhintsje_aplx_read(
    image: *const u8, image_length: usize,
    output: *mut u8, output_length: usize,
    outcome: *mut Outcome,
) -> u32 {
    Reference.aplx_read(
        from_raw_parts(image, image_length),
        from_raw_parts_mut(output, output_length),
        &mut *outcome,
    )
}

#[no_mangle]
pub unsafe extern "C" fn reidhintsje_compare(
    old_plan: *const u8, old_length: usize,
    new_plan: *const u8, new_length: usize,
    output: *mut u8, output_length: usize,
    outcome: *mut Outcome,
) -> u32 {
    Reference.compare(
        from_raw_parts(old_plan, old_length),
        from_raw_parts(new_plan, new_length),
        from_raw_parts_mut(output, output_length),
        &mut *outcome,
    )
}

#[no_mangle]
pub unsafe extern "C" fn reidhintsje_aplx_check(
    plan: *const u8, plan_length: usize,
    image: *const u8, image_length: usize,
    outcome: *mut Outcome,
) -> u32 {
    Reference.aplx_check(
        from_raw_parts(plan, plan_length),
        from_raw_parts(image, image_length),
        &mut *outcome,
    )
}

#[no_mangle]
pub unsafe extern "C" fn reidhintsje_flood_fill_start(
    receiver: *mut ReceiverBytes,
    image: *const u8, image_length: usize,
    last_block: u32, block_size: u32,
    outcome: *mut Outcome,
) -> u32 {
    Reference.flood_fill_start(
        &mut *receiver,
        from_raw_parts(image, image_length),
        last_block,
        block_size,
        &mut *outcome,
    )
}

#[no_mangle]
pub unsafe extern "C" fn reidhintsje_flood_fill_block_start(
    receiver: *mut ReceiverBytes,
    image: *const u8, image_length: usize,
    block: u32, size: u32,
    outcome: *mut Outcome,
) -> u32 {
    Reference.flood_fill_block_start(
        &mut *receiver,
        from_raw_parts(image, image_length),
        block,
        size,
        &mut *outcome,
    )
}

#[no_mangle]
pub unsafe extern "C" fn reidhintsje_flood_fill_block_data(
    receiver: *mut ReceiverBytes,
    image: *const u8, image_length: usize,
    block: u32, word_id: u32, word: u32,
    outcome: *mut Outcome,
) -> u32 {
    Reference.flood_fill_block_data(
        &mut *receiver,
        from_raw_parts(image, image_length),
        block,
        word_id,
        word,
        &mut *outcome,
    )
}

#[no_mangle]
pub unsafe extern "C" fn reidhintsje_flood_fill_block_end(
    receiver: *mut ReceiverBytes,
    image: *mut u8, image_length: usize,
    block: u32,
    outcome: *mut Outcome,
) -> u32 {
    Reference.flood_fill_block_end(
        &mut *receiver,
        from_raw_parts_mut(image, image_length),
        block,
        &mut *outcome,
    )
}
