//! The project's static library behind the interface. A slice is a pointer and a length.

use reference::interface::{Library, Numbers, Outcome};
use reference::receiver::ReceiverBytes;

extern "C" {
    fn reidhintsje_map_add(
        map: *mut u8, map_length: usize,
        base: u32, length: u32, place: u32, rights: u32,
    ) -> u32;
    fn reidhintsje_map_sound(map: *const u8, map_length: usize, memory_length: usize) -> u32;
    fn reidhintsje_srom_load(
        map: *const u8, map_length: usize,
        memory: *mut u8, memory_length: usize,
        rom: *const u8, rom_length: usize,
        offset: usize,
        outcome: *mut u64,
    ) -> u32;
    fn reidhintsje_aplx_load(
        map: *const u8, map_length: usize,
        memory: *mut u8, memory_length: usize,
        header: u32,
        outcome: *mut u64,
    ) -> u32;
    fn reidhintsje_scp_answer(
        map: *const u8, map_length: usize,
        memory: *mut u8, memory_length: usize,
        identity: *const u32,
        packet: *const u8, packet_length: usize,
        output: *mut u8, output_length: usize,
        outcome: *mut u64,
    ) -> u32;
    fn reidhintsje_plan_read(
        plan: *const u8, plan_length: usize,
        target: u32,
        outcome: *mut u64,
    ) -> u32;
    fn reidhintsje_pack_srom(
        plan: *const u8, plan_length: usize,
        output: *mut u8, output_length: usize,
        outcome: *mut u64,
    ) -> u32;
    fn reidhintsje_pack_aplx(
        plan: *const u8, plan_length: usize,
        output: *mut u8, output_length: usize,
        outcome: *mut u64,
    ) -> u32;
    fn reidhintsje_pack_aplx_shared(
        plan: *const u8, plan_length: usize,
        output: *mut u8, output_length: usize,
        outcome: *mut u64,
    ) -> u32;
    fn reidhintsje_aplx_read(
        image: *const u8, image_length: usize,
        output: *mut u8, output_length: usize,
        outcome: *mut u64,
    ) -> u32;
    fn reidhintsje_compare(
        old_plan: *const u8, old_length: usize,
        new_plan: *const u8, new_length: usize,
        output: *mut u8, output_length: usize,
        outcome: *mut u64,
    ) -> u32;
    fn reidhintsje_aplx_check(
        plan: *const u8, plan_length: usize,
        image: *const u8, image_length: usize,
        outcome: *mut u64,
    ) -> u32;
    fn reidhintsje_flood_fill_start(
        receiver: *mut u8,
        image: *const u8, image_length: usize,
        last_block: u32, block_size: u32,
        outcome: *mut u64,
    ) -> u32;
    fn reidhintsje_flood_fill_block_start(
        receiver: *mut u8,
        image: *const u8, image_length: usize,
        block: u32, size: u32,
        outcome: *mut u64,
    ) -> u32;
    fn reidhintsje_flood_fill_block_data(
        receiver: *mut u8,
        image: *const u8, image_length: usize,
        block: u32, word_id: u32, word: u32,
        outcome: *mut u64,
    ) -> u32;
    fn reidhintsje_flood_fill_block_end(
        receiver: *mut u8,
        image: *mut u8, image_length: usize,
        block: u32,
        outcome: *mut u64,
    ) -> u32;
}

pub struct Linked;

impl Library for Linked {
    fn map_add(&self, map: &mut [u8], base: u32, length: u32, place: u32, rights: u32) -> u32 {
        unsafe { reidhintsje_map_add(map.as_mut_ptr(), map.len(), base, length, place, rights) }
    }

    fn map_sound(&self, map: &[u8], memory_length: usize) -> u32 {
        unsafe { reidhintsje_map_sound(map.as_ptr(), map.len(), memory_length) }
    }

    fn srom_load(
        &self,
        map: &[u8],
        memory: &mut [u8],
        rom: &[u8],
        offset: usize,
        outcome: &mut Outcome,
    ) -> u32 {
        unsafe {
            reidhintsje_srom_load(
                map.as_ptr(), map.len(),
                memory.as_mut_ptr(), memory.len(),
                rom.as_ptr(), rom.len(),
                offset,
                outcome.as_mut_ptr(),
            )
        }
    }

    fn aplx_load(&self, map: &[u8], memory: &mut [u8], header: u32, outcome: &mut Outcome) -> u32 {
        unsafe {
            reidhintsje_aplx_load(
                map.as_ptr(), map.len(),
                memory.as_mut_ptr(), memory.len(),
                header,
                outcome.as_mut_ptr(),
            )
        }
    }

    fn scp_answer(
        &self,
        map: &[u8],
        memory: &mut [u8],
        identity: &Numbers,
        packet: &[u8],
        output: &mut [u8],
        outcome: &mut Outcome,
    ) -> u32 {
        unsafe {
            reidhintsje_scp_answer(
                map.as_ptr(), map.len(),
                memory.as_mut_ptr(), memory.len(),
                identity.as_ptr(),
                packet.as_ptr(), packet.len(),
                output.as_mut_ptr(), output.len(),
                outcome.as_mut_ptr(),
            )
        }
    }

    fn plan_read(&self, plan: &[u8], target: u32, outcome: &mut Outcome) -> u32 {
        unsafe { reidhintsje_plan_read(plan.as_ptr(), plan.len(), target, outcome.as_mut_ptr()) }
    }

    fn pack_srom(&self, plan: &[u8], output: &mut [u8], outcome: &mut Outcome) -> u32 {
        unsafe {
            reidhintsje_pack_srom(
                plan.as_ptr(), plan.len(),
                output.as_mut_ptr(), output.len(),
                outcome.as_mut_ptr(),
            )
        }
    }

    fn pack_aplx(&self, plan: &[u8], output: &mut [u8], outcome: &mut Outcome) -> u32 {
        unsafe {
            reidhintsje_pack_aplx(
                plan.as_ptr(), plan.len(),
                output.as_mut_ptr(), output.len(),
                outcome.as_mut_ptr(),
            )
        }
    }

    fn pack_aplx_shared(&self, plan: &[u8], output: &mut [u8], outcome: &mut Outcome) -> u32 {
        unsafe {
            reidhintsje_pack_aplx_shared(
                plan.as_ptr(), plan.len(),
                output.as_mut_ptr(), output.len(),
                outcome.as_mut_ptr(),
            )
        }
    }

    fn aplx_read(&self, image: &[u8], output: &mut [u8], outcome: &mut Outcome) -> u32 {
        unsafe {
            reidhintsje_aplx_read(
                image.as_ptr(), image.len(),
                output.as_mut_ptr(), output.len(),
                outcome.as_mut_ptr(),
            )
        }
    }

    fn compare(&self, old: &[u8], new: &[u8], output: &mut [u8], outcome: &mut Outcome) -> u32 {
        unsafe {
            reidhintsje_compare(
                old.as_ptr(), old.len(),
                new.as_ptr(), new.len(),
                output.as_mut_ptr(), output.len(),
                outcome.as_mut_ptr(),
            )
        }
    }

    fn aplx_check(&self, plan: &[u8], image: &[u8], outcome: &mut Outcome) -> u32 {
        unsafe {
            reidhintsje_aplx_check(
                plan.as_ptr(), plan.len(),
                image.as_ptr(), image.len(),
                outcome.as_mut_ptr(),
            )
        }
    }

    fn flood_fill_start(
        &self,
        receiver: &mut ReceiverBytes,
        image: &[u8],
        last_block: u32,
        block_size: u32,
        outcome: &mut Outcome,
    ) -> u32 {
        unsafe {
            reidhintsje_flood_fill_start(
                receiver.as_mut_ptr(),
                image.as_ptr(), image.len(),
                last_block, block_size,
                outcome.as_mut_ptr(),
            )
        }
    }

    fn flood_fill_block_start(
        &self,
        receiver: &mut ReceiverBytes,
        image: &[u8],
        block: u32,
        size: u32,
        outcome: &mut Outcome,
    ) -> u32 {
        unsafe {
            reidhintsje_flood_fill_block_start(
                receiver.as_mut_ptr(),
                image.as_ptr(), image.len(),
                block, size,
                outcome.as_mut_ptr(),
            )
        }
    }

    fn flood_fill_block_data(
        &self,
        receiver: &mut ReceiverBytes,
        image: &[u8],
        block: u32,
        word_id: u32,
        word: u32,
        outcome: &mut Outcome,
    ) -> u32 {
        unsafe {
            reidhintsje_flood_fill_block_data(
                receiver.as_mut_ptr(),
                image.as_ptr(), image.len(),
                block, word_id, word,
                outcome.as_mut_ptr(),
            )
        }
    }

    fn flood_fill_block_end(
        &self,
        receiver: &mut ReceiverBytes,
        image: &mut [u8],
        block: u32,
        outcome: &mut Outcome,
    ) -> u32 {
        unsafe {
            reidhintsje_flood_fill_block_end(
                receiver.as_mut_ptr(),
                image.as_mut_ptr(), image.len(),
                block,
                outcome.as_mut_ptr(),
            )
        }
    }
}
