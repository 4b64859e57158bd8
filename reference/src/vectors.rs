//! Writes the stored vectors: `vectors FILE` writes FILE, the calls of crates/replay/data/vectors, each with its
//! number as its name. The head of crates/replay/data/cases says how a call is written. A sequence of additions is
//! a row of map_add calls, each with the table that the one before it left; so is a series of flood-fill messages.

use std::fs;
use std::process::exit;

use reference::bytes::unhex;
use reference::check_kinds;
use reference::compare_flood::call;
use reference::difference_kinds;
use reference::flood_fill::Message;
use reference::generate::{case_of, Call, Case, Flood, Sent, Size};
use reference::interface::{table_of, Library, Outcome, Reference};
use reference::map::{Map, Region, Rights};
use reference::random::Random;
use reference::read_back;
use reference::share_kinds;
use reference::tally::{
    call_of, flood_kind, load_kind, number_kind, read_back_kinds, read_kinds, reply_kind, required, rights_kind,
    table_kind, Tally,
};
use reference::text::write_bytes;

mod check_vectors;
mod difference_vectors;
mod flood_vectors;
mod read_back_vectors;
mod share_vectors;

/// The first line of the file.
const HEAD: &str = "# Calls that the reference writes (reference/vectors). The head of the file `cases` says how they are \
                    written.\n";
const SEED: u64 = 6_122_011;
/// More would not fit into the program that replays them.
const MOST_TEXT: usize = 1_000_000;
const MOST_MEMORY: usize = 512;
/// Records of one call that come to the same thing.
const ALIKE: u64 = 7;
/// Random inputs that are drawn for each call.
const DRAWN: usize = 20_000;

/// What can't occur with so small a memory or slice, or is not a thing of single calls. 512 stretches and 256 entries are left to the
/// cases.
fn beyond(call: &str, what: &str) -> bool {
    call.starts_with("series")
        || call == "flood_fill"
        || what.starts_with("memory")
        || what.starts_with("taken")
        || what.starts_with("identity")
        || (call == "map_sound" && (what == "accepted" || what.starts_with("refused")))
        || (call == "aplx_read" && (what == "a put of 65536 bytes" || what == "packed to the same bytes"))
        || (call == "compare"
            && ["511 stretches", "512 stretches", "64 pieces", "output of more bytes", "with its image read back"]
                .contains(&what))
        || (call == "aplx_check" && (what.contains("25") || what == "a put of 65536 bytes"))
        || (call == "pack_aplx_shared" && share_vectors::BEYOND.contains(&what))
        || (call == "srom_load" && what == "refused 13")
        || (call == "aplx_load" && what == "refused  7")
}

#[derive(Default)]
struct Vectors {
    text: String,
    records: u64,
    tally: Tally,
}

/// The text of one call.
struct Record {
    text: String,
}

impl Record {
    fn new(name: &str) -> Record {
        Record { text: name.to_string() }
    }

    fn number(mut self, number: u64) -> Record {
        self.text += &format!(" {number}");
        self
    }

    fn words(mut self, words: &[u32]) -> Record {
        for word in words {
            self = self.number(u64::from(*word));
        }
        self
    }

    fn slice(mut self, slice: &[u8]) -> Record {
        self.text += &format!(" {}", write_bytes(slice));
        self
    }

    /// `=` where the slice is as the call before left it.
    fn kept(mut self, slice: &[u8], left: Option<&[u8]>) -> Record {
        if left == Some(slice) {
            self.text += " =";
            return self;
        }
        self.slice(slice)
    }
}

impl Vectors {
    fn write(&mut self, record: Record) {
        self.text += &format!(": vector {}\n{}\n", self.records, record.text);
        self.records += 1;
    }

    /// Whether there are few records yet of a call that come to this; counts one more if so.
    fn wants(&mut self, call: &'static str, what: String) -> bool {
        let few = self.tally.of(call, &what) < ALIKE;
        if few {
            self.tally.count(call, what);
        }
        few
    }

    /// Adds the records of a case; `always`: also where many are alike.
    fn add(&mut self, case: &Case, always: bool) {
        let mut outcome: Outcome = [0; 8];
        match case {
            Case::MapAdd { table, additions } => {
                let mut table = table.clone();
                let mut records = Vec::new();
                let mut wanted = always;
                for [base, length, place, rights] in additions.iter().copied() {
                    let record = Record::new("map_add")
                        .slice(&table)
                        .number(u64::from(base))
                        .number(u64::from(length))
                        .number(u64::from(place))
                        .number(u64::from(rights));
                    let number = Reference.map_add(&mut table, base, length, place, rights);
                    wanted |= self.wants("map_add", number_kind(u64::from(number)));
                    wanted |= self.wants("map_add", rights_kind(number, rights));
                    records.push(record);
                }
                if wanted {
                    for record in records {
                        self.write(record);
                    }
                }
            }
            Case::MapSound { table, memory_length } => {
                let number = Reference.map_sound(table, *memory_length);
                if self.wants("map_sound", table_kind(number, table).to_string()) || always {
                    let record = Record::new("map_sound").slice(table).number(*memory_length as u64);
                    self.write(record);
                }
            }
            Case::SromLoad { table, memory, rom, offset } => {
                let mut after = memory.clone();
                Reference.srom_load(table, &mut after, rom, *offset, &mut outcome);
                if self.wants("srom_load", load_kind(&outcome)) || always {
                    let record =
                        Record::new("srom_load").slice(table).slice(memory).slice(rom).number(*offset as u64);
                    self.write(record);
                }
            }
            Case::AplxLoad { table, memory, header } => {
                let mut after = memory.clone();
                Reference.aplx_load(table, &mut after, *header, &mut outcome);
                if self.wants("aplx_load", load_kind(&outcome)) || always {
                    let record = Record::new("aplx_load").slice(table).slice(memory).number(u64::from(*header));
                    self.write(record);
                }
            }
            Case::ScpAnswer { table, memory, identity, packet, output } => {
                let (mut after, mut answered) = (memory.clone(), output.clone());
                Reference.scp_answer(
                    table, &mut after, identity, packet, &mut answered, &mut outcome,
                );
                if self.wants("scp_answer", reply_kind(&outcome, packet, &answered)) || always {
                    let mut record = Record::new("scp_answer").slice(table).slice(memory);
                    for number in identity {
                        record = record.number(u64::from(*number));
                    }
                    self.write(record.slice(packet).slice(output));
                }
            }
            Case::PlanRead { plan, target } => {
                Reference.plan_read(plan, *target, &mut outcome);
                let call = match target {
                    0 => "plan_read 0",
                    1 => "plan_read 1",
                    _ => "plan_read +",
                };
                if self.wants(call, number_kind(outcome[0])) || always {
                    let record = Record::new("plan_read").slice(plan).number(u64::from(*target));
                    self.write(record);
                }
            }
            Case::PackSrom { plan, output } => {
                let mut after = output.clone();
                Reference.pack_srom(plan, &mut after, &mut outcome);
                if self.wants("pack_srom", number_kind(outcome[0])) || always {
                    let record = Record::new("pack_srom").slice(plan).slice(output);
                    self.write(record);
                }
            }
            Case::PackAplx { plan, output } => {
                let mut after = output.clone();
                Reference.pack_aplx(plan, &mut after, &mut outcome);
                if self.wants("pack_aplx", number_kind(outcome[0])) || always {
                    let record = Record::new("pack_aplx").slice(plan).slice(output);
                    self.write(record);
                }
            }
            Case::AplxRead { image, output, .. } => {
                let mut after = output.clone();
                Reference.aplx_read(image, &mut after, &mut outcome);
                let mut kinds = read_kinds(&outcome);
                if let (0, Ok(pieces)) = (outcome[0], read_back::pieces(image)) {
                    kinds.extend(read_back_kinds(&pieces).iter().map(|kind| kind.to_string()));
                }
                let mut wanted = always;
                for kind in kinds {
                    wanted |= self.wants("aplx_read", kind);
                }
                if wanted {
                    let record = Record::new("aplx_read").slice(image).slice(output);
                    self.write(record);
                }
            }
            Case::Compare { old, new, output } => {
                Reference.compare(old, new, &mut output.clone(), &mut outcome);
                let mut wanted = always;
                for kind in difference_kinds::kinds(&outcome, old, new, output.len()) {
                    wanted |= self.wants("compare", kind);
                }
                if wanted {
                    self.write(Record::new("compare").slice(old).slice(new).slice(output));
                }
            }
            Case::AplxCheck { plan, image, made, .. } => {
                Reference.aplx_check(plan, image, &mut outcome);
                self.tally.count("aplx_check", check_kinds::made_kind(made));
                for kind in check_kinds::kinds(&outcome, plan, image) {
                    self.tally.count("aplx_check", kind);
                }
                self.write(Record::new("aplx_check").slice(plan).slice(image));
            }
            Case::PackShared { plan, output } => {
                Reference.pack_aplx_shared(plan, &mut output.clone(), &mut outcome);
                for kind in share_kinds::kinds(&outcome, plan, output.len()) {
                    self.tally.count("pack_aplx_shared", kind);
                }
                self.write(Record::new("pack_aplx_shared").slice(plan).slice(output));
            }
            Case::Series { .. }
            | Case::OldImage { .. }
            | Case::SuppliedImage { .. }
            | Case::SharedImage { .. }
            | Case::FloodFill(_) => {}
        }
    }

    /// Adds the records of a series of flood-fill messages.
    fn add_flood(&mut self, flood: &Flood) {
        let mut receiver = *flood.receiver;
        let mut image = flood.image.clone();
        let mut left: Option<(Vec<u8>, Vec<u8>)> = None;
        for Sent { message, lent } in flood.sent.iter().copied() {
            let (table, memory) = (left.as_ref().map(|left| &left.0[..]), left.as_ref().map(|left| &left.1[..]));
            let record = Record::new(call_of(message)).kept(&receiver, table).kept(&image[..lent], memory);
            self.write(match message {
                Message::Start { last_block, block_size } => record.words(&[last_block, block_size]),
                Message::BlockStart { block, size } => record.words(&[block, size]),
                Message::BlockData { block, word_id, word } => record.words(&[block, word_id, word]),
                Message::BlockEnd { block } => record.words(&[block]),
            });
            let mut outcome: Outcome = [0; 8];
            call(&Reference, &mut receiver, &mut image[..lent], message, &mut outcome);
            self.tally.count(call_of(message), flood_kind(&outcome));
            left = Some((receiver.to_vec(), image[..lent].to_vec()));
        }
    }
}

fn table(regions: &[[u32; 4]]) -> Vec<u8> {
    let regions = regions
        .iter()
        .map(|[base, length, place, rights]| Region {
            base: *base,
            length: *length,
            place: *place,
            rights: Rights::from_number(*rights),
        })
        .collect();
    table_of(&Map { regions })
}

/// The paper's pieces with known weight, as far as they fit.
fn weighed() -> Vec<Case> {
    let empty = table(&[]);
    let plan = |text: &str| unhex(text);
    let fill_and_run = plan(
        "02000000 10000000 30000000 00000000 02000000 00004000 20000000 00000000
         03000000 00000000 00000000 00000000",
    );
    let mut put_and_run = plan(
        "02000000 10000000 30000000 20000000 01000000 00000000 20000000 00000000
         03000000 00000000 00000000 00000000",
    );
    put_and_run.extend(1..=32);
    let srom_fill =
        plan("01000000 10000000 20000000 00000000 02000000 e07f00f5 04000000 04030201");
    let nothing = plan("00000000 10000000 10000000 00000000");
    let dump = unhex(
        "553a0008f5007fe0000080810e3e00a4 88c15882fac058820000ffff000045e5 000000000000000000aa",
    );
    let mut cases = vec![
        Case::SromLoad { table: table(&[[0xf500_7fe0, 32, 3, 2]]), memory: vec![0; 40], rom: dump, offset: 0 },
        Case::PackAplx { plan: fill_and_run, output: vec![0x77; 50] },
        Case::PackAplx { plan: put_and_run.clone(), output: vec![0x77; 80] },
        Case::PackAplx { plan: put_and_run, output: vec![0x77; 79] },
        Case::PackSrom { plan: srom_fill, output: vec![0x77; 13] },
        Case::PackAplx { plan: nothing.clone(), output: vec![0x77; 16] },
        Case::PackSrom { plan: nothing, output: vec![0x77; 2] },
        Case::SromLoad { table: empty.clone(), memory: vec![9; 4], rom: vec![0xff], offset: 0 },
        Case::SromLoad { table: empty.clone(), memory: vec![9; 4], rom: vec![], offset: 0 },
        Case::MapAdd {
            table: empty,
            additions: vec![[4_294_967_280, 4, 0, 7], [4_294_967_276, 4, 0, 7], [4_294_967_276, 4, 4, 7]],
        },
    ];
    for length in [1, 32, 33, 0] {
        let words = [3, 0x1000, length, 0xabab_abab, 0xffff_ffff, 0, 0, 0u32];
        let mut memory: Vec<u8> = words.iter().flat_map(|word| word.to_le_bytes()).collect();
        memory.resize(128, 0);
        let table = table(&[[0, 32, 0, 1], [0x1000, 96, 32, 2]]);
        cases.push(Case::AplxLoad { table, memory, header: 0 });
    }
    for length in [256u32, 257] {
        let mut packet = vec![2, 0, 7, 8, 0, 0, 0, 0];
        packet.extend(length.to_le_bytes());
        packet.extend([0; 4]);
        cases.push(Case::ScpAnswer {
            table: table(&[[0, 300, 0, 1]]),
            memory: (0..300).map(|k| k as u8).collect(),
            identity: [258, 3, 4, 129, 5],
            packet,
            output: vec![0x77; 272],
        });
    }
    for count in [64u32, 65] {
        let mut plan: Vec<u8> = [count, 16, 16, 0].iter().flat_map(|word| word.to_le_bytes()).collect();
        for _ in 0..count {
            plan.extend([3, 0, 0, 0, 0, 0, 0, 0, 0, 0, 0, 0, 0, 0, 0, 0]);
        }
        cases.push(Case::PlanRead { plan, target: 0 });
    }
    cases
}

fn memory_length(case: &Case) -> usize {
    match case {
        Case::SromLoad { memory, .. } | Case::AplxLoad { memory, .. } | Case::ScpAnswer { memory, .. } => {
            memory.len()
        }
        _ => 0,
    }
}

fn main() {
    let arguments: Vec<String> = std::env::args().skip(1).collect();
    let [file] = arguments.as_slice() else {
        eprintln!("usage: vectors FILE");
        exit(2)
    };
    let mut vectors = Vectors::default();
    for case in weighed() {
        vectors.add(&case, true);
    }
    let mut random = Random::new(SEED);
    for call in [
        Call::MapAdd,
        Call::MapSound,
        Call::SromLoad,
        Call::AplxLoad,
        Call::ScpAnswer,
        Call::PlanRead,
        Call::PackSrom,
        Call::PackAplx,
    ] {
        for drawn in 0..DRAWN {
            let case = case_of(call, &mut random, Size::Stored);
            assert!(memory_length(&case) <= MOST_MEMORY);
            vectors.add(&case, drawn < 12);
        }
    }
    for flood in flood_vectors::all(&mut random) {
        vectors.add_flood(&flood);
    }
    for case in read_back_vectors::all(&mut random) {
        vectors.add(&case, true);
    }
    for case in difference_vectors::all(&mut random) {
        vectors.add(&case, true);
    }
    for case in check_vectors::all(&mut random) {
        vectors.add(&case, true);
    }
    for case in share_vectors::all(&mut random) {
        vectors.add(&case, true);
    }
    let mut missing = vectors.tally.missing(&required());
    missing.retain(|(call, what)| !beyond(call, what));
    if !missing.is_empty() || vectors.text.len() > MOST_TEXT {
        println!("FAILED: {} bytes; did not occur: {missing:?}", vectors.text.len());
        exit(1);
    }
    if let Err(error) = fs::write(file, format!("{HEAD}{}", vectors.text)) {
        eprintln!("{file}: {error}");
        exit(1);
    }
    println!("{} calls", vectors.records);
}
