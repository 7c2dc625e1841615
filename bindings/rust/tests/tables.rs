//! What the crate gives of files that are made here by hand: segments, parts, and the entries of each kind of table.

#![cfg(feature = "std")]

use elfmap::{check, refused_tables, Entries, Failure, File, Owner, Part, Section};
use std::time::{Duration, Instant};

/// A section: its name, type, content, link, info and size of an entry.
type Row<'a> = (&'a str, u32, Vec<u8>, u32, u32, u64);

/// A relocatable file of these sections, after them their names and headers.
fn made(rows: &[Row<'_>]) -> Vec<u8> {
    let mut bytes = vec![0; 64];
    let mut names = vec![0];
    let mut headers = vec![0; 64];
    for (name, kind, content, link, info, entsize) in rows {
        bytes.resize(bytes.len().next_multiple_of(8), 0);
        let place = (bytes.len(), content.len());
        headers.extend(header(names.len(), *kind, place, (*link, *info, *entsize)));
        bytes.extend(content);
        names.extend(name.bytes().chain([0]));
    }
    let own = names.len();
    names.extend(b".shstrtab\0");
    headers.extend(header(own, 3, (bytes.len(), names.len()), (0, 0, 0)));
    bytes.extend(&names);
    bytes.resize(bytes.len().next_multiple_of(8), 0);
    let count = rows.len() as u16 + 2;
    let mut put = |at: usize, part: &[u8]| bytes[at..at + part.len()].copy_from_slice(part);
    put(0, b"\x7fELF\x02\x01\x01");
    put(16, &[1, 0, 62, 0, 1]);
    put(52, &[64]);
    put(58, &[64]);
    put(60, &count.to_le_bytes());
    put(62, &(count - 1).to_le_bytes());
    let table = bytes.len() as u64;
    bytes[40..48].copy_from_slice(&table.to_le_bytes());
    bytes.extend(headers);
    bytes
}

fn header(name: usize, kind: u32, place: (usize, usize), more: (u32, u32, u64)) -> Vec<u8> {
    let (link, info, entsize) = more;
    let mut found = words(&[name as u32, kind]);
    found.extend(longs(&[0, 0, place.0 as u64, place.1 as u64]));
    found.extend(words(&[link, info]));
    found.extend(longs(&[1, entsize]));
    found
}

fn words(numbers: &[u32]) -> Vec<u8> {
    numbers.iter().flat_map(|it| it.to_le_bytes()).collect()
}

fn longs(numbers: &[u64]) -> Vec<u8> {
    numbers.iter().flat_map(|it| it.to_le_bytes()).collect()
}

/// Symbol 0 and symbols with these names, all global and in section 1.
fn symbols(names: &[u32]) -> Vec<u8> {
    let one = |name: &u32| [words(&[*name, 0x0001_0010]), longs(&[7, 8])].concat();
    [vec![0; 24], names.iter().flat_map(one).collect()].concat()
}

fn text() -> Row<'static> {
    (".text", 1, vec![0x90; 16], 0, 0, 0)
}

#[test]
fn parts_and_gaps() {
    let bytes = made(&[text(), (".data", 1, vec![1, 2], 0, 0, 0)]);
    let parts = File::parse(&bytes).unwrap().parts().unwrap();
    let owners: Vec<Owner> = parts.iter().map(|it| it.owner).collect();
    let right = [
        Owner::Header,
        Owner::Content(1),
        Owner::Content(2),
        Owner::Content(3),
        Owner::Gap,
        Owner::SectionHeaders,
    ];
    assert_eq!(owners, right);
    let ends: Vec<usize> = parts.iter().map(|it: &Part| it.start + it.len).collect();
    assert_eq!(ends, [64, 80, 82, 105, 112, bytes.len()]);
}

#[test]
fn a_segment_is_longer_in_memory() {
    let mut bytes = b"\x7fELF\x02\x01\x01".to_vec();
    bytes.resize(16, 0);
    bytes.extend([2, 0, 62, 0, 1, 0, 0, 0]);
    bytes.extend(longs(&[0x1040, 64, 0]));
    bytes.extend([0, 0, 0, 0, 64, 0, 56, 0, 1, 0, 0, 0, 0, 0, 0, 0]);
    bytes.extend(words(&[1, 5]));
    bytes.extend(longs(&[64, 0x1040, 0x1040, 60, 0x2000, 0x1000]));
    bytes.extend(b"code");
    let file = File::parse(&bytes).unwrap();
    let segment = file.segment(0).unwrap();
    assert_eq!(segment.content(), Some(&bytes[64..124]));
    assert_eq!(segment.header().p_memsz, 0x2000);
    assert_eq!(file.segments().count(), 1);
    let loaded = [0x103f, 0x1078, 0x107c, 0x303f, 0x3040].map(|it| file.load(it));
    assert_eq!(loaded, [None, Some(b'c'), Some(0), Some(0), None]);
}

/// A segment of type `PT_NULL` has no bytes, whatever its header says; and an empty content may begin
/// after the end of the file.
#[test]
fn what_has_no_bytes() {
    let mut bytes = made(&[text(), (".empty", 1, vec![], 0, 0, 0)]);
    let at = bytes.len();
    bytes.extend(words(&[0, 4]));
    bytes.extend(longs(&[64, 0, 0, 16, 16, 1]));
    bytes[32..40].copy_from_slice(&(at as u64).to_le_bytes());
    bytes[54..58].copy_from_slice(&[56, 0, 1, 0]);
    let place = at - 64 * 2 + 24;
    bytes[place..place + 8].copy_from_slice(&(1u64 << 40).to_le_bytes());
    let file = File::parse(&bytes).unwrap();
    assert_eq!(file.segment(0).unwrap().content(), None);
    let empty = file.section(2).unwrap();
    assert_eq!(
        (empty.name(), empty.header().sh_offset),
        (&b".empty"[..], 1 << 40)
    );
    assert_eq!(empty.content(), Some(&b""[..]));
}

/// The binding and the type are the upper and the lower half of `st_info`, also those of systems: 10 is
/// GNU_UNIQUE and GNU_IFUNC.
#[test]
fn a_symbol_in_words() {
    let mut table = symbols(&[1]);
    table[24 + 4] = 0xaa;
    let names = b"\0f\0".to_vec();
    let bytes = made(&[
        text(),
        (".symtab", 2, table, 3, 1, 24),
        (".strtab", 3, names, 0, 0, 0),
    ]);
    let symbol = File::parse(&bytes).unwrap().symbol(2, 1).unwrap();
    assert_eq!((symbol.binding(), symbol.symbol_type()), (10, 10));
    let shown = "Symbol { name: \"f\", st_value: 7, st_size: 8, section: 1, st_info: 170, .. }";
    assert_eq!(format!("{symbol:?}"), shown);
}

#[test]
fn more_sections_than_there_is_room_for_on_the_stack() {
    for count in [60, 61, 62, 300] {
        let rows: Vec<Row<'_>> = (0..count).map(|_| (".s", 1, vec![1], 0, 0, 0)).collect();
        let mut bytes = made(&rows);
        let summary = check(&bytes).unwrap();
        assert_eq!(summary.sections, count + 2);
        // The last one of them shares the byte of the first one.
        let at = bytes.len() - 64 * 2 + 24;
        bytes[at..at + 8].copy_from_slice(&64u64.to_le_bytes());
        let refusal = check(&bytes).unwrap_err();
        assert_eq!((refusal.rule, refusal.offset), (33, 64));
    }
}

#[test]
fn each_kind_of_table() {
    let names = b"\0f\0lib.so\0".to_vec();
    let dynamic = longs(&[1, 3, 0, 0]);
    let note =
        |name: &[u8; 4], kind| [words(&[2, 4, kind]), name.to_vec(), b"desc".to_vec()].concat();
    let nameless = words(&[0, 0, 3]);
    let notes = [note(b"a\0\0\0", 1), nameless, note(b"b\0\0\0", 2)].concat();
    let rela = longs(&[4, 1 << 32 | 2, u64::MAX]);
    let rel = longs(&[8, 1 << 32 | 2]);
    let hash = words(&[1, 2, 1, 0, 0]);
    let bytes = made(&[
        text(),
        (".symtab", 2, symbols(&[1]), 3, 1, 24),
        (".strtab", 3, names, 0, 0, 0),
        (".rela.text", 4, rela, 2, 1, 24),
        (".rel.text", 9, rel, 2, 1, 16),
        (".dynamic", 6, dynamic, 3, 0, 16),
        (".note", 7, notes, 0, 0, 0),
        (".hash", 5, hash, 2, 0, 4),
        (".dynsym", 11, symbols(&[1]), 3, 1, 24),
    ]);
    let file = File::parse(&bytes).unwrap();
    for table in [2, 9] {
        let symbols: Vec<_> = file.symbols(table).unwrap().collect();
        assert_eq!(symbols.len(), 2);
        let it = symbols[1];
        assert_eq!(
            (it.name, it.section, it.st_value, it.st_size),
            (&b"f"[..], 1, 7, 8)
        );
        assert_eq!((it.binding(), it.symbol_type()), (1, 0));
    }
    let entry = |table| file.relocations(table).unwrap().next().unwrap();
    let (with_addend, without) = (entry(4), entry(5));
    assert_eq!((with_addend.r_offset, with_addend.r_addend), (4, -1));
    assert_eq!((without.r_offset, without.r_addend), (8, 0));
    assert_eq!((without.symbol, without.relocation_type), (1, 2));
    let strings: Vec<&[u8]> = file.dynamic(6).unwrap().map(|(_, string)| string).collect();
    assert_eq!(strings, [b"lib.so"]);
    let notes: Vec<_> = file
        .notes(7)
        .unwrap()
        .map(|it| (it.name, it.n_type, it.desc))
        .collect();
    assert_eq!(
        notes,
        [
            (&b"a"[..], 1, &b"desc"[..]),
            (b"", 3, b""),
            (b"b", 2, b"desc")
        ]
    );
    assert_eq!(file.find(8, b"f"), Some(1));
    assert_eq!(file.find(8, b"g"), None);
    // A section of another type has no such table.
    assert!(file.symbols(1).is_none() && file.symbols(4).is_none() && file.symbols(99).is_none());
    assert!(file.relocations(2).is_none() && file.dynamic(7).is_none());
    assert!(file.notes(6).is_none() && file.find(2, b"f").is_none());
}

#[test]
fn entries_are_counted_and_passed() {
    const COUNT: usize = 100_000;
    let bytes = made(&[
        text(),
        (".symtab", 2, symbols(&[1; COUNT - 1]), 3, 1, 24),
        (".strtab", 3, b"\0f\0".to_vec(), 0, 0, 0),
    ]);
    let file = File::parse(&bytes).unwrap();
    let all = file.symbols(2).unwrap();
    assert_eq!((all.len(), all.size_hint()), (COUNT, (COUNT, Some(COUNT))));
    assert_eq!(all.clone().count(), COUNT);
    assert_eq!(all.clone().last().unwrap().name, b"f");
    let mut passed = all.clone();
    assert!(passed.nth(9).is_some() && passed.next_back().is_some());
    assert_eq!(passed.count(), COUNT - 11);
    // Each by its number: the square of their count would take minutes.
    let started = Instant::now();
    for index in 0..COUNT {
        let it = file.symbols(2).unwrap().nth(index).unwrap();
        assert_eq!(it.name.is_empty(), index == 0);
        let it = file.symbols(2).unwrap().nth_back(index).unwrap();
        assert_eq!(it.name.is_empty(), index == COUNT - 1);
        assert!(file.symbol(2, index).is_some());
    }
    assert!(started.elapsed() < Duration::from_secs(20));
    assert!(file.symbol(2, COUNT).is_none() && file.symbol(1, 0).is_none());
    assert!(all.clone().nth(COUNT).is_none() && all.clone().nth_back(COUNT).is_none());
    let mut left = all.clone();
    assert!(left.nth(COUNT - 3).is_some() && left.next_back().is_some());
    assert_eq!((left.len(), left.size_hint()), (1, (1, Some(1))));
    assert!(left.next().is_some() && left.next().is_none() && left.next_back().is_none());
    // What goes past the end leaves nothing, and stays there.
    let (mut front, mut back) = (all.clone(), all);
    assert!(front.nth(COUNT).is_none() && front.next().is_none() && front.next_back().is_none());
    assert!(back.nth_back(COUNT).is_none() && back.next().is_none() && back.len() == 0);
}

/// Entries of a longer life serve where those of a shorter one are asked for.
#[test]
fn entries_are_covariant() {
    fn shorter<'a>(
        long: Entries<'static, Section<'static>>,
        _: &'a [u8],
    ) -> Entries<'a, Section<'a>> {
        long
    }
    static BYTES: &[u8] = include_bytes!("../../../crates/elfmap/data/header.elf");
    let own = vec![1];
    let sections = File::parse(BYTES).unwrap().sections();
    assert_eq!(shorter(sections, &own).len(), 0);
}

#[test]
fn sections_and_segments_are_passed() {
    let bytes = made(&[text(), (".data", 1, vec![1], 0, 0, 0)]);
    let file = File::parse(&bytes).unwrap();
    let name = |index| file.sections().nth(index).map(|it| it.name());
    assert_eq!(name(2), Some(&b".data"[..]));
    assert_eq!(name(4), None);
    let names: Vec<&[u8]> = file
        .sections()
        .rev()
        .step_by(2)
        .map(|it| it.name())
        .collect();
    assert_eq!(names, [&b".shstrtab"[..], b".text"]);
    assert_eq!(file.segments().len(), 0);
}

#[test]
fn relocations_by_their_numbers() {
    let entries = longs(&[4, 1 << 32 | 2, 3, 8, 5, 6]);
    let bytes = made(&[
        text(),
        (".symtab", 2, symbols(&[1]), 3, 1, 24),
        (".strtab", 3, b"\0f\0".to_vec(), 0, 0, 0),
        (".rela.text", 4, entries, 2, 1, 24),
    ]);
    let file = File::parse(&bytes).unwrap();
    let offset = |entry| file.relocation(4, entry).map(|it| it.r_offset);
    assert_eq!([offset(0), offset(1), offset(2)], [Some(4), Some(8), None]);
    assert_eq!(file.relocations(4).unwrap().len(), 2);
}

/// Of a table that breaks a rule each symbol is there, also one whose word is not.
#[test]
fn a_symbol_whose_word_is_missing() {
    let mut table = symbols(&[1, 1, 1]);
    for entry in [1, 2] {
        table[24 * entry + 6..24 * entry + 8].copy_from_slice(&[0xff, 0xff]);
    }
    let index_table = (".symtab_shndx", 18, words(&[0, 3]), 2, 0, 4);
    let rows = [
        text(),
        (".symtab", 2, table, 3, 1, 24),
        (".strtab", 3, b"\0f\0".to_vec(), 0, 0, 0),
        index_table,
    ];
    for (count, sections) in [(4, [0, 3, 0, 1]), (3, [0, 0, 0, 1])] {
        let bytes = made(&rows[..count]);
        let file = File::parse(&bytes).unwrap();
        let found: Vec<u32> = file.symbols(2).unwrap().map(|it| it.section).collect();
        assert_eq!(found, sections);
        let it = file.symbol(2, 2).unwrap();
        assert_eq!((it.name, it.st_value, it.st_size), (&b"f"[..], 7, 8));
        assert_eq!((it.st_shndx, it.st_info), (0xffff, 0x10));
    }
}

#[test]
fn tables_that_break_a_rule() {
    // Symbol 1 has a name past the end of the names; the size of an entry is wrong.
    let bytes = made(&[
        text(),
        (".symtab", 2, symbols(&[9]), 3, 1, 24),
        (".strtab", 3, b"\0f\0".to_vec(), 0, 0, 0),
        (".dynsym", 11, symbols(&[1]), 3, 1, 25),
        (".dynsym", 11, symbols(&[1]), 3, 1, 24),
    ]);
    let refused = refused_tables(&bytes).unwrap();
    let sections: Vec<usize> = refused.iter().map(|(section, _)| *section).collect();
    assert_eq!(sections, [2, 4]);
    let names: Vec<&str> = refused.iter().map(|(_, it)| it.name()).collect();
    assert_eq!(names, ["SYMBOL_NAME_PAST_END", "WRONG_ENTRY_SIZE"]);
    assert!(matches!(
        refused_tables(b""),
        Err(Failure::Refused { file: 0, .. })
    ));
}
