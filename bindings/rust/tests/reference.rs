//! What the crate says of many files is what the reference implementation of the repository says of them.

#![cfg(feature = "std")]

use std::collections::BTreeSet;
use std::fmt::Write;
use std::path::{Path, PathBuf};
use std::process::Command;
use std::{env, fs};

use elfmap::{check, Failure, File, Header, Owner, Part, Section, Segment};

/// Of a longer file the reference prints the records alone.
const LONG: usize = 1 << 20;

/// A folder with the files, as `tools/dev dump` writes it; `None` where there is no Python.
fn dump_folder() -> Option<PathBuf> {
    let folder = Path::new(env!("CARGO_TARGET_TMPDIR")).join("dump");
    let script = Path::new(env!("CARGO_MANIFEST_DIR")).join("../../tools/dev");
    let _ = fs::remove_dir_all(&folder);
    fs::create_dir(&folder).unwrap();
    match Command::new("python3")
        .arg(script)
        .arg("dump")
        .arg(&folder)
        .status()
    {
        Ok(status) => assert!(status.success(), "tools/dev dump failed"),
        Err(fault) => {
            eprintln!("no file is tried: python3: {fault}");
            return None;
        }
    }
    Some(folder)
}

fn shown(bytes: Option<&[u8]>) -> String {
    let Some(bytes) = bytes else {
        return "-".to_string();
    };
    bytes.iter().fold("=".to_string(), |mut text, byte| {
        write!(text, "{byte:02x}").unwrap();
        text
    })
}

fn header_line(it: &Header) -> String {
    format!(
        "header {} {} {} {} {} {} {} {} {} {} {} {} {} {}",
        it.e_type,
        it.e_machine,
        it.e_version,
        it.e_entry,
        it.e_phoff,
        it.e_shoff,
        it.e_flags,
        it.e_ehsize,
        it.e_phentsize,
        it.e_phnum,
        it.e_shentsize,
        it.e_shnum,
        it.e_shstrndx,
        shown(Some(&it.e_ident)),
    )
}

fn section_line(section: Section<'_>) -> String {
    let it = section.header();
    format!(
        "section {} {} {} {} {} {} {} {} {} {} {} {}",
        it.sh_name,
        it.sh_type,
        it.sh_flags,
        it.sh_addr,
        it.sh_offset,
        it.sh_size,
        it.sh_link,
        it.sh_info,
        it.sh_addralign,
        it.sh_entsize,
        shown(Some(section.name())),
        shown(section.content()),
    )
}

fn segment_line(segment: Segment<'_>) -> String {
    let it = segment.header();
    format!(
        "segment {} {} {} {} {} {} {} {} {}",
        it.p_type,
        it.p_flags,
        it.p_offset,
        it.p_vaddr,
        it.p_paddr,
        it.p_filesz,
        it.p_memsz,
        it.p_align,
        shown(segment.content()),
    )
}

fn dumped(bytes: &[u8]) -> Vec<String> {
    let file = match File::parse(bytes) {
        Ok(file) => file,
        Err(refusal) => {
            assert_eq!(check(bytes), Err(refusal));
            let (rule, offset) = (refusal.rule, refusal.offset);
            return vec![format!("refused {rule} {offset} {}", refusal.name())];
        }
    };
    let summary = check(bytes).unwrap();
    assert_eq!(summary, file.summary());
    let (len, sections, segments) = (summary.len, summary.sections, summary.segments);
    let mut lines = vec![format!("ok {len} {sections} {segments}")];
    lines.push(header_line(file.header()));
    lines.extend(file.sections().map(section_line));
    lines.extend(file.segments().map(segment_line));
    if len > LONG {
        return lines;
    }
    lines.extend(file.parts().unwrap().iter().map(part_line));
    for index in 0..sections {
        lines.extend(entry_lines(&file, index));
    }
    lines.push(format!(
        "show {}",
        shown(Some(&elfmap::show(bytes).unwrap()))
    ));
    lines.push(match elfmap::rewrite(bytes) {
        Ok(object) => format!("rewrite {}", shown(Some(&object))),
        Err(Failure::Refused { refusal, .. }) => {
            format!("rewrite refused {} {}", refusal.rule, refusal.offset)
        }
        Err(Failure::TooLong) => "rewrite too long".to_string(),
        Err(failure) => format!("rewrite {failure}"),
    });
    lines
}

fn part_line(part: &Part) -> String {
    let owner = match part.owner {
        Owner::Header => "header".to_string(),
        Owner::SectionHeaders => "sections".to_string(),
        Owner::ProgramHeaders => "segments".to_string(),
        Owner::Content(index) => format!("content {index}"),
        _ => "gap".to_string(),
    };
    format!("part {} {} {owner}", part.start, part.len)
}

/// The lines of a table's entries; none of a section that holds none.
fn entry_lines(file: &File<'_>, index: usize) -> Vec<String> {
    let symbols = file.symbols(index).into_iter().flatten().map(|it| {
        let (value, size, section) = (it.st_value, it.st_size, it.section);
        let (shndx, info, other) = (it.st_shndx, it.st_info, it.st_other);
        assert_eq!((it.binding(), it.symbol_type()), (info >> 4, info & 15));
        let name = shown(Some(it.name));
        format!("symbol {index} {value} {size} {section} {shndx} {info} {other} {name}")
    });
    let relocations = file.relocations(index).into_iter().flatten().map(|it| {
        let (offset, addend) = (it.r_offset, it.r_addend);
        format!(
            "relocation {index} {offset} {addend} {} {}",
            it.symbol, it.relocation_type
        )
    });
    let dynamic = file.dynamic(index).into_iter().flatten();
    let dynamic = dynamic.map(|(it, text)| {
        format!(
            "dynamic {index} {} {} {}",
            it.d_tag,
            it.d_un,
            shown(Some(text))
        )
    });
    let notes = file.notes(index).into_iter().flatten().map(|it| {
        let (name, desc) = (shown(Some(it.name)), shown(Some(it.desc)));
        format!("note {index} {} {name} {desc}", it.n_type)
    });
    symbols
        .chain(relocations)
        .chain(dynamic)
        .chain(notes)
        .collect()
}

/// Lines without those of entries of tables that the reference refuses.
fn comparable(lines: Vec<String>, reference: &[&str]) -> Vec<String> {
    let broken = |line: &str| {
        let mut words = line.split(' ');
        let word = words.next().unwrap();
        let is_entry = ["symbol", "relocation", "dynamic", "note"].contains(&word);
        let index = words.next().unwrap_or_default();
        is_entry && reference.contains(&format!("broken {index}").as_str())
    };
    lines.into_iter().filter(|it| !broken(it)).collect()
}

#[test]
fn says_what_the_reference_says() {
    let Some(folder) = dump_folder() else {
        return;
    };
    let mut broken = BTreeSet::new();
    for number in 0.. {
        let Ok(bytes) = fs::read(folder.join(format!("{number}.elf"))) else {
            break;
        };
        let expected = fs::read_to_string(folder.join(format!("{number}.txt"))).unwrap();
        let reference: Vec<&str> = expected.lines().collect();
        let lines = comparable(dumped(&bytes), &reference);
        let reference = reference
            .into_iter()
            .filter(|it| !it.starts_with("broken "));
        if !reference.clone().eq(&lines) {
            let other = reference.zip(&lines).find(|(a, b)| a != b);
            panic!("file {number}: the reference and the crate: {other:.400?}");
        }
        if let Err(refusal) = check(&bytes) {
            broken.insert(refusal.rule);
        }
    }
    assert_eq!(broken, (2..=33).collect(), "rule 1 wants a longer file");
    fs::remove_dir_all(folder).unwrap();
}
