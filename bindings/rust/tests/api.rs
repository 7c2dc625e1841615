//! What a caller sees beside the records.

#![cfg(feature = "std")]

use std::error::Error;
use std::{env, fs, panic, process};

use elfmap::{check, link, map, rules, Failure, File, LinkRefusal, Options, Refusal, Section};

#[allow(dead_code)]
#[path = "../build.rs"]
mod build;

/// A header, the names from 64 on, and from 88 on the section headers: NULL, `.bss`, `.shstrtab`.
fn small_file() -> Vec<u8> {
    let names = b"\0.bss\0.shstrtab\0";
    let mut bytes = vec![0; 88 + 3 * 64];
    let mut put = |at: usize, part: &[u8]| bytes[at..at + part.len()].copy_from_slice(part);
    put(0, b"\x7fELF\x02\x01\x01");
    put(16, &[1, 0, 62, 0, 1]);
    put(40, &[88]);
    put(52, &[64]);
    put(58, &[64, 0, 3, 0, 2]);
    put(64, names);
    for (index, name, kind, offset, size) in [(1, 1, 8, 64, 200), (2, 6, 3, 64, names.len() as u8)]
    {
        put(88 + 64 * index, &[name, 0, 0, 0, kind]);
        put(88 + 64 * index + 24, &[offset, 0, 0, 0, 0, 0, 0, 0, size]);
    }
    bytes
}

#[test]
fn a_longer_file_than_any_is_refused() {
    let bytes = vec![0; (1 << 30) + 1];
    let refusal = check(&bytes).unwrap_err();
    assert_eq!((refusal.rule, refusal.offset), (rules::TOO_LONG, 1 << 30));
    assert_eq!(refusal.name(), "TOO_LONG");
}

#[test]
fn a_refusal_is_an_error_in_words() {
    let mut bytes = small_file();
    bytes[88 + 64 + 4] = 1;
    let error: Box<dyn Error> = Box::new(File::parse(&bytes).unwrap_err());
    assert_eq!(
        error.to_string(),
        "rule 33 (SHARED_BYTE) at offset 64: the file is refused because a byte lies in two of \
         these: the ELF header, the two tables, and the contents of sections (neither NULL nor \
         NOBITS)",
    );
}

#[test]
fn each_rule_has_a_name_and_a_sentence() {
    let mut refusal = check(b"").unwrap_err();
    for rule in (1..=33).chain(40..=79) {
        refusal.rule = rule;
        assert_ne!(refusal.name(), "UNKNOWN_RULE");
        assert!(refusal.sentence().contains(" is refused because "));
    }
    for rule in [0, 34, 80, u16::MAX] {
        refusal.rule = rule;
        assert_eq!(refusal.name(), "UNKNOWN_RULE");
    }
}

#[test]
fn each_rule_of_the_link_has_a_name_and_a_sentence() {
    let Err(Failure::NotLinked(mut refusal)) = link(&[START], &Options::default(), RULES) else {
        panic!("a name is undefined");
    };
    for rule in 1..=16 {
        refusal.rule = rule;
        assert_ne!(refusal.name(), "UNKNOWN_RULE");
        assert!(refusal
            .sentence()
            .starts_with("the link is refused because "));
    }
    for rule in [0, 17, u16::MAX] {
        refusal.rule = rule;
        assert_eq!(refusal.name(), "UNKNOWN_RULE");
    }
    refusal.rule = rules::link::TLS;
    (refusal.index, refusal.entry) = (7, 9);
    let front = "rule 3 (TLS) at entry 9 of 7 in file 0: the link is refused because ";
    assert!(refusal.to_string().starts_with(front));
}

#[test]
fn what_a_file_gives_borrows_from_the_bytes() {
    let bytes = small_file();
    let sections = {
        let file = File::parse(&bytes).unwrap();
        file.sections()
    };
    assert_eq!(sections.len(), 3);
    let names: Vec<&[u8]> = sections.rev().map(|it| it.name()).collect();
    assert_eq!(names, [&b".shstrtab"[..], b".bss", b""]);
    assert_eq!(names[0].as_ptr(), bytes[70..].as_ptr());
}

#[test]
fn a_section_without_bytes_in_the_file_has_no_content() {
    let bytes = small_file();
    let file = File::parse(&bytes).unwrap();
    let content = |index| file.section(index).and_then(|it: Section| it.content());
    assert_eq!(content(0), None);
    assert_eq!(content(1), None);
    assert_eq!(content(2), Some(&bytes[64..80]));
    assert!(file.section(3).is_none() && file.section(usize::MAX).is_none());
    assert!(file.segment(0).is_none());
}

#[test]
fn a_file_can_go_to_another_thread() {
    fn is_sent<T: Send + Sync>() {}
    is_sent::<File<'static>>();
    is_sent::<Section<'static>>();
    is_sent::<Refusal>();
}

#[test]
fn debugging_prints_no_contents() {
    let bytes = small_file();
    let file = File::parse(&bytes).unwrap();
    let shown = format!("{file:?}");
    assert_eq!(shown, "File { len: 280, sections: 3, segments: 0, .. }");
    let section = format!("{:?}", file.section(1).unwrap());
    assert!(section.starts_with("Section { name: \".bss\", header: SectionHeader {"));
}

/// The objects that a program of the repository links, and what it writes.
const START: &[u8] = include_bytes!("../../../crates/example_link/data/start.o");
const ANSWER: &[u8] = include_bytes!("../../../crates/example_link/data/answer.o");
const EXECUTABLE: &[u8] = include_bytes!("../../../crates/example_link/stdout");
const RULES: &str = "4 pc 4 signed\n";

#[test]
fn objects_are_linked() {
    let options = Options::default();
    assert_eq!(
        link(&[START, ANSWER], &options, RULES).as_deref(),
        Ok(EXECUTABLE)
    );
    let other = Options {
        base: 0x10000,
        page: 0x2000,
        entry: b"answer",
    };
    let executable = link(&[START, ANSWER], &other, RULES).unwrap();
    let file = File::parse(&executable).unwrap();
    assert_eq!(file.segment(0).unwrap().header().p_vaddr, 0x10000);
    assert_eq!(file.load(0x10000), executable.get(0x2000).copied());
}

#[test]
fn a_map_has_lines() {
    let text = map(&[START, ANSWER], &Options::default(), RULES).unwrap();
    assert!(text.starts_with(b"output 0x400000 "));
    assert!(text.windows(7).any(|it| it == b"\nbytes "));
}

#[test]
fn what_does_not_link_is_reported() {
    let options = Options::default();
    let Err(Failure::NotLinked(link_refusal)) = link(&[START], &options, RULES) else {
        panic!("a name is undefined");
    };
    assert_eq!(
        (link_refusal.rule, link_refusal.file),
        (rules::link::UNDEFINED_NAME, 0)
    );
    let no_object = link(&[START, EXECUTABLE], &options, RULES);
    let refusal = Refusal::clone(match &no_object {
        Err(Failure::Refused { file: 1, refusal }) => refusal,
        other => panic!("an executable is no object: {other:?}"),
    });
    assert_eq!((refusal.rule, refusal.offset), (rules::NOT_RELOCATABLE, 16));
    let source = no_object.as_ref().unwrap_err().source().unwrap();
    assert_eq!(source.downcast_ref::<Refusal>(), Some(&refusal));
    let unlinked = Failure::NotLinked(link_refusal);
    let source = unlinked.source().unwrap();
    assert_eq!(source.downcast_ref::<LinkRefusal>(), Some(&link_refusal));
    assert!(Failure::TooLong.source().is_none());
    let bad = map(&[START], &options, "4 pc 4 signed\n4 pc 3 signed\n");
    assert_eq!(bad, Err(Failure::BadRules { line: 2 }));
}

/// Also if another folder has the library.
#[test]
fn the_library_of_the_named_folder_is_linked() {
    let folder = env::temp_dir().join(format!("elfmap-{}", process::id()));
    fs::create_dir(&folder).unwrap();
    let found = || build::folder_of_library(Some(folder.clone().into()));
    let without_library = panic::catch_unwind(found);
    fs::write(folder.join("libelfmap.a"), "").unwrap();
    let with_library = panic::catch_unwind(found);
    fs::remove_dir_all(&folder).unwrap();
    let words = *without_library.unwrap_err().downcast::<String>().unwrap();
    assert_eq!(words, format!("libelfmap.a is in none of [{folder:?}]"));
    assert!(with_library.unwrap().ends_with(folder.file_name().unwrap()));
}
