//! Prints what the crate `goblin` reads of a file, as JSON in the form of the index.
#[path = "../../common.rs"]
mod common;
use common::{input, quoted, refuse};
use goblin::elf::{section_header, Elf};
use goblin::strtab::Strtab;

fn name_of<'a>(names: &Strtab<'a>, at: usize) -> &'a [u8] {
    match names.get(at) {
        Some(Ok(name)) => name.as_bytes(),
        Some(Err(error)) => refuse(error),
        None => b"",
    }
}

fn rows(table: &goblin::elf::Symtab, names: &Strtab) -> String {
    let made: Vec<String> = table
        .iter()
        .map(|it| {
            // The escape is left to the caller.
            let section = match it.st_shndx {
                0xffff => String::new(),
                index => format!("\"section\":{},", index),
            };
            format!(
                "{{\"name\":{},\"binding\":{},\"type\":{},\"other\":{},{}\"value\":{},\"size\":{}}}",
                quoted(name_of(names, it.st_name)),
                it.st_info >> 4,
                it.st_info & 15,
                it.st_other,
                section,
                it.st_value,
                it.st_size
            )
        })
        .collect();
    made.join(",")
}

fn main() {
    let data = input("goblin 0.2.1");
    let file = match Elf::parse(&data) {
        Ok(file) => file,
        Err(error) => refuse(error),
    };
    let h = file.header;
    let order = if file.little_endian { "little" } else { "big" };
    print!(
        "{{\"header\":{{\"order\":\"{}\",\"type\":{},\"machine\":{},\"entry\":{},\"flags\":{},\"phoff\":{},\"shoff\":{}}}",
        order, h.e_type, h.e_machine, h.e_entry, h.e_flags, h.e_phoff, h.e_shoff
    );
    let segments: Vec<String> = file
        .program_headers
        .iter()
        .map(|it| {
            format!(
                "{{\"type\":{},\"flags\":{},\"offset\":{},\"vaddr\":{},\"paddr\":{},\"filesz\":{},\"memsz\":{},\"align\":{}}}",
                it.p_type, it.p_flags, it.p_offset, it.p_vaddr, it.p_paddr, it.p_filesz, it.p_memsz, it.p_align
            )
        })
        .collect();
    let mut sections = Vec::new();
    let mut tables = Vec::new();
    for (index, it) in file.section_headers.iter().enumerate() {
        let name = if it.sh_type == 0 { &b""[..] } else { name_of(&file.shdr_strtab, it.sh_name) };
        sections.push(format!(
            "{{\"name\":{},\"type\":{},\"flags\":{},\"addr\":{},\"offset\":{},\"size\":{},\"link\":{},\"info\":{},\"addralign\":{},\"entsize\":{}}}",
            quoted(name), it.sh_type, it.sh_flags, it.sh_addr, it.sh_offset, it.sh_size, it.sh_link, it.sh_info,
            it.sh_addralign, it.sh_entsize
        ));
        if it.sh_type == section_header::SHT_SYMTAB {
            tables.push(format!("\"{}\":[{}]", index, rows(&file.syms, &file.strtab)));
        } else if it.sh_type == section_header::SHT_DYNSYM {
            // It finds dynamic symbols by the dynamic array, in a file that has one.
            tables.push(match file.dynamic {
                Some(_) => format!("\"{}\":[{}]", index, rows(&file.dynsyms, &file.dynstrtab)),
                None => format!("\"{}\":null", index),
            });
        }
    }
    print!(",\"segments\":[{}],\"sections\":[{}]", segments.join(","), sections.join(","));
    println!(",\"symbols\":{{{}}}}}", tables.join(","));
}
