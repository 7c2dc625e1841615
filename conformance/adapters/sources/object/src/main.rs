//! Prints what the crate `object` reads of a file, as JSON in the form of the index.
#[path = "../../common.rs"]
mod common;
use common::{input, quoted, refuse};
use object::elf::{FileHeader64, SHT_DYNSYM, SHT_SYMTAB};
use object::read::elf::{FileHeader, ProgramHeader, SectionHeader, Sym};
use object::{Endian, Endianness};

fn main() {
    let data = input("object 0.30");
    if let Err(error) = print(&data) {
        refuse(error);
    }
}

fn print(data: &[u8]) -> object::read::Result<()> {
    let header = FileHeader64::<Endianness>::parse(data)?;
    let endian = header.endian()?;
    let order = if endian.is_big_endian() { "big" } else { "little" };
    let mut made = format!(
        "{{\"header\":{{\"order\":\"{}\",\"type\":{},\"machine\":{},\"entry\":{}}}",
        order,
        header.e_type(endian),
        header.e_machine(endian),
        header.e_entry(endian)
    );
    let segments: Vec<String> = header
        .program_headers(endian, data)?
        .iter()
        .map(|it| {
            format!(
                "{{\"type\":{},\"flags\":{},\"offset\":{},\"vaddr\":{},\"paddr\":{},\"filesz\":{},\"memsz\":{},\"align\":{}}}",
                it.p_type(endian),
                it.p_flags(endian),
                it.p_offset(endian),
                it.p_vaddr(endian),
                it.p_paddr(endian),
                it.p_filesz(endian),
                it.p_memsz(endian),
                it.p_align(endian)
            )
        })
        .collect();
    let table = header.sections(endian, data)?;
    let has_names = header.e_shstrndx(endian) != 0;
    let mut sections = Vec::new();
    let mut symbols = Vec::new();
    for (index, it) in table.iter().enumerate() {
        let name: &[u8] = if has_names && it.sh_type(endian) != 0 { table.section_name(endian, it)? } else { b"" };
        sections.push(format!(
            "{{\"name\":{},\"type\":{},\"flags\":{},\"addr\":{},\"offset\":{},\"size\":{},\"link\":{},\"info\":{},\"addralign\":{},\"entsize\":{}}}",
            quoted(name),
            it.sh_type(endian),
            it.sh_flags(endian),
            it.sh_addr(endian),
            it.sh_offset(endian),
            it.sh_size(endian),
            it.sh_link(endian),
            it.sh_info(endian),
            it.sh_addralign(endian),
            it.sh_entsize(endian)
        ));
        if it.sh_type(endian) == SHT_SYMTAB || it.sh_type(endian) == SHT_DYNSYM {
            let own = table.symbol_table_by_index(endian, data, object::SectionIndex(index))?;
            let mut rows = Vec::new();
            for (k, symbol) in own.iter().enumerate() {
                let section = if symbol.st_shndx(endian) == 0xffff {
                    own.shndx(endian, k).unwrap_or(0xffff)
                } else {
                    u32::from(symbol.st_shndx(endian))
                };
                rows.push(format!(
                    "{{\"name\":{},\"binding\":{},\"type\":{},\"other\":{},\"section\":{},\"value\":{},\"size\":{}}}",
                    quoted(own.symbol_name(endian, symbol)?),
                    symbol.st_bind(),
                    symbol.st_type(),
                    symbol.st_other(),
                    section,
                    symbol.st_value(endian),
                    symbol.st_size(endian)
                ));
            }
            symbols.push(format!("\"{}\":[{}]", index, rows.join(",")));
        }
    }
    made += &format!(",\"segments\":[{}],\"sections\":[{}]", segments.join(","), sections.join(","));
    println!("{},\"symbols\":{{{}}}}}", made, symbols.join(","));
    Ok(())
}
