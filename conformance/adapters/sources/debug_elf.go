// Prints what Go's debug/elf reads of a file, as JSON in the form of the index.
package main

import (
	"debug/elf"
	"encoding/json"
	"fmt"
	"os"
	"runtime"
)

type fields map[string]interface{}

// A name in which each character is a byte.
func text(name string) string {
	runes := make([]rune, 0, len(name))
	for k := 0; k < len(name); k++ {
		runes = append(runes, rune(name[k]))
	}
	return string(runes)
}

func fail(err error) {
	fmt.Fprintln(os.Stderr, err)
	os.Exit(1)
}

func symbols(of []elf.Symbol) []fields {
	made := []fields{{}}
	for _, it := range of {
		made = append(made, fields{"name": text(it.Name), "binding": it.Info >> 4, "type": it.Info & 15,
			"other": it.Other, "section": uint32(it.Section), "value": it.Value, "size": it.Size})
	}
	return made
}

func main() {
	if os.Args[1][0] == '-' {
		fmt.Println("debug/elf of", runtime.Version())
		return
	}
	file, err := elf.Open(os.Args[1])
	if err != nil {
		fail(err)
	}
	order := "little"
	if file.Data == elf.ELFDATA2MSB {
		order = "big"
	}
	made := fields{"header": fields{"type": uint16(file.Type), "machine": uint16(file.Machine), "entry": file.Entry,
		"order": order, "osabi": uint8(file.OSABI), "abiversion": file.ABIVersion}}
	segments := []fields{}
	for _, it := range file.Progs {
		segments = append(segments, fields{"type": uint32(it.Type), "flags": uint32(it.Flags), "offset": it.Off,
			"vaddr": it.Vaddr, "paddr": it.Paddr, "filesz": it.Filesz, "memsz": it.Memsz, "align": it.Align})
	}
	sections := []fields{}
	tables := fields{}
	for index, it := range file.Sections {
		own := fields{"name": text(it.Name), "type": uint32(it.Type), "flags": uint64(it.Flags),
			"addr": it.Addr, "offset": it.Offset, "size": it.FileSize, "link": it.Link, "info": it.Info,
			"entsize": it.Entsize}
		// Of a compressed section it has the alignment of what is uncompressed.
		if it.Flags&elf.SHF_COMPRESSED == 0 {
			own["addralign"] = it.Addralign
		}
		sections = append(sections, own)
		if it.Type == elf.SHT_SYMTAB || it.Type == elf.SHT_DYNSYM {
			read := file.Symbols
			if it.Type == elf.SHT_DYNSYM {
				read = file.DynamicSymbols
			}
			found, err := read()
			if err != nil {
				fail(err)
			}
			tables[fmt.Sprint(index)] = symbols(found)
		}
	}
	made["segments"], made["sections"], made["symbols"] = segments, sections, tables
	packed, err := json.Marshal(made)
	if err != nil {
		fail(err)
	}
	fmt.Println(string(packed))
}
