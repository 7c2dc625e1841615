"use strict";
// The members of an archive (`.a`): those of GNU and of BSD. No member is read here: the page opens one as a file of its own.

const ARCHIVE_MAGIC = "!<arch>\n";
const MEMBER_HEADER = 60;
// So many bytes are read at a time.
const WINDOW = 65536;
const MOST_MEMBERS = 100000;

// Reads a file a window at a time, as text of one byte a character.
class Windows {
    constructor(file) {
        Object.assign(this, { file, from: 0, text: "" });
    }

    async text_at(at, length) {
        if (at < this.from || at + length > this.from + this.text.length) {
            const size = Math.max(length, WINDOW);
            const bytes = new Uint8Array(await this.file.slice(at, Math.min(at + size, this.file.size)).arrayBuffer());
            this.from = at;
            this.text = "";
            for (let k = 0; k < bytes.length; k += 8192) this.text += String.fromCharCode(...bytes.subarray(k, k + 8192));
        }
        return this.text.slice(at - this.from, at - this.from + length);
    }
}

// The members of an archive, each with its name and where it is, up to what can't be followed; null where the file is none.
async function members_of(file) {
    const windows = new Windows(file);
    if ((await windows.text_at(0, ARCHIVE_MAGIC.length)) !== ARCHIVE_MAGIC) return null;
    const found = [];
    let names = { at: 0, size: 0 };
    for (let at = ARCHIVE_MAGIC.length; at < file.size && found.length < MOST_MEMBERS;) {
        const header = await windows.text_at(at, MEMBER_HEADER);
        const digits = header.slice(48, 58).trimEnd();
        if (!header.endsWith("`\n") || !/^\d+$/.test(digits)) break;
        const [start, size] = [at + MEMBER_HEADER, Number(digits)];
        if (start + size > file.size) break;
        const own = header.slice(0, 16).trimEnd();
        if (own === "//") names = { at: start, size };
        else if (own !== "/" && own !== "/SYM64/") found.push(await member(windows, own, start, size, names));
        at = start + size + (size % 2);
    }
    return found.filter((it) => !it.name.startsWith("__.SYMDEF"));
}

// A member, whose name may be in the member of long names, or before its content.
async function member(windows, own, start, size, names) {
    const of_bsd = /^#1\/(\d+)$/.exec(own);
    if (of_bsd) {
        const length = Math.min(Number(of_bsd[1]), size);
        const name = (await windows.text_at(start, length)).replace(/\0+$/, "");
        return { name: words_of(bytes_of(name)), start: start + length, size: size - length };
    }
    const at = /^\/(\d+)$/.exec(own);
    let name = own.replace(/\/$/, "");
    if (at && Number(at[1]) < names.size) {
        const most = Math.min(4096, names.size - Number(at[1]));
        name = (await windows.text_at(names.at + Number(at[1]), most)).split("\n")[0].replace(/\/$/, "");
    }
    return { name: words_of(bytes_of(name)), start, size };
}

function bytes_of(text) {
    return Uint8Array.from(text, (it) => it.charCodeAt(0));
}
