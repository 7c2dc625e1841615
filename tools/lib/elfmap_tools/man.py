"""`tools/release man`: the manual page of the program, from docs/MANUAL.md: its first paragraph,
and its section "The commands". There each command has a part of its own, whose text up to the first
example comes below COMMANDS, and what follows below EXAMPLES. A row of a table becomes a paragraph
with its first cell as the tag. pandoc makes the page of this. And completions of bash, zsh and fish
for a command (completions/): they read the help that it prints, its subcommands, options, and the
words that an option takes. Other words are files."""

import re
import subprocess

from .tree import cells, filled, read_text

# Where the text is that the page is made of.
MANUAL = "docs/MANUAL.md"
# Parts that are no command, and their names in the page.
OTHERS = {"Exit status": "EXIT STATUS", "Files of rules": "FILES", "Limits": "LIMITS"}
# How a block begins that shows a command.
EXAMPLE = "    $ "
LINK = re.compile(r"\[((?:`[^`]*`|[^\]`])*)\]\(([^)]*)\)")
SEE_ALSO = (
    "readelf(1), ld(1), elf(5), elfmap-lint(1), elfmap-explain(1), elfmap-same(1), elfmap-gaps(1), "
    "elfmap-picture(1), elfmap-symbols(1), elfmap-view(1)"
)
PAGES = """In the directory of the release: `docs/MANUAL.md` has these texts and the libraries,
`docs/RULES.md` every rule by its number, what it means and what to do, `docs/RULE_FILES.md` the
files of rules line by line, `doc/elfmap-doc.html` the library, and `include/elfmap.h` the calls for
C."""
# How pandoc makes the page. No word is cut: it may be one that is typed.
PANDOC = ["pandoc", "-s", "-f", "gfm+definition_lists", "-t", "man", "-M", "hyphenate=false"]


def blocks(text: str) -> list[str]:
    """Its paragraphs, tables and examples, each as one text."""
    return re.split(r"\n\n+", text.strip("\n"))


# The blocks of the section "The commands": of its beginning, and of each part by its title.
SECTION = read_text(MANUAL).partition("\n## The commands\n")[2].partition("\n## ")[0]
FIRST, *OTHER = re.split(r"^### (.*)\n", SECTION, flags=re.M)
PARTS = {"": blocks(FIRST), **dict(zip(OTHER[::2], map(blocks, OTHER[1::2])))}


def with_tags(block: str) -> str:
    """A block whose table is a list of tags, and whose links are words; one to a part of the manual
    that the page lacks says so."""
    here = {f"#{it.lower().replace(' ', '-')}" for it in PARTS}
    if block.startswith("|"):
        rows = ([it.replace("\\|", "|") for it in cells(line)] for line in block.split("\n")[2:])
        block = "\n\n".join(f"{tag}\n:   {', '.join(texts)}" for tag, *texts in rows)

    def words(link: re.Match[str]) -> str:
        is_elsewhere = link[2].startswith("#") and link[2] not in here
        return f"{link[1]} ({MANUAL})" if is_elsewhere else link[1]

    return re.sub(r"(?<![\w/.])\./elfmap\b", "elfmap", LINK.sub(words, block))


def by_pandoc(name: str, version: str, blocks: list[str]) -> str:
    """The manual page of a command. Inline code is bold, and all signs are those of ASCII."""
    words = {
        "title": name.upper(),
        "section": "1",
        "footer": f"elfmap {version}",
        "header": "elfmap",
        "adjusting": "l",
    }
    command = [*PANDOC, *(f"-V{key}={value}" for key, value in words.items())]
    text = "\n\n".join(blocks)
    made = subprocess.run(
        command, input=text, stdout=subprocess.PIPE, check=True, encoding="utf-8"
    ).stdout

    def plain(line: re.Match[str]) -> str:
        return line[0].replace("-", r"\-").replace(r"\f[V]", r"\f[B]")

    return re.sub(r"^[^.'].*", plain, made, flags=re.M)


def parts_of_page() -> tuple[list[str], list[str]]:
    """The blocks of the commands, and those of the examples."""
    commands = ["# COMMANDS"]
    examples = ["# EXAMPLES"]
    for title, found in list(PARTS.items())[1:]:
        first = next((at for at, it in enumerate(found) if it.startswith(EXAMPLE)), len(found))
        if title not in OTHERS:
            commands += [f"## {title}", *found[:first]]
        if found[first:]:
            examples += [f"## {title}", *found[first:]]
    return commands, examples


def page(version: str) -> str:
    """The manual page of the program."""
    summary = blocks(read_text(MANUAL))[1]
    name = summary.partition(", the ")[0].replace("elfmap ", "elfmap - ", 1)
    text = ["# NAME", name, "# SYNOPSIS", PARTS[""][0], "# DESCRIPTION", summary]
    commands, examples = parts_of_page()
    text += commands
    for title, head in OTHERS.items():
        text += [f"# {head}", *(it for it in PARTS[title] if not it.startswith(EXAMPLE))]
    others = re.sub(r"([\w-]+)\(", r"**\1**(", SEE_ALSO)
    text += [*examples, "# SEE ALSO", others, PAGES]
    return by_pandoc("elfmap", version, list(map(with_tags, text)))


# The help of a command, each thing listed in one line; the names of these, with what is said of
# them; and the values that an option takes.
HELP = r"--help 2>&1 | sed -zE 's/\n {10,}/  /g'"
LISTED = r"sed -nE 's/^ +(-., )?(--?[a-z0-9-]+|[a-z]+)( [^ ]+)*  +(.*)/\2\t\4/p'"
CHOICES = r"sed -nE 's/^ +'$before' \{(.*)\}.*/\1/p'"


def completions(name: str) -> dict[str, str]:
    """The files of the completions of a command, by their places below /usr/share."""
    parts = {
        "NAME": name,
        "FUNCTION": "_" + re.sub(r"\W", "_", name),
        "HELP": HELP,
        "LISTED": LISTED,
        "CHOICES": CHOICES,
    }
    shells = {
        "bash": "bash-completion/completions/{}",
        "zsh": "zsh/vendor-completions/_{}",
        "fish": "fish/vendor_completions.d/{}.fish",
    }
    found: dict[str, str] = {}
    for shell, place in shells.items():
        found[place.format(name)] = filled(read_text(f"completions/{shell}"), **parts)
    return found
