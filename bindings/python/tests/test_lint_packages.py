"""elfmap-lint of packages: what is in them is checked, whoever wrote them.

The packages are made by tar, cpio, dpkg-deb, rpmbuild, gzip, bzip2, xz, zstd and other compressors;
a few by hand, by the layouts of tar and cpio.
"""

import bz2
import gzip
import io
import json
import lzma
import os
import shutil
import struct
import subprocess
import tarfile
import time
import unittest
from itertools import product
from pathlib import Path
from unittest import mock

from elfmap import _containers, _packages, _sources, _streams, explain

from tests.made import GNU, GOOD, LONG, SHARING, archive_member, setUpModule, thin  # noqa: F401
from tests.test_lint import SHARED, Case

SPEC = """\
Name: made
Version: 1
Release: 1
Summary: made
License: none
BuildArch: noarch
%define _binary_payload {}
%define __os_install_post %{{nil}}
%description
made
%install
mkdir -p %{{buildroot}}
cp -r {} %{{buildroot}}/
%files
/tree
"""
# The payloads of rpmbuild, by what compresses them.
PAYLOADS = {"gzip": "w9.gzdio", "bzip2": "w9.bzdio", "xz": "w2.xzdio", "zstd": "w3.zstdio"}
# What reads streams that follow one another.
JOINED = [it for it in ("lzip", "lz4", "zstd") if shutil.which(it)]
# One finding in each of bad.o and lib.a, which has a good file too.
LAST = b"2 findings in 2 of 4 ELF files; skipped: 3 not ELF"


def needs(*commands):
    lacking = [it for it in commands if not shutil.which(it)]
    return unittest.skipIf(lacking, f"{', '.join(lacking)} not installed")


def tar_header(name, size, kind=b"0", changed=b""):
    """A header in the layout of POSIX, also with a wrong sum."""
    block = bytearray(512)
    block[: len(name)] = name
    block[100:108] = b"0000644\0"
    block[124:136] = b"%011o\0" % size
    block[156:157] = kind
    block[257:265] = b"ustar\x0000"
    block[148:156] = b" " * 8
    block[148:156] = b"%06o\0 " % sum(block)
    block[: len(changed)] = changed
    return bytes(block)


def tar_member(name, content, kind=b"0"):
    return tar_header(name, len(content), kind) + content + bytes(-len(content) % 512)


def cpio_member(name, content, mode=0o100644, links=1):
    numbers = 0, mode, 0, 0, links, 0, len(content), 0, 0, 0, 0, len(name) + 1, 0
    head = b"070701" + b"".join(b"%08x" % it for it in numbers) + name + b"\0"
    head += bytes(-len(head) % 4)
    return head + content + bytes(-len(content) % 4)


CPIO_END = cpio_member(b"TRAILER!!!", b"")


class PackageCase(Case):
    def tree(self, folder="tree"):
        """A folder of five files, of which one is an archive, and a symbolic link."""
        self.put(
            **{f"{folder}/bad__o": SHARING, f"{folder}/good__o": GOOD, f"{folder}/lib__a": GNU},
            **{f"{folder}/text": b"text\n", f"{folder}/none": b""},
        )
        os.symlink("bad.o", f"{folder}/link.o")

    def made(self, *words, **options):
        """What a command writes."""
        return subprocess.run(words, check=True, capture_output=True, **options).stdout

    def lines(self, file, folder=b"tree/"):
        bad = b"%s(%sbad.o): " % (file, folder) + SHARED
        return [bad, b"%s(%slib.a(%s)): " % (file, folder, LONG) + SHARED, LAST]

    def paths(self, *words):
        """The paths of findings, in ascending order."""
        return sorted(it.partition(": ")[0] for it in self.told(*words)[:-1])

    def lost(self, *words):
        """What is said of what can't be read."""
        status, _, said = self.lint(*words)
        self.assertEqual(status, 3)
        return said.decode().splitlines()


class KindTest(PackageCase):
    @needs("tar")
    def test_tar(self):
        self.tree()
        for kind in ("gnu", "ustar", "pax", "v7"):
            self.made("tar", "-cf", "a.tar", f"--format={kind}", "./tree")
            with self.subTest(kind=kind):
                self.assertSaid(["a.tar"], 1, self.lines(b"a.tar"))

    @needs("tar", "gzip", "bzip2", "xz", "zstd", "lzip", "lz4", "lzop", "compress")
    def test_compressed_tar(self):
        self.tree()
        for end in ("gz", "bz2", "xz", "zst", "lz", "lzma", "lzo", "Z"):
            name = f"a.tar.{end}"
            self.made("tar", "-caf", name, "tree")
            with self.subTest(end=end):
                self.assertSaid([name], 1, self.lines(name.encode()))

    @needs("cpio")
    def test_cpio(self):
        self.tree()
        names = "".join(f"{it}\n" for it in sorted(map(str, Path("tree").rglob("*"))))
        for kind in ("newc", "crc"):
            Path("a.cpio").write_bytes(self.made("cpio", "-oH", kind, input=names.encode()))
            with self.subTest(kind=kind):
                self.assertSaid(["a.cpio"], 1, self.lines(b"a.cpio"))

    @needs("dpkg-deb")
    def test_debian_packages(self):
        self.tree("a/tree")
        self.put(a__deb=b"")
        control = "Package: a\nVersion: 1\nArchitecture: all\nMaintainer: a\nDescription: a\n"
        self.put(**{"a/DEBIAN/control": control.encode()})
        for kind in ("none", "gzip", "xz", "zstd"):
            try:
                self.made("dpkg-deb", f"-Z{kind}", "-b", "a", "a.deb")
            except subprocess.CalledProcessError:
                self.assertEqual(kind, "zstd")  # A dpkg before 1.21.18 of Debian writes none.
                continue
            with self.subTest(kind=kind):
                # debian-binary and control are no ELF files either.
                last = LAST.replace(b"3 not ELF", b"5 not ELF")
                self.assertSaid(["a.deb"], 1, [*self.lines(b"a.deb")[:-1], last])

    @needs("rpmbuild")
    def test_rpm_packages(self):
        self.tree()
        for kind, payload in PAYLOADS.items():
            Path("a.spec").write_text(SPEC.format(payload, os.path.abspath("tree")))
            words = ["--define", f"_topdir {os.getcwd()}/top", "--quiet", "-bb", "a.spec"]
            self.made("rpmbuild", *words)
            shutil.move("top/RPMS/noarch/made-1-1.noarch.rpm", "a.rpm")
            with self.subTest(kind=kind):
                # The files have the paths that rpm2cpio gives them.
                self.assertSaid(["a.rpm"], 1, self.lines(b"a.rpm"))

    @needs("gzip", "bzip2", "xz", "zstd", "lzip", "lz4", "lzop", "compress")
    def test_one_file(self):
        """As kernel modules: the path is that of the file."""
        for words, end in (
            ("gzip", "gz"),
            ("bzip2", "bz2"),
            ("xz", "xz"),
            ("zstd", "zst"),
            ("lzip", "lz"),
            ("lz4", "lz4"),
            ("lzop", "lzo"),
            ("compress -f", "Z"),
            ("xz --format=lzma", "lzma"),
            ("xz --format=lzma -9", "lzma"),
            # As kernels have it.
            ("lz4 -l", "lz4"),
        ):
            name = f"bad.ko.{end}"
            Path(name).write_bytes(self.made(*words.split(), "-c", input=SHARING))
            with self.subTest(end=end):
                last = b"1 finding in 1 of 1 ELF file"
                self.assertSaid([name], 1, [name.encode() + b": " + SHARED, last])
                # The name does not matter.
                os.rename(name, "bad")
                self.assertSaid(["bad"], 1, [b"bad: " + SHARED, last])

    def test_what_only_begins_alike(self):
        """Text is skipped, and no error."""
        texts = [b"BZhang\n", b"070699", b"\x1f\x8b", b"\x1f\x9d\x91", b"\x1f\x9d\x88", b"LZIP"]
        made = lzma.compress(GOOD, lzma.FORMAT_ALONE)
        texts.append(made[:12])
        # Its properties, its dictionary, its length, and what is compressed.
        for at, value in ((0, 0x5E), (1, 1), (4, 2), (10, 1), (13, 1)):
            wrong = bytearray(made)
            wrong[at] = value
            texts.append(bytes(wrong))
        # An array of small numbers.
        texts.append(struct.pack("<4I", 93, 4, 12, 0) + b"plain data " * 90)
        self.put(**{f"a/{k}": it for k, it in enumerate(texts)})
        skipped = b"0 findings in 0 of 0 ELF files; skipped: %d not ELF" % len(texts)
        self.assertSaid(["a"], 0, [skipped])

    def test_headers_of_lzma(self):
        """With a length, as the first ones had, and with any size of a dictionary."""
        for size in (1 << 12, 3 << 12, 3 << 20, 1 << 26):
            filters = [{"id": lzma.FILTER_LZMA1, "preset": 1, "dict_size": size}]
            made = lzma.compress(SHARING, lzma.FORMAT_ALONE, filters=filters)
            length = struct.pack("<Q", len(SHARING))
            for content in (made, made[:5] + length + made[13:]):
                self.put(bad=content)
                with self.subTest(size=size, length=content[5:13]):
                    self.assertEqual(self.paths("bad"), ["bad"])

    def test_several_streams(self):
        """As `cat` makes them, and zeros between those of xz. Anything else is an error."""
        for compress, between in (
            (gzip.compress, b""),
            (bz2.compress, b""),
            (lzma.compress, bytes(8)),
            (lambda it: lzma.compress(it, lzma.FORMAT_ALONE), b""),
            *((lambda it, own=own: self.made(own, "-c", input=it), b"") for own in JOINED),
        ):
            whole = between.join([compress(SHARING[:40]), compress(SHARING[40:])]) + between
            self.put(a=whole, b=whole + b"something else, which is no stream")
            with self.subTest(whole=whole):
                self.assertSaid(["a"], 1, [b"a: " + SHARED, b"1 finding in 1 of 1 ELF file"])
                (line,) = self.lost("b")
                self.assertIn("b: it can't be decompressed: ", line)


class MemberTest(PackageCase):
    def test_packages_in_packages(self):
        inner = gzip.compress(tar_member(b"./lib.a", GNU) + bytes(1024))
        deb = b"!<arch>\n" + archive_member(b"debian-binary", b"2.0\n", b"")
        deb += archive_member(b"control.tar.gz", gzip.compress(tar_member(b"bad.o", SHARING)), b"")
        deb += archive_member(b"data.tar.gz", inner, b"")
        self.put(a__tar=tar_member(b"x/a.deb", deb), a__deb=deb)
        name = f"lib.a({LONG.decode()})"
        own = ["control.tar.gz(bad.o)", name]
        self.assertEqual(self.paths("a.deb"), [f"a.deb({it})" for it in own])
        self.assertEqual(self.paths("a.tar"), [f"a.tar(x/a.deb({it}))" for it in own])

    def test_a_package_in_an_archive(self):
        archive = b"!<arch>\n" + archive_member(b"bad.gz", gzip.compress(SHARING))
        self.put(lib__a=archive + archive_member(b"bad.o", SHARING))
        self.assertEqual(self.paths("lib.a"), ["lib.a(bad.gz)", "lib.a(bad.o)"])

    def test_an_archive_in_an_archive(self):
        inner = b"!<arch>\n" + archive_member(b"bad.o", SHARING)
        self.put(lib__a=b"!<arch>\n" + archive_member(b"inner.a", inner))
        self.assertEqual(self.paths("lib.a"), ["lib.a(inner.a(bad.o))"])

    def test_too_many_in_one_another(self):
        content = SHARING
        for _ in range(8):
            content = gzip.compress(content)
        self.put(a=content, b=gzip.compress(content))
        self.assertEqual(self.paths("a"), ["a"])
        self.assertEqual(
            self.lost("b"), ["elfmap-lint: b: more than 8 archives are in one another"]
        )

    def test_two_of_a_name(self):
        names = b"a.o", b"a.o#2", b"./a.o", b"a.o#2"
        self.put(a__tar=b"".join(tar_member(it, SHARING) for it in names))
        labels = ["a.o#2#2", "a.o#2", "a.o#3", "a.o"]
        self.assertEqual(self.paths("a.tar"), [f"a.tar({it})" for it in labels])

    def test_long_names(self):
        name = b"folder/" * 40 + b"bad.o"
        for kind in (tarfile.GNU_FORMAT, tarfile.PAX_FORMAT, tarfile.USTAR_FORMAT):
            own = name if kind != tarfile.USTAR_FORMAT else name[-200:].lstrip(b"/")
            made = io.BytesIO()
            with tarfile.open(fileobj=made, mode="w", format=kind) as it:
                info = tarfile.TarInfo(own.decode())
                info.size = len(SHARING)
                # Long names of links are before some members.
                link = tarfile.TarInfo("link")
                link.type = tarfile.SYMTYPE
                link.linkname = "x" * 200 if kind != tarfile.USTAR_FORMAT else "x"
                it.addfile(link)
                it.addfile(info, io.BytesIO(SHARING))
                info.name = "short.o"
                it.addfile(info, io.BytesIO(SHARING))
            self.put(a__tar=made.getvalue())
            with self.subTest(kind=kind):
                expected = [f"a.tar({own.decode()})", "a.tar(short.o)"]
                self.assertEqual(self.paths("a.tar"), expected)

    def test_a_long_name_before_that_of_a_link(self):
        name = b"x" * 200 + b".o"
        made = tar_member(b"@", name + b"\0", b"L") + tar_member(b"@", b"y" * 200, b"K")
        self.put(a__tar=made + tar_member(b"short", SHARING) + tar_member(b"b.o", SHARING))
        self.assertEqual(self.paths("a.tar"), ["a.tar(b.o)", f"a.tar({name.decode()})"])

    def test_names_that_are_no_text(self):
        self.put(a__tar=tar_member(b"\xff\x1b[1m.o", SHARING))
        self.assertEqual(self.paths("a.tar"), ["a.tar(\\xff\\x1b[1m.o)"])

    def test_a_size_in_binary(self):
        header = bytearray(tar_header(b"bad.o", 0))
        header[124:136] = b"\x80" + len(SHARING).to_bytes(11, "big")
        header[148:156] = b" " * 8
        header[148:156] = b"%06o\0 " % sum(header)
        self.put(a__tar=bytes(header) + SHARING + bytes(-len(SHARING) % 512))
        self.assertEqual(self.paths("a.tar"), ["a.tar(bad.o)"])

    def test_times_in_a_header_of_gnu(self):
        """They are where the layout of POSIX has the beginning of a long name."""
        header = bytearray(tar_header(b"bad.o", len(SHARING)))
        header[257:265] = b"ustar  \0"
        header[345:369] = b"14000000000\0" * 2
        header[148:156] = b" " * 8
        header[148:156] = b"%06o\0 " % sum(header)
        self.put(a__tar=bytes(header) + SHARING + bytes(-len(SHARING) % 512))
        self.assertEqual(self.paths("a.tar"), ["a.tar(bad.o)"])

    def test_a_size_of_posix(self):
        """It is that of the record, and not of the header."""
        record = b"%d\n" % len(SHARING)
        words = b"%d size=" % (len(b" size=") + len(record) + 2) + record
        content = SHARING + bytes(-len(SHARING) % 512)
        made = tar_member(b"x", words, b"x") + tar_header(b"bad.o", 0) + content
        self.put(a__tar=made + tar_member(b"b.o", SHARING))
        self.assertEqual(self.paths("a.tar"), ["a.tar(bad.o)", "a.tar(b.o)"][::-1])

    @needs("tar")
    def test_sparse_members(self):
        """They are an error, and the others are checked."""
        with open("core", "wb") as it:
            for at in range(0, 64 << 16, 1 << 16):
                it.seek(at)
                it.write(SHARING)
        self.put(bad__o=SHARING)
        for words in (
            ["--format=gnu"],
            ["--format=pax", "--sparse-version=0.0"],
            ["--format=pax", "--sparse-version=0.1"],
            ["--format=pax", "--sparse-version=1.0"],
        ):
            self.made("tar", "-cSf", "a.tar", *words, "core", "bad.o")
            with self.subTest(words=words):
                self.assertEqual(self.paths("a.tar"), ["a.tar(bad.o)"])
                (line,) = self.lost("a.tar")
                self.assertEqual(line, f"elfmap-lint: a.tar(core): {_containers._STORED_SPARSE}")

    def test_hard_links_of_cpio(self):
        """The last one has the content."""
        made = cpio_member(b"a.o", b"", links=2) + cpio_member(b"b.o", SHARING, links=2)
        self.put(a__cpio=made + CPIO_END)
        self.assertSaid(["a.cpio"], 1, [b"a.cpio(b.o): " + SHARED, b"1 finding in 1 of 1 ELF file"])

    def test_files_of_cpio_without_content(self):
        """A file is counted that has no other link; a directory is none."""
        none = cpio_member(b"none", b"") + cpio_member(b"folder", b"", mode=0o40755)
        self.put(a__cpio=none + cpio_member(b"b.o", SHARING) + CPIO_END)
        last = b"1 finding in 1 of 1 ELF file; skipped: 1 not ELF"
        self.assertSaid(["a.cpio"], 1, [b"a.cpio(b.o): " + SHARED, last])

    def test_one_cpio_file_after_another(self):
        one = cpio_member(b"a.o", SHARING) + CPIO_END
        self.put(a__cpio=one + bytes(700) + one, b__cpio=one + bytes(511) + gzip.compress(one))
        self.assertEqual(self.paths("a.cpio"), ["a.cpio(a.o#2)", "a.cpio(a.o)"])
        self.assertEqual(self.paths("b.cpio"), ["b.cpio(a.o)"])
        (line,) = self.lost("b.cpio")
        self.assertIn("b.cpio: the cpio file is followed by something else", line)

    def test_one_tar_file_after_another(self):
        """As `tar -A` and `cat` make them."""
        one = tar_member(b"a.o", SHARING)
        other = tar_member(b"b.o", SHARING) + bytes(1024)
        for between in (0, 512, 1024, 1 << 16):
            self.put(a__tar=one + bytes(between) + other)
            with self.subTest(between=between):
                self.assertEqual(self.paths("a.tar"), ["a.tar(a.o)", "a.tar(b.o)"])
        self.put(a__tar=one + bytes(512), b__tar=one + bytes(100))
        self.assertEqual(self.paths("a.tar", "b.tar"), ["a.tar(a.o)", "b.tar(a.o)"])
        for rest in (b"x", SHARING, bytes(511) + b"x", b"x" * 600):
            self.put(a__tar=one + bytes(1024) + rest)
            with self.subTest(rest=rest):
                self.assertEqual(self.paths("a.tar"), ["a.tar(a.o)"])
                (line,) = self.lost("a.tar")
                self.assertIn("a.tar: the tar file is followed by something else", line)

    def test_a_thin_archive_in_a_package(self):
        """No file outside is opened."""
        self.put(bad__o=SHARING, a__tar=tar_member(b"lib.a", thin(b"bad.o")))
        (line,) = self.lost("a.tar")
        self.assertEqual(
            line,
            "elfmap-lint: a.tar(lib.a(bad.o)): it is a member of a thin archive, which is in a"
            " package",
        )

    def test_of_a_directory_and_of_standard_input(self):
        made = gzip.compress(tar_member(b"bad.o", SHARING))
        self.put(**{"a/a__tgz": made})
        self.assertEqual(self.paths("a"), ["a/a.tgz(bad.o)"])
        self.assertSaid(
            ["-"], 1, [b"-(bad.o): " + SHARED, b"1 finding in 1 of 1 ELF file"], stdin=made
        )

    def test_the_place_in_a_report(self):
        """A member that is stored as it is has an offset in the file, and a packed one has none."""
        self.put(a__tar=tar_member(b"bad.o", SHARING), b__a=GNU)
        log = json.loads(self.lint("--format", "sarif", "a.tar", "b.a")[1])
        first, second = (it["locations"][0]["physicalLocation"] for it in log["runs"][0]["results"])
        self.assertEqual(first, {"artifactLocation": {"uri": "a.tar"}})
        at = GNU.index(SHARING) + 0x72
        self.assertEqual(second["region"], {"byteOffset": at, "byteLength": 1})

    def test_ignored_by_the_file_or_by_the_member(self):
        self.put(a__tar=tar_member(b"bad.o", SHARING))
        for glob in ("a.tar", "bad.o)", "*/bad.o)", "a.tar(bad.o)"):
            status = self.lint("--ignore", f"33:{glob}", "a.tar")[0]
            self.assertEqual(status, 0 if glob.startswith("a.tar") else 1, glob)


class BrokenTest(PackageCase):
    def test_compressed(self):
        content = SHARING + os.urandom(5000)
        makers = [("gz", gzip.compress), ("bz2", bz2.compress), ("xz", lzma.compress)]
        makers.append(("lzma", lambda it: lzma.compress(it, lzma.FORMAT_ALONE)))
        # A file of compress has no sum, and no end.
        for words in ("zstd -c --check", "lzip -c", "lz4 -c", "lzop -c"):
            command, *options = words.split()
            if shutil.which(command):
                own = [command, *options]
                makers.append((command, lambda it, own=own: self.made(*own, input=it)))
        for end, make in makers:
            whole = make(content)
            wrong = bytearray(whole)
            wrong[-20] ^= 0xFF
            wrong[len(whole) // 2] ^= 0xFF
            for made in (whole[:-20], whole[:20], bytes(wrong)):
                self.put(bad=made)
                with self.subTest(end=end, size=len(made)):
                    (line,) = self.lost("bad")
                    self.assertTrue(
                        line.startswith("elfmap-lint: bad: it can't be decompressed: "), line
                    )

    def test_the_sum_of_what_is_compressed(self):
        """It is after the end of a tar or cpio file, and tested too."""
        members = tar_member(b"a.o", SHARING), cpio_member(b"a.o", SHARING) + CPIO_END
        for member, rest in product(members, (0, 10240)):
            for module, at in ((gzip, -8), (lzma, -30), (bz2, -3)):
                made = bytearray(module.compress(member + bytes(rest)))
                self.put(a=bytes(made))
                self.assertEqual(self.paths("a"), ["a(a.o)"])
                made[at] ^= 0xFF
                self.put(a=bytes(made))
                with self.subTest(head=member[:6], rest=rest, module=module.__name__):
                    self.assertIn("it can't be decompressed: ", self.lost("a")[0])

    def test_what_is_not_installed(self):
        for head, command in (
            (b"\x28\xb5\x2f\xfd", "zstd"),
            (b"LZIP\1", "lzip"),
            (b"\x04\x22\x4d\x18", "lz4"),
            (b"\x89LZO\0\r\n\x1a\n", "lzop"),
            (b"\x1f\x9d\x90", "gzip"),
        ):
            self.put(a=head + bytes(20))
            with mock.patch.object(shutil, "which", lambda _: None):
                (line,) = self.lost("a")
            words = f"there is no command {command} (package {command})"
            self.assertEqual(line, f"elfmap-lint: a: it can't be decompressed: {words}")
        for name, module in (("lzma", lzma), ("bz2", bz2)):
            self.put(a=module.compress(SHARING))
            with mock.patch.dict("sys.modules", {name: None}):
                (line,) = self.lost("a")
            self.assertIn(f"this Python has no module {name}", line)

    def test_in_a_directory_too(self):
        """A package that is not read is never only skipped."""
        self.put(**{"a/bad__xz": lzma.compress(SHARING)[:30], "a/bad__o": SHARING})
        status, out, said = self.lint("a")
        self.assertEqual((status, len(said.splitlines())), (3, 1))
        self.assertEqual(
            out.splitlines(),
            [b"a/bad.o: " + SHARED, b"1 finding in 1 of 1 ELF file; 1 unreadable"],
        )

    def test_tar(self):
        one = tar_member(b"a.o", SHARING)
        for rest, words in (
            (b"x" * 512, f"at offset {len(one):#x}: there is no member's header"),
            (bytes(100) + b"x", f"at offset {len(one):#x}: it ends there"),
            (tar_header(b"b.o", 9, changed=b"c"), "there is no member's header"),
            (tar_header(b"x", 70000, b"L") + bytes(70144), "the name of the next member is too"),
            (tar_header(b"x", 2 << 20, b"x"), "the name of the next member is too long"),
        ):
            self.put(a__tar=one + rest)
            with self.subTest(words=words):
                self.assertEqual(self.paths("a.tar"), ["a.tar(a.o)"])
                (line,) = self.lost("a.tar")
                self.assertIn(words, line)
        for cut in (300, len(one) - 512, len(one) - 1):
            self.put(a__tar=one[:cut])
            with self.subTest(cut=cut):
                self.assertEqual(self.lint("--skip", "a.tar")[0], 3)

    def test_a_tar_size_that_is_no_number(self):
        header = bytearray(tar_header(b"a.o", 0))
        header[124:136] = b"99999999999\0"
        header[148:156] = b" " * 8
        header[148:156] = b"%06o\0 " % sum(header)
        self.put(a__tar=bytes(header))
        self.assertIn("the size before it is no number", self.lost("a.tar")[0])

    def test_cpio(self):
        one = cpio_member(b"a.o", SHARING)
        self.put(a__cpio=one + b"x" * 200, b__cpio=one, c__cpio=one[:-300])
        self.assertIn("there is no member's header", self.lost("a.cpio")[0])
        self.assertIn("it ends within a member", self.lost("b.cpio")[0])
        self.assertIn("it ends within a member", self.lost("c.cpio")[0])
        long = bytearray(one)
        long[94:102] = b"00100000"
        self.put(d__cpio=bytes(long))
        self.assertIn("a name that is too long", self.lost("d.cpio")[0])

    def test_rpm(self):
        lead = b"\xed\xab\xee\xdb" + bytes(92)
        header = b"\x8e\xad\xe8\x01" + bytes(4) + struct.pack(">2I", 0, 0)
        payload = gzip.compress(cpio_member(b"a.o", SHARING) + CPIO_END)
        self.put(a__rpm=lead + header + header + payload)
        self.assertEqual(self.paths("a.rpm"), ["a.rpm(a.o)"])
        # rpm fills the signature to a multiple of 8 bytes, and not what follows it.
        signature, main = (
            header[:8] + struct.pack(">2I", entries, size) + bytes(16 * entries + size)
            for entries, size in ((1, 5), (2, 3))
        )
        self.put(a__rpm=lead + signature + bytes(3) + main + payload)
        self.assertEqual(self.paths("a.rpm"), ["a.rpm(a.o)"])
        self.put(b__rpm=lead + header + payload, c__rpm=lead + header + header + b"other" * 200)
        self.assertIn("it has no header there", self.lost("b.rpm")[0])
        self.assertIn("the content of the RPM file is no cpio file", self.lost("c.rpm")[0])
        self.put(d__rpm=lead[:50])
        self.assertIn("it ends within a member", self.lost("d.rpm")[0])

    def test_a_debian_package_of_an_unknown_compression(self):
        deb = b"!<arch>\n" + archive_member(b"debian-binary", b"2.0\n", b"")
        self.put(a__deb=deb + archive_member(b"data.tar.lz", b"LZIP" * 9, b""))
        self.assertEqual(
            self.lost("a.deb"),
            ["elfmap-lint: a.deb(data.tar.lz): it is compressed in no way known here"],
        )

    def test_one_member_alone(self):
        """What can't be read of a package does not keep the rest away."""
        bad = gzip.compress(SHARING)[:-9]
        self.put(a__tar=tar_member(b"a.gz", bad) + tar_member(b"b.o", SHARING))
        self.assertEqual(self.paths("a.tar"), ["a.tar(b.o)"])
        self.assertTrue(self.lost("a.tar")[0].startswith("elfmap-lint: a.tar(a.gz): it can't be "))


class BoundTest(PackageCase):
    def test_what_comes_out(self):
        content = gzip.compress(tar_member(b"zeros", bytes(3 << 20)) + tar_member(b"a.o", SHARING))
        self.put(a__tgz=content)
        self.assertEqual(self.paths("a.tgz", "--unpack-limit", "4"), ["a.tgz(a.o)"])
        (line,) = self.lost("a.tgz", "--unpack-limit=2")
        words = "it is decompressed to more than 2 MiB; --unpack-limit allows more"
        self.assertEqual(line, f"elfmap-lint: a.tgz: {words}")
        # It is one for each file.
        self.put(b__tgz=content)
        words = ["a.tgz", "b.tgz", "--unpack-limit", "4", "-j1"]
        self.assertEqual(self.paths(*words), ["a.tgz(a.o)", "b.tgz(a.o)"])
        for number in (0, -1):
            status, _, said = self.lint(f"--unpack-limit={number}", "a.tgz")
            self.assertEqual((status, b"needs a positive number" in said), (2, True))

    def test_what_comes_out_of_all_in_one_another(self):
        inner = tar_member(b"a.gz", gzip.compress(bytes(1 << 20))) * 4
        self.put(a__tgz=gzip.compress(b"".join([inner, tar_member(b"a.o", SHARING)])))
        # Of what is no ELF file only the first bytes come out.
        self.assertEqual(self.paths("a.tgz", "--unpack-limit", "1"), ["a.tgz(a.o)"])
        image = SHARING + bytes(1 << 20)
        inner = b"".join(tar_member(b"%d.gz" % k, gzip.compress(image)) for k in range(4))
        self.put(b__tgz=gzip.compress(inner))
        self.assertEqual(self.lint("b.tgz", "--unpack-limit", "5")[0], 1)
        self.assertEqual(self.lint("b.tgz", "--unpack-limit", "3")[0], 3)

    def test_one_at_a_time(self):
        """However many members there are, the memory is that of the largest."""
        image = GOOD + bytes(1 << 20)
        self.put(a__tar=b"".join(tar_member(b"%d.o" % k, image) for k in range(4)))
        with _sources.opened(b"a.tar") as source:
            opener = _packages.Opener(None, self.fail)
            handles = {it.source.handle for it in opener.leaves(b"a.tar", source)}
            sizes = [os.fstat(it.source.handle).st_size for it in opener.leaves(b"a.tar", source)]
        self.assertEqual((len(handles), sizes), (1, [len(image)] * 4))

    def test_a_long_file(self):
        """No more is held than shows that it is too long; one that has members is not read."""
        with mock.patch.object(_packages, "LONGEST", 1000):
            self.put(a=gzip.compress(b"\x7fELF" + bytes(5000)), b=gzip.compress(GNU))
            with _sources.opened(b"a") as source:
                (leaf,) = _packages.Opener(None, self.fail).leaves(b"a", source)
                self.assertEqual(leaf.path, b"a")
            self.assertEqual(
                self.lost("b")[0].partition(": ")[2],
                "b: it has members and is " "longer than 1 GiB",
            )

    def test_the_memory_of_xz(self):
        """A file that asks for more is not read."""
        filters = [{"id": lzma.FILTER_LZMA2, "preset": 1, "dict_size": 1 << 28}]
        self.put(a__xz=lzma.compress(SHARING, filters=filters))
        self.assertIn("memory usage limit", self.lost("a.xz")[0].lower())

    @needs("lzip")
    def test_the_memory_of_lzip(self):
        made = bytearray(self.made("lzip", "-c", input=SHARING))
        made[5] = 0x1C
        self.put(a__lz=bytes(made))
        (line,) = self.lost("a.lz")
        self.assertIn("it asks for more than 128 MiB", line)
        # What is too short is damaged.
        self.put(a__lz=b"LZIP\1")
        self.assertIn("it can't be decompressed: ", self.lost("a.lz")[0])

    def test_commands_cost(self):
        """Of many members that a command decompresses not all are: each start counts."""
        one = tar_member(b"a", b"\x28\xb5\x2f\xfd\0")
        with mock.patch.object(_streams, "_COMMANDS", {"zstd": ("true", "")}):
            self.put(a__tar=one * 5)
            lines = self.lost("--unpack-limit", "3", "a.tar")
        too_many = [it for it in lines if "more than 3 MiB" in it]
        self.assertEqual((len(lines), len(too_many)), (2, 2))

    def test_many_zeros(self):
        """They are passed in large pieces, and not without end."""
        for one, kind in ((tar_member(b"a.o", SHARING), "tar"), (CPIO_END, "cpio")):
            with open("a", "wb") as it:
                it.write(one)
                it.truncate(len(one) + (1 << 24))
                it.seek(0, os.SEEK_END)
                it.write(one)
            started = time.process_time()
            self.assertEqual(self.lint("--skip", "a")[2], b"")
            os.truncate("a", 1 << 30)
            (line,) = self.lost("a")
            self.assertIn(f"a: the {kind} file is followed by something else", line)
            self.assertLess(time.process_time() - started, 2)

    @needs("zstd")
    def test_the_end_of_zstd(self):
        """It is not waited for where no more is asked for, and no process stays."""
        self.put(a__zst=self.made("zstd", "-c", input=b"text" * (8 << 20)))
        self.assertEqual(self.lint("--skip", "a.zst")[0], 0)
        with self.assertRaises(ChildProcessError):
            os.waitpid(-1, os.WNOHANG)

    def test_a_reader_of_a_stream(self):
        stream = _streams.Stream(io.BytesIO(b"abcdef").read)
        self.assertEqual((stream.peek(2), stream.peek(4), stream.read(1)), (b"ab", b"abcd", b"a"))
        self.assertEqual((stream.count, stream.exactly(4), stream.count), (1, b"bcde", 5))
        with self.assertRaises(_sources.Unreadable):
            stream.skip(2)


class ExplainTest(PackageCase):
    def test_findings_in_packages(self):
        """They are explained, as those of a file are."""
        data = gzip.compress(tar_member(b"x/bad.o", SHARING) + tar_member(b"lib.a", GNU))
        deb = b"!<arch>\n" + archive_member(b"debian-binary", b"2.0\n", b"")
        self.put(
            a__deb=deb + archive_member(b"data.tar.gz", data, b""), b__gz=gzip.compress(SHARING)
        )
        with explain.Files() as files:
            for path in (b"a.deb(x/bad.o)", b"a.deb(lib.a(%s))" % LONG, b"b.gz"):
                words, file = files.words(path)
                self.assertEqual(words.data[:], SHARING)
                self.assertEqual(file, path.partition(b"(")[0])
            with self.assertRaises(_sources.Unreadable):
                files.words(b"a.deb(none.o)")


if __name__ == "__main__":
    unittest.main()
