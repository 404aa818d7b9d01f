"""What tools/package installs is used from C, C++ and Python; versions and messages are the same everywhere."""

import base64
import ctypes
import hashlib
import importlib.util
import os
import pathlib
import re
import shutil
import struct
import subprocess
import sys
import tempfile
import unittest
import zipfile

from made_points import ROOT, run

import vengutari
from vengutari import library

# Prints the version, what the codes say, and a cost through the library: y = 2, 2, 9 at w = 2, p = 1, epsilon 2.
PROGRAM = r"""
#include <stdio.h>
#include "vengutari.h"
int main(void)
{
    const int16_t x[4] = {1, 0, 0, 0}, y[3] = {2, 2, 9}, vector[8] = {2, 0, 0, 0, 0, 0, 0, 0}, far[4] = {-32768, 32767, -1, 258};
    const int16_t best[8] = {-3, 32767, 0, 0, 0, 0, 0, 0};
    uint8_t store[3 * VENGUTARI_POINT_BYTES], point[VENGUTARI_POINT_BYTES], record[VENGUTARI_ANSWER_BYTES];
    uint64_t value = 0;
    uint32_t code;
    int k;
    struct vengutari_answer answer;
    for (k = 0; k < 3; k++)
        vengutari_put_point(store + k * VENGUTARI_POINT_BYTES, x, y[k], (uint16_t)k);
    code = vengutari_cost(store, sizeof store, 1, 1, 0, 1, 2, vector, 8, &value);
    printf("%s\n%u %u\n", vengutari_version(), (unsigned)code, (unsigned)value);
    vengutari_put_point(point, far, VENGUTARI_GAP_Y, 65535);
    for (k = 0; k < VENGUTARI_POINT_BYTES; k++)
        printf("%02x", point[k]);
    code = vengutari_write_answer(best, 8, 1152921367167897600u, 1099511627777u, 4294967295u, 2, 1, 2, 15, record, sizeof record);
    answer = vengutari_get_answer(record);
    printf(" %u %d %d %d %llu %llu %lu %d %d %d %d\n", (unsigned)code, answer.vector[0], answer.vector[1], answer.vector[2],
           (unsigned long long)answer.cost, (unsigned long long)answer.bound, (unsigned long)answer.count, answer.kind, answer.n, answer.d,
           answer.scale);
    for (code = 0; code < 256; code++)
        printf("%s\n", vengutari_message(code));
    return 0;
}
"""


class Package(unittest.TestCase):
    @classmethod
    def setUpClass(cls):
        cls.held = tempfile.TemporaryDirectory()
        cls.folder = pathlib.Path(cls.held.name)
        cls.prefix = cls.folder / "prefix"
        subprocess.run([str(ROOT / "tools" / "package"), "--built", str(cls.prefix)], check=True, capture_output=True)
        (cls.folder / "program.c").write_text(PROGRAM)
        (cls.folder / "program.cc").write_text(PROGRAM)

    @classmethod
    def tearDownClass(cls):
        cls.held.cleanup()

    def said(self, *words, **environment):
        return subprocess.run([str(word) for word in words], check=True, capture_output=True, text=True,
                              env={**os.environ, **environment}, cwd=self.folder).stdout

    def flags(self):
        """What pkg-config says, or would say."""
        folder = self.prefix / "lib" / "pkgconfig"
        if shutil.which("pkg-config"):
            return self.said("pkg-config", "--cflags", "--libs", "vengutari", PKG_CONFIG_PATH=str(folder)).split()
        known, words = {"pcfiledir": str(folder)}, []
        for line in (folder / "vengutari.pc").read_text().splitlines():
            name, mark, value = re.match(r"(\w*)([=:]?)\s*(.*)", line).groups()
            value = re.sub(r"\$\{(\w+)\}", lambda found: known[found.group(1)], value)
            known.update({name: value} if mark == "=" else {})
            words += value.split() if name in ("Cflags", "Libs") else []
        return words

    def test_from_c_and_cpp_static_and_shared(self):
        """With a C++ compiler where there is one."""
        static = [f"-I{self.prefix}/include", f"{self.prefix}/lib/libvengutari.a"]
        for compiler, source in (("cc", "program.c"), ("c++", "program.cc")):
            if compiler == "c++" and not shutil.which(compiler):
                continue
            strict = ["-std=c99", "-pedantic"] if compiler == "cc" else ["-std=c++11", "-pedantic"]
            for link in (self.flags(), static):
                with self.subTest(compiler=compiler, link=link[-1]):
                    self.said(compiler, *strict, "-Wall", "-Wextra", "-Werror", source, *link, "-o", "program")
                    lines = self.said("./program", LD_LIBRARY_PATH=str(self.prefix / "lib")).splitlines()
                    records = "80007fffffff01028000ffff 0 -3 32767 0 1152921367167897600 1099511627777 4294967295 2 1 2 15"
                    self.assertEqual(lines[:3], [vengutari.__version__, "0 2", records])
                    words = [library.MESSAGES.get(k, "no code of this library") for k in range(1, 256)]
                    self.assertEqual(lines[3:], ["accepted", *words])

    def test_layouts_of_the_header(self):
        """Each field at its offset, behind the one before it, up to the record's size, and as the library writes it."""
        header = (self.prefix / "include" / "vengutari.h").read_text()
        sizes = {"point": 12, "job": 72, "answer": 40}
        for name, words in re.findall(r"\*   (point|job|answer), \d+ bytes +((?:.|\n \*  {10,})*)", header):
            place = 0
            for offset, times, bits in re.findall(r"(?:^|[ ,(])(\d+) (?:[A-Za-z][A-Za-z0-9 ]*? )?(8 x )?[iu](8|16|32|64)\b", words):
                self.assertEqual(int(offset), place, name)
                place += (8 if times else 1) * int(bits) // 8
            self.assertEqual(place, sizes.pop(name))
        self.assertEqual(sizes, {})
        model = library.Model(1, 2, 3, 1, 0x01020304)
        job = library.find().write_job(model, 0x05060708090A0B0C, 0x0D0E0F10, 0x11121314, [0x1516, -2], [0x1718, 3], [0x191A, 4])
        fields = struct.unpack(">4BIQII8h8h8h", job)
        zeros = (0,) * 6
        self.assertEqual(fields, (1, 2, 3, 1, 0x01020304, 0x05060708090A0B0C, 0x0D0E0F10, 0x11121314, 0x1516, -2, *zeros, 0x1718, 3, *zeros,
                                  0x191A, 4, *zeros))

    def test_the_shared_library_has_a_version(self):
        """Programs ask for the name with the number, and the plain name leads to it."""
        self.assertEqual(os.readlink(self.prefix / "lib" / "libvengutari.so"), library.SONAME)
        told = self.said("readelf", "-d", self.prefix / "lib" / library.SONAME)
        self.assertIn(f"Library soname: [{library.SONAME}]", told)
        self.assertIn(library.SONAME, (self.prefix / "include" / "vengutari.h").read_text())

    def test_cmake_finds_it(self):
        """Where there is cmake, a project is built; else the file names what is there."""
        folder = self.prefix / "lib" / "cmake" / "vengutari"
        text = (folder / "vengutari-config.cmake").read_text()
        for name in re.findall(r"lib/libvengutari\.\w+", text):
            self.assertTrue((self.prefix / name).exists(), name)
        self.assertIn(f'set(PACKAGE_VERSION "{vengutari.__version__}")', (folder / "vengutari-config-version.cmake").read_text())
        if shutil.which("cmake"):
            project = self.folder / "project"
            project.mkdir()
            (project / "CMakeLists.txt").write_text(
                "cmake_minimum_required(VERSION 3.5)\nproject(p C)\nfind_package(vengutari 0.1 REQUIRED)\nadd_executable(p ../program.c)\n"
                "target_link_libraries(p vengutari::vengutari)\nadd_executable(q ../program.c)\n"
                "target_link_libraries(q vengutari::static)\n")
            self.said("cmake", "-S", project, "-B", project / "build", f"-DCMAKE_PREFIX_PATH={self.prefix}")
            self.said("cmake", "--build", project / "build")
            self.assertEqual(self.said(project / "build" / "p"), self.said(project / "build" / "q"))

    def test_documents(self):
        """The guide, the examples and a manual page with every option of every command."""
        documents = self.prefix / "share" / "doc" / "vengutari"
        self.assertTrue((documents / "USERS.md").exists() and (documents / "examples" / "search.c").exists())
        page = (self.prefix / "share" / "man" / "man1" / "vengutari.1").read_text(encoding="utf-8")
        for command in ("fit", "label", "coefficients", "decode", "job", "answer"):
            self.assertIn(f'.SH "{command.upper()}"', page)
            for option in re.findall(r"^  (--[a-z-]+)", run(command, "--help")[1], re.M):
                self.assertIn("\\fB" + option.replace("-", "\\-"), page)
        if shutil.which("groff"):
            done = subprocess.run(["groff", "-man", "-ww", "-Tascii"], input=page.encode(), capture_output=True, check=True)
            self.assertEqual(done.stderr, b"")

    def test_the_wheel(self):
        """Its files, their sums, the library in it and the command; by pip where there is one, without network."""
        wheel, = (self.prefix / "share" / "vengutari").glob("*.whl")
        with zipfile.ZipFile(wheel) as files:
            record = next(name for name in files.namelist() if name.endswith("RECORD"))
            for row in files.read(record).decode().splitlines()[:-1]:
                name, told, size = row.split(",")
                data = files.read(name)
                found = base64.urlsafe_b64encode(hashlib.sha256(data).digest()).decode().rstrip("=")
                self.assertEqual((told, int(size)), (f"sha256={found}", len(data)))
            self.assertIn("vengutari/py.typed", files.namelist())
            self.assertIn("vengutari = vengutari.command:main", files.read(record.replace("RECORD", "entry_points.txt")).decode())
            place = self.folder / "installed"
            files.extractall(place)
        if importlib.util.find_spec("pip"):
            shutil.rmtree(place)
            self.said(sys.executable, "-m", "pip", "install", "-q", "--no-index", "--no-deps", "--no-compile", "--target", place, wheel)
            said = self.said(place / "bin" / "vengutari", "--version", PYTHONPATH=str(place))
            self.assertEqual(said, f"vengutari {vengutari.__version__}\n")
        code = "import vengutari; c = vengutari.library.find(); print(c.path, c.loss(2, 4, -5))"
        said = self.said(sys.executable, "-c", code, PYTHONPATH=str(place))
        self.assertEqual(said, f"{(place / 'vengutari').resolve() / 'libvengutari.so'} 16\n")

    def test_from_python(self):
        code = "import vengutari.library as l; c = l.find(); print(c.path, c.loss(2, 4, -5))"
        path = str(self.prefix / "lib" / "vengutari" / "python")
        said = self.said(sys.executable, "-c", code, PYTHONPATH=path)
        self.assertEqual(said, f"{(self.prefix / 'lib').resolve() / 'libvengutari.so'} 16\n")

    def test_command_and_program(self):
        self.assertEqual(self.said(sys.executable, self.prefix / "bin" / "vengutari", "--version"), f"vengutari {vengutari.__version__}\n")
        self.assertEqual((self.prefix / "lib" / "vengutari" / "VERSION").read_text(), f"{vengutari.__version__}\n")
        job = (ROOT / "examples" / "fits" / "G.job").read_bytes()
        done = subprocess.run([str(self.prefix / "bin" / "fit")], input=job, capture_output=True, check=True)
        self.assertEqual(done.stdout, (ROOT / "examples" / "fits" / "G.out").read_bytes())

    def test_the_version_is_said_at_once(self):
        """Without the modules that take long to load."""
        code = ("import sys; before = set(sys.modules); sys.argv = ['vengutari', '--version']; from vengutari.command import main; main()\n"
                "print(sorted({'argparse', 'ctypes', 'dataclasses', 'decimal', 'fractions', 'subprocess'} & (set(sys.modules) - before)))")
        said = self.said(sys.executable, "-c", code, PYTHONPATH=str(ROOT / "python"))
        self.assertEqual(said, f"vengutari {vengutari.__version__}\n[]\n")

    def test_signatures_are_those_of_the_header(self):
        """Python has every call of the header, with the same arguments."""
        kinds = {"uint8_t": ctypes.c_uint8, "uint32_t": ctypes.c_uint32, "uint64_t": ctypes.c_uint64, "int64_t": ctypes.c_int64,
                 "int16_t": ctypes.c_int16, "size_t": ctypes.c_size_t}
        declared = {}
        for name, arguments in re.findall(r"^uint32_t (vengutari_\w+)\(([^)]*)\);", (ROOT / "include" / "vengutari.h").read_text(), re.M):
            declared[name] = []
            for argument in arguments.split(","):
                kind, pointer = re.fullmatch(r"\s*(?:const )?(\w+) (\*?)\w+", argument).groups()
                declared[name].append(ctypes.POINTER(kinds[kind]) if pointer else kinds[kind])
        self.assertEqual(library.SIGNATURES, declared)
        methods = {f"vengutari_{name}" for name in dir(library.Library) if not name.startswith("_")}
        self.assertEqual(set(declared) - methods, set())

    def test_bad_use(self):
        done = subprocess.run([str(ROOT / "tools" / "package"), "--help"], capture_output=True, check=False)
        self.assertEqual((done.returncode, done.stderr), (2, b"usage: tools/package [--built] [PREFIX]\n"))


if __name__ == "__main__":
    unittest.main()
