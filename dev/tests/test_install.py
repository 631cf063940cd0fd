"""Tests of packaging/install.py, and of what ./release leaves where it fails."""

import contextlib
import importlib.machinery
import importlib.util
import io
import os
import pathlib
import shutil
import subprocess
import sys
import unittest.mock

from tests.tools.support import PROGRAM, TOP, ToolCase

from packaging import debian, install, make_columns, make_library


class Install(ToolCase):
    def test_a_place_that_cannot_be_written(self):
        if not PROGRAM.exists():
            self.skipTest("the program zkdump is not built")
        place = self.folder / "place"
        place.touch()
        for more in ((), ("--remove",)):
            done = subprocess.run([sys.executable, "-m", "packaging.install", "--destdir", place, *more],
                                  cwd=TOP, capture_output=True, text=True, check=False)
            self.assertEqual((done.returncode, done.stderr.count("\n")), (1, 1), done.stderr)
            self.assertRegex(done.stderr, r"^install.py: .*Not a directory: '.*/place/.*'$")


# What CMake has of both targets.
FOUND = """cmake_minimum_required(VERSION 3.13)
project(uses NONE)
find_package(zk REQUIRED)
foreach(name zk static)
    get_target_property(library zk::${name} IMPORTED_LOCATION)
    get_target_property(header zk::${name} INTERFACE_INCLUDE_DIRECTORIES)
    message(STATUS "zk ${library} ${header}")
endforeach()
"""


def made(folder, *_):
    """Makes the libraries and zkcolumns in the folder, of nothing."""
    for name in ("libzk.a", make_library.SONAME, make_columns.NAME):
        for path in (pathlib.Path(folder, name), pathlib.Path(folder, make_library.FAST, name)):
            path.parent.mkdir(parents=True, exist_ok=True)
            path.touch()
    return pathlib.Path(folder, "libzk.a"), None


class Place(ToolCase):
    """What goes where, of a program and libraries that have no bytes."""

    def setUp(self):
        super().setUp()
        self.place, program = self.folder / "a place", self.folder / "program"
        program.touch()
        self.lacking = ["scdoc"]
        for module, names in ((install, {"PROGRAM": program, "LIBRARY": program, "PLAIN": program, "toolchain": lambda: "rt"}),
                              (make_library, {"make": made}), (make_columns, {"make": made}),
                              (shutil, {"which": lambda tool: None if tool in self.lacking else f"/bin/{tool}"})):
            patch = unittest.mock.patch.multiple(module, **names)
            patch.start()
            self.addCleanup(patch.stop)

    def install(self, *words):
        """The status, what is said, and the files that are then there."""
        said, words = io.StringIO(), ["install.py", "--destdir", str(self.place), *words]
        with unittest.mock.patch.object(sys, "argv", words), contextlib.redirect_stdout(said), \
                contextlib.redirect_stderr(said):
            try:
                status = install.main()
            except SystemExit as ended:
                status = ended.code
        there = [path for path in self.place.rglob("*") if path.is_symlink() or path.is_file()]
        return status, said.getvalue(), sorted(str(path.relative_to(self.place)) for path in there)

    def configured(self):
        """What CMake says of zk."""
        done = subprocess.run(["cmake", f"-DCMAKE_PREFIX_PATH={self.place};{self.place / 'usr'}", "-B", "made"],
                              cwd=self.folder, text=True, capture_output=True, check=False)
        return [line for line in (done.stdout + done.stderr).splitlines() if line.startswith("-- zk ")]

    def test_the_folder_of_the_libraries(self):
        for libdir, wanted in (("lib64", "lib64"), ("lib/x86_64-linux-gnu/", "lib/x86_64-linux-gnu"),
                               ("/opt/zk/lib64", "lib64")):
            words = ("--prefix", "/opt/zk", "--libdir", libdir)
            with self.subTest(libdir):
                status, said, there = self.install(*words)
                self.assertEqual((status, f"opt/zk/{wanted}/libzk.so" in there), (0, True), said)
                described = (self.place / "opt/zk" / wanted / "pkgconfig" / "zk.pc").read_text()
                up = "/".join([".."] * len(pathlib.Path(wanted, "pkgconfig").parts))
                self.assertEqual(described.splitlines()[:2],
                                 [f"prefix=${{pcfiledir}}/{up}", f"libdir=${{prefix}}/{wanted}"])
                self.assertEqual(self.install(*words, "--remove"), (0, "", []))

    def test_no_folder_below_the_prefix(self):
        """As an absolute one, by which the libraries went there, and not below the --destdir."""
        for libdir in (str(self.folder / "other"), "../other", "..", ".", ""):
            for more in ((), ("--remove",)):
                status, said, there = self.install("--prefix", "/opt/zk", "--libdir", libdir, *more)
                self.assertEqual((status, there), (2, []), said)
                self.assertTrue(said.endswith(f"install.py: error: LIB is no folder below /opt/zk: {libdir!r}\n"), said)
        self.assertFalse((self.folder / "other").exists())

    @unittest.skipUnless(shutil.which("make"), "there is no make")
    def test_the_environment(self):
        """By it a package went to /usr/local of the system."""
        place = {"DESTDIR": "/a place", "PREFIX": "/opt/zk", "LIBDIR": "lib64"}
        wanted = 'python3 -m packaging.install --destdir "/a place" --prefix "/opt/zk" --libdir "lib64"'
        for target, more in (("install", ""), ("uninstall", " --remove")):
            done = subprocess.run(["make", "-n", "-s", "--no-print-directory", "-C", TOP, target], capture_output=True,
                                  text=True, check=False, env={"PATH": os.environ["PATH"], **place})
            self.assertEqual(done.stdout, f"{wanted}{more}\n", done.stderr)

    def test_what_tools_leave_in_the_tree(self):
        """A release has the same files for the same commit, also where pytest or pip has been."""
        for name in ("pytest/conftest.py", "pytest/.pytest_cache/README.md", "pytest/__pycache__/conftest.pyc",
                     "python/libzk/py.typed", "python/libzk.egg-info/PKG-INFO", "python/build/lib/libzk.py",
                     "python/.mypy_cache/3.9/libzk.data.json", "rust/target/debug/zk", "proxy.log"):
            path = self.folder / "tree" / "examples" / name
            path.parent.mkdir(parents=True, exist_ok=True)
            path.touch()
        with unittest.mock.patch.object(install, "TOP", self.folder / "tree"):
            found = [str(path.relative_to(self.folder / "tree")) for path in install.folder_files("examples", "*")]
        self.assertEqual(found, ["examples/pytest/conftest.py", "examples/python/libzk/py.typed"])

    @unittest.skipUnless(shutil.which("cmake"), "there is no cmake")
    def test_cmake_where_lib_is_a_link_to_usr_lib(self):
        """As on Debian, where CMake may look below / before /usr."""
        self.place.mkdir()
        (self.place / "lib").symlink_to("usr/lib")
        status, said, _ = self.install("--prefix", "/usr")
        self.assertEqual(status, 0, said)
        (self.folder / "CMakeLists.txt").write_text(FOUND)
        usr = (self.place / "usr").resolve()
        self.assertEqual(self.configured(), [f"-- zk {usr}/lib/{make_library.SONAME} {usr}/include",
                                             f"-- zk {usr}/lib/libzk.a {usr}/include"])

    @unittest.skipUnless(shutil.which("cmake"), "there is no cmake")
    def test_the_versions_that_cmake_takes(self):
        wanted = {"": 1, "0.9": 1, "0.9.0": 1, "0.8": 1, "0.9.1": 0, "1.0": 0, "0.9 EXACT": 1, "0.8 EXACT": 0,
                  "0.5...0.9": 1, "0.5...1.0": 1, "0.5...0.8": 0, "0.5...<0.9": 0, "0.5...<0.10": 1, "0.10...0.11": 0}
        with unittest.mock.patch.object(install, "VERSION", "0.9.0"):
            self.assertEqual(self.install("--prefix", "/usr")[0], 0)
        asked = [f"find_package(zk {words} QUIET)\nmessage(STATUS \"zk {words}: ${{zk_FOUND}}\")\nunset(zk_DIR CACHE)"
                 for words in wanted]
        (self.folder / "CMakeLists.txt").write_text(
            "\n".join(["cmake_minimum_required(VERSION 3.19)", "project(uses NONE)", *asked]))
        self.assertEqual(self.configured(), [f"-- zk {words}: {found}" for words, found in wanted.items()])

    def test_a_part_that_cannot_be_made(self):
        """As where the administrator's PATH lacks rt: all else is installed, and nothing says that the library is."""
        self.lacking.append("rt")
        status, said, there = self.install()
        self.assertEqual((status, said.splitlines()),
                         (0, ["left out: the libraries, zk.pc, the CMake files and zkcolumns, since rt is missing",
                              "left out: the manual pages, since scdoc is missing"]))
        self.assertIn("usr/local/bin/zkdump", there)
        self.assertEqual([name for name in there if name.startswith("usr/local/lib/")], [])

    def test_a_command_that_fails(self):
        with unittest.mock.patch.object(install, "toolchain", lambda: subprocess.run(["false"], check=True)):
            status, said, there = self.install()
        self.assertEqual((status, there), (1, []))
        self.assertTrue(said.endswith("\ninstall.py: Command '['false']' returned non-zero exit status 1.\n"), said)

    def test_what_runs_when_a_package_is_removed(self):
        """It takes away what Python has compiled, and is no error where the tools are gone."""
        compiled = self.folder / "usr" / install.OWN / "tools" / "zkdump_tools" / "__pycache__"
        for there in (True, False):
            if there:
                compiled.mkdir(parents=True)
            else:
                compiled.parent.rmdir()
                compiled.parent.parent.rmdir()
            done = subprocess.run(["sh", "-c", debian.REMOVAL], capture_output=True, text=True, check=False,
                                  env={**os.environ, "DPKG_ROOT": str(self.folder)})
            self.assertEqual((done.returncode, done.stderr, compiled.exists()), (0, "", False))

    def test_the_root(self):
        status, said, there = self.install("--prefix", "")
        self.assertEqual((status, "bin/zkdump" in there, "lib/libzk.a" in there), (0, True, True), said)
        with unittest.mock.patch.object(install, "install", lambda top, *_: [top]):
            self.assertEqual(self.install("--destdir", "", "--prefix", "")[1], "left out: /\n")


class Release(ToolCase):
    def setUp(self):
        super().setUp()
        loader = importlib.machinery.SourceFileLoader("release", str(TOP / "release"))
        self.release = importlib.util.module_from_spec(importlib.util.spec_from_loader("release", loader))
        loader.exec_module(self.release)

    def made(self, make):
        """The status of ./release, and what it says, where its files are made in this way."""
        release, said = self.release, io.StringIO()
        with unittest.mock.patch.object(release, "DIST", self.folder / "dist"), \
                unittest.mock.patch.object(release, "faults", lambda log: []), \
                unittest.mock.patch.object(release.gate, "git", lambda *words: "a commit"), \
                unittest.mock.patch.object(release.distribution, "make", make), \
                unittest.mock.patch.object(sys, "argv", ["release"]), contextlib.redirect_stderr(said):
            return release.main(), said.getvalue()

    @unittest.skipUnless(shutil.which("git"), "git is not on the PATH")
    def test_a_number_is_that_of_one_commit(self):
        """A version that CHANGELOG.md had closed was made again from later commits."""
        def commit(*headings):
            text = "".join(f"## [{heading}\n\n- A line.\n\n" for heading in ("Unreleased]", *headings))
            (self.folder / "CHANGELOG.md").write_text(f"{text}{len(history)}\n")
            who = ("-c", "user.name=one", "-c", "user.email=one@example.org")
            for words in (("add", "."), (*who, "commit", "--quiet", "--message=one")):
                subprocess.run(["git", *words], cwd=self.folder, check=True)
            history.append(self.release.gate.git("rev-parse", "HEAD"))
            return [*self.release.unclosed("0.10.0")]
        history = []
        subprocess.run(["git", "init", "--quiet"], cwd=self.folder, check=True)
        first, second = "0.9.0] - 2026-11-27", "0.10.0] - 2026-12-01"
        with unittest.mock.patch.object(self.release.gate, "TOP", self.folder), \
                unittest.mock.patch.object(self.release, "TOP", self.folder):
            none = ["CHANGELOG.md hasn't closed 0.10.0: give what is unreleased this number and the date, and commit that"]
            self.assertEqual(commit(first), none)
            self.assertEqual(commit(first), none)
            self.assertEqual(commit(second, first), [])
            other = [f"the commit {history[-1][:8]} has closed 0.10.0, and this is another: take the next number"]
            self.assertEqual(commit(second, first), other)
            self.assertEqual(commit(first), none)

    def test_nothing_is_made_where_something_fails(self):
        def fails(fault):
            def make(to, _):
                (to / "some.deb").touch()
                raise fault
                yield
            return make

        def leaves_out(to, _):
            (to / "some.deb").touch()
            yield "the manual pages"
        lacks = self.release.make_library.NotMade("the library lacks zk_say")
        for make, told in ((fails(lacks), "the library lacks zk_say"), (leaves_out, "the manual pages"),
                           (fails(subprocess.CalledProcessError(2, "dpkg-deb")), "Command 'dpkg-deb' returned "
                                                                                 "non-zero exit status 2.")):
            with self.subTest(told):
                self.assertEqual(self.made(make), (1, f"release: {told}\n"))
                self.assertFalse((self.folder / "dist").exists())

    def test_a_file_where_the_folder_goes(self):
        (self.folder / "dist").touch()
        status, said = self.made(lambda *_: [])
        self.assertEqual((status, said.count("\n")), (1, 1), said)
        self.assertRegex(said, "^release: .*File exists: '.*/dist'$")

    def test_what_it_says_of_its_gate(self):
        """The toolchain and what was left out, however much that is, and not what came before."""
        said = [*(f"left out: 1 check of part {number}, since a tool is not here" for number in range(99)),
                "== python3 -m dev.gate 0123 (after 9 s)", "commit: 0123"]
        log = "\n".join(["== rt ci", "9 passed, 0 failed", "== toolchain: kit 1", "== left out: 99 checks", *said, ""])
        self.assertEqual(self.release.end_of(log), ["== toolchain: kit 1", "== left out: 99 checks", *said])
