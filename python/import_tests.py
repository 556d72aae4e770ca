"""Tests of how the shared object is found and made: each thing that is missing is named, in a copy of the module with an environment of its own."""

import os
import shutil
import subprocess
import sys
import tempfile
import unittest
from pathlib import Path
from typing import Dict, List

from hailfeather import shared_object

SCRIPT_TOOLS = ["bash", "dirname", "realpath", "find", "mkdir", "cat"]  # what the build script runs, but for rt
LINK_TOOLS = ["cc", "ld"]
USE = "import hailfeather; print(hailfeather.cshake256(b'', 4).hex())"


class Imports(unittest.TestCase):
    def setUp(self) -> None:
        folder = tempfile.TemporaryDirectory()
        self.addCleanup(folder.cleanup)
        self.root = Path(folder.name).resolve()
        root = shared_object.REPOSITORY
        shutil.copytree(root / "python" / "hailfeather", self.root / "python" / "hailfeather", ignore=shutil.ignore_patterns("__pycache__"))
        shutil.copy(root / "build", self.root / "build")
        self.made = self.root / "target" / "python" / "libhailfeather.so"

    def tools(self, names: List[str]) -> str:
        """A PATH with these commands alone."""
        folder = Path(tempfile.mkdtemp(dir=str(self.root)))
        for name in names:
            (folder / name).symlink_to(shutil.which(name) or name)
        return str(folder)

    def started(self, tools: List[str], use: str = USE, **environment: object) -> subprocess.Popen:
        """A Python that imports the copy, and uses it."""
        variables: Dict[str, str] = {name: str(value) for name, value in environment.items()}
        variables.update(PATH=self.tools(tools), PYTHONPATH=str(self.root / "python"), PYTHONDONTWRITEBYTECODE="1")
        return subprocess.Popen([sys.executable, "-c", use], env=variables, stdout=subprocess.PIPE, stderr=subprocess.PIPE, universal_newlines=True)

    def works(self, process: subprocess.Popen) -> None:
        self.assertEqual(process.communicate(), ("46b9dd2b\n", ""))

    def fails(self, process: subprocess.Popen, *parts: str) -> None:
        """The import ends in an ImportError whose sentence has these parts in this order."""
        output, errors = process.communicate()
        sentence = errors[errors.rindex("\nImportError: ") :] if "\nImportError: " in errors else errors
        self.assertRegex(sentence, "(?s)^\nImportError: .*" + ".*".join(parts))
        self.assertEqual(output, "")

    def test_made_and_kept(self) -> None:
        archive = self.root / "libhailfeather.a"
        shutil.copy(shared_object.archive(), archive)
        self.works(self.started(SCRIPT_TOOLS + LINK_TOOLS, HAILFEATHER_ARCHIVE=archive))
        first = self.made.stat()
        self.works(self.started(SCRIPT_TOOLS, HAILFEATHER_ARCHIVE=archive))
        self.assertEqual(self.made.stat().st_ino, first.st_ino)
        for seconds in (5, -5):  # a newer archive, then another that is older
            os.utime(archive, (first.st_mtime + seconds, first.st_mtime + seconds))
            self.fails(self.started(SCRIPT_TOOLS, HAILFEATHER_ARCHIVE=archive), "cc, which makes a shared object of .*, is not on the PATH")
            self.works(self.started(SCRIPT_TOOLS + LINK_TOOLS, HAILFEATHER_ARCHIVE=archive))
            self.assertEqual(self.made.stat().st_mtime_ns, archive.stat().st_mtime_ns)
        self.works(self.started([], HAILFEATHER_LIBRARY=self.made))

    def test_at_once(self) -> None:
        archive = shared_object.archive()
        for process in [self.started(SCRIPT_TOOLS + LINK_TOOLS, HAILFEATHER_ARCHIVE=archive) for _ in range(4)]:
            self.works(process)
        self.assertEqual(list(self.made.parent.iterdir()), [self.made])

    def test_library(self) -> None:
        self.fails(self.started([], HAILFEATHER_LIBRARY="/nowhere.so"), "HAILFEATHER_LIBRARY names /nowhere.so, which is not there", "unset it")
        text = self.root / "build"
        self.fails(self.started([], HAILFEATHER_LIBRARY=text), f"{text} is not a shared object", "set HAILFEATHER_LIBRARY to")
        other = self.root / "other.so"
        subprocess.run(["cc", "-shared", "-x", "c", "-o", str(other), "-"], input=b"int other;\n", check=True)
        self.fails(self.started([], HAILFEATHER_LIBRARY=other), f"{other} has no function hf_version", "set HAILFEATHER_LIBRARY to")

    def test_archive(self) -> None:
        self.fails(self.started(SCRIPT_TOOLS, HAILFEATHER_ARCHIVE="/nowhere.a"), "HAILFEATHER_ARCHIVE names /nowhere.a, which is not there", "or set")
        self.fails(self.started(SCRIPT_TOOLS), "libhailfeather.a is missing or old, and rt", "is not on the PATH", "install the toolchain, or set")
        text = self.root / "python" / "hailfeather" / "refusals.txt"
        process = self.started(SCRIPT_TOOLS + LINK_TOOLS, HAILFEATHER_ARCHIVE=text)
        self.fails(process, f"makes no shared object of {text}", "build the static library anew")
        self.assertEqual(list(self.made.parent.iterdir()), [])
        self.fails(self.started(SCRIPT_TOOLS, HAILFEATHER_ARCHIVE=text), "cc, which makes", "install a C compiler", "or set HAILFEATHER_LIBRARY")

    def test_repository(self) -> None:
        self.fails(self.started([]), f"bash, which runs {self.root / 'build'}, is not on the PATH: install bash, or set HAILFEATHER_LIBRARY")
        (self.root / "target").write_text("no folder")
        process = self.started(SCRIPT_TOOLS + LINK_TOOLS, HAILFEATHER_ARCHIVE=shared_object.archive())
        self.fails(process, f"{self.made} cannot be written", "make its folder writable, or set HAILFEATHER_LIBRARY")
        (self.root / "build").unlink()
        self.fails(self.started(SCRIPT_TOOLS), f"the script {self.root / 'build'}", "is not there: import hailfeather from its repository, or set")
        (self.root / "python" / "hailfeather" / "refusals.txt").unlink()
        process = self.started([], HAILFEATHER_LIBRARY=shared_object.found())
        self.fails(process, "the refusals' words cannot be read", "copy the module's folder whole")

    def test_away(self) -> None:
        """The module's folder alone, copied as it stands, with a shared object that the environment names: calls and refusals in words."""
        (self.root / "build").unlink()
        folder = self.root / "python" / "hailfeather"
        shutil.rmtree(folder)
        shutil.copytree(shared_object.REPOSITORY / "python" / "hailfeather", folder, symlinks=True, ignore=shutil.ignore_patterns("__pycache__"))
        self.works(self.started([], HAILFEATHER_LIBRARY=shared_object.found()))
        use = "import hailfeather\ntry:\n    hailfeather.plan.destination(bytes([0]), 2**32 + 1)\nexcept hailfeather.Refusal as refusal:\n    print(refusal)"
        self.assertEqual(self.started([], use, HAILFEATHER_LIBRARY=shared_object.found()).communicate(), ("refused 10: the plan has no such chute\n", ""))
