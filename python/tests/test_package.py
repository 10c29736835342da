"""Tests of the package as a whole: that it can be installed, and how its commands answer."""

import contextlib
import importlib
import importlib.util
import io
import os
import subprocess
import sys
import tomllib
import zipfile
from unittest import mock

import kolvunh
from kolvunh.__main__ import MODULES

from .worked import EXAMPLES, ROOT, FilesTest

PACKAGE = ROOT / "python"


def builder():
    """The module that builds the package."""
    spec = importlib.util.spec_from_file_location("build_wheel", PACKAGE / "build_wheel.py")
    module = importlib.util.module_from_spec(spec)
    spec.loader.exec_module(module)
    return module


class PackageTest(FilesTest):
    def test_a_wheel_can_be_used(self):
        name = builder().build_wheel(self.folder)
        self.assertEqual(name, "kolvunh-1.0-py3-none-any.whl")
        with zipfile.ZipFile(self.folder / name) as wheel:
            names = wheel.namelist()
            self.assertIn("kolvunh/explain/networks.py", names)
            self.assertIn("kolvunh/sumo/loop.py", names)
            self.assertEqual([name for name in names if "test" in name or "pycache" in name], [])
            rows = wheel.read("kolvunh-1.0.dist-info/RECORD").decode().splitlines()
        self.assertEqual([row.split(",")[0] for row in rows], names)
        code = f"import sys; sys.path.insert(0, {str(self.folder / name)!r}); import kolvunh; print(kolvunh.__file__)"
        run = subprocess.run([sys.executable, "-I", "-c", code], capture_output=True, text=True, check=True)
        self.assertTrue(run.stdout.startswith(str(self.folder)), run.stdout)

    def test_types_and_version(self):
        project = tomllib.loads((PACKAGE / "pyproject.toml").read_text(encoding="utf-8"))["project"]
        self.assertEqual(kolvunh.__version__, project["version"])
        self.assertIn("py.typed", [path.name for path in builder().package_files()])
        self.assertEqual([name for name in kolvunh.__all__ if not hasattr(kolvunh, name)], [])

    def command(self, *words):
        """The status, output and error of a command of the package."""
        run = subprocess.run([sys.executable, "-I", "-B", PACKAGE, *words], capture_output=True, text=True, check=False)
        return run.returncode, run.stdout, run.stderr

    def test_commands(self):
        status, out, err = self.command()
        self.assertEqual((status, err), (0, ""))
        self.assertIn("check-input NET ARR", out)
        self.assertEqual(self.command("drawn")[0], 2)
        self.assertIn("there is no command 'drawn'", self.command("drawn")[2])
        for name, module in MODULES.items():
            self.assertIn(name, out)
            with mock.patch.object(sys, "argv", [name, "--help"]), contextlib.redirect_stdout(io.StringIO()) as said:
                with self.assertRaises(SystemExit) as ended:
                    importlib.import_module(f"kolvunh.{module}").main()
            self.assertEqual(ended.exception.code, 0, name)
            self.assertTrue(said.getvalue().startswith("usage:"), name)

    def test_words_that_are_no_call_in_one_line(self):
        for words in (("measures", "net"), ("page", "net", "arr"), ("summary",), ("check-input",), ("draw", "street"), ("sweep",)):
            status, out, err = self.command(*words)
            self.assertEqual((status, out, err.count("\n")), (2, "", 1), err)
        said = self.command("measures", "net", "arr", "report", "--approach", "north=a")[2]
        self.assertIn("--approach wants --by approach or --by all", said)

    def test_output_is_utf_8(self):
        points = self.folder / "points"
        points.write_bytes(b"series,x,y\ncaf\xe9,1,2\n")
        for coding in ("ascii:strict", "utf-8:strict"):
            words = [sys.executable, "-B", PACKAGE, "draw", "table", points]
            run = subprocess.run(words, capture_output=True, check=False, env={**os.environ, "PYTHONIOENCODING": coding})
            self.assertEqual((run.returncode, run.stderr), (0, b""))
            self.assertEqual(run.stdout.splitlines()[-1], b"| `caf\xe9` | 2.0 \xc2\xb1 0.0 |")

    def test_output_that_cannot_be_written(self):
        files = [EXAMPLES / "corridor.toml", EXAMPLES / "corridor.csv"]
        for redirection, said in ((">/dev/full", "No space left on device"), (">&-", "there is no standard output")):
            words = ["sh", "-c", f'"$@" {redirection}', "sh", sys.executable, "-I", "-B", PACKAGE, "check-input", *files]
            run = subprocess.run(words, stderr=subprocess.PIPE, text=True, check=False)
            self.assertEqual((run.returncode, run.stderr.count("\n")), (2, 1), run.stderr)
            self.assertIn(said, run.stderr)
