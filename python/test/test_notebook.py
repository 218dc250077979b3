#!/usr/bin/env python3
"""Runs the notebook of examples/ from its first cell to its last, where jupyter is there."""

import json
import os
import pathlib
import shutil
import subprocess
import tempfile
import unittest

from places import EXAMPLES

NOTEBOOK = EXAMPLES / "sort-study.ipynb"
SECONDS = 300
# lines that it prints, as examples/README.md and docs/TEACHING.md have the numbers
LINES = ("status 0", "DONE      4505", "     8    295    174    126", "    16     16     16     16", "    8    295      0      5")


def jupyter():
    """Whether jupyter can run the notebook's kernel, and draw."""
    kernel = pathlib.Path("/usr/share/jupyter/kernels/python3/kernel.json")
    if not shutil.which("jupyter") or subprocess.run(["jupyter", "nbconvert", "--version"], stdout=subprocess.DEVNULL,
                                                     stderr=subprocess.DEVNULL).returncode:
        return False
    python = json.loads(kernel.read_text())["argv"][0] if kernel.exists() else "python3"
    return subprocess.run([python, "-c", "import ipykernel, matplotlib"], stderr=subprocess.DEVNULL).returncode == 0


class Notebook(unittest.TestCase):
    def test_run(self):
        """Each cell runs, the numbers are the documents', and there is a picture. It is stored without outputs."""
        stored = json.loads(NOTEBOOK.read_text(encoding="utf-8"))
        self.assertEqual([cell["outputs"] for cell in stored["cells"] if cell["cell_type"] == "code" and cell["outputs"]], [])
        if not jupyter():
            self.skipTest("the notebook: there is no jupyter with nbconvert, ipykernel and matplotlib")
        folder = tempfile.mkdtemp()
        self.addCleanup(shutil.rmtree, folder)
        done = subprocess.run(["jupyter", "nbconvert", "--to", "notebook", "--execute", "--output-dir", folder, str(NOTEBOOK)],
                              timeout=SECONDS, stdout=subprocess.PIPE, stderr=subprocess.STDOUT, text=True, cwd=EXAMPLES,
                              env={name: value for name, value in os.environ.items() if name != "PYTHONPATH"})
        self.assertEqual(done.returncode, 0, done.stdout)
        run = json.loads((pathlib.Path(folder) / NOTEBOOK.name).read_text(encoding="utf-8"))
        outputs = [output for cell in run["cells"] for output in cell.get("outputs", [])]
        lines = "".join("".join(output.get("text", [])) for output in outputs).splitlines()
        for line in LINES:
            self.assertIn(line, lines)
        self.assertTrue(any("image/png" in output.get("data", {}) for output in outputs))


if __name__ == "__main__":
    unittest.main()
