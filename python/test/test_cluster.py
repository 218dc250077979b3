#!/usr/bin/env python3
"""Tests the examples for clusters: the job array's parts by hand, and Slurm and Snakemake where they are there."""

import os
import pathlib
import shutil
import subprocess
import tempfile
import unittest

from places import EXAMPLES, environment

SECONDS = 300
POINTS = 56


class Cluster(unittest.TestCase):
    def setUp(self):
        self.folder = pathlib.Path(tempfile.mkdtemp())
        self.addCleanup(shutil.rmtree, self.folder)
        (self.folder / "examples").symlink_to(EXAMPLES)

    def call(self, *words, **more):
        done = subprocess.run(words, cwd=self.folder, env={**environment(), **more}, timeout=SECONDS,
                              stdout=subprocess.PIPE, stderr=subprocess.STDOUT, text=True)
        self.assertEqual(done.returncode, 0, done.stdout)
        return done.stdout

    def rows(self, name="sort.csv"):
        return (self.folder / name).read_text().count("\n") - 1

    def test_parts_by_hand(self):
        """The eight tasks have all points, so nothing is left to run when they are put together."""
        for part in range(1, 9):
            self.call("bash", "examples/cluster/sweep.slurm", SLURM_ARRAY_TASK_ID=str(part), SLURM_ARRAY_TASK_COUNT="8")
            self.assertEqual(self.rows(f"sort-part-{part}.csv"), POINTS // 8)
        told = self.call("bash", "examples/cluster/together")
        self.assertEqual(told, f"sweep: {POINTS} points in sort.csv, 0 failed, 0 not run\n")
        self.assertEqual(self.rows(), POINTS)

    def test_slurm(self):
        """Slurm accepts the job array; where there is no cluster that can be asked, that isn't tried."""
        if not shutil.which("sbatch") or subprocess.run(["sinfo"], stdout=subprocess.DEVNULL, stderr=subprocess.DEVNULL).returncode:
            self.skipTest("the job array by Slurm: there is no sbatch with a cluster")
        self.call("sbatch", "--test-only", "examples/cluster/sweep.slurm")

    def test_snakemake(self):
        if not shutil.which("snakemake"):
            self.skipTest("the Snakefile: there is no snakemake")
        words = ("snakemake", "--cores", "2", "--snakefile", "examples/cluster/Snakefile")
        self.assertIn("part", self.call(*words, "--dry-run"))
        self.assertFalse(os.path.exists(self.folder / "sort.csv"))
        self.call(*words)
        self.assertEqual(self.rows(), POINTS)


if __name__ == "__main__":
    unittest.main()
