"""find-rule and tools/finder, with a kit that only looks like one: its rt puts a stand-in where the finder is built."""
import os
import shutil
import subprocess

from masking.tests.room import HOUSE_LISTING, REFUSED_LISTING, ROOT, InRoom, example, script, write


# As rt does, it says on standard error what it proved; it does not run what it built.
RT = """#!/bin/sh
kit=$(cd "$(dirname "$0")/.." && pwd -P)
[ "$*" = run ] || exit 2
[ -d src ] || exit 2
echo "rt: chose --jobs 2 for finder" >&2
echo "crate finder: modules loaded=0 checked=9" >&2
echo "logic=proved functions=3 axioms=8" >&2
[ -n "$RT_STATUS" ] && exit "$RT_STATUS"
[ -n "$RT_BUILDS_NOTHING" ] && exit 0
mkdir -p out && cp "$kit/finder" out/finder
"""
STAND_IN = """#!/usr/bin/env python3
import sys
data = sys.stdin.buffer.read()
if data[:2] != b"HD": sys.exit(3)
print({house!r} if data == open({sheet!r}, "rb").read() else {refused!r}, end="")
"""


class FindRule(InRoom):
    def setUp(self):
        super().setUp()
        self.clone, kit = self.path("a clone"), self.path("a kit")
        for name in ("tools", "examples"):
            shutil.copytree(os.path.join(ROOT, name), os.path.join(self.clone, name))
        shutil.copy(os.path.join(ROOT, "find-rule"), self.clone)
        script(os.path.join(kit, "bin", "rt"), RT)
        script(os.path.join(kit, "path", "uname"), '#!/bin/sh\necho "$MACHINE"\n')
        os.makedirs(os.path.join(self.clone, "crates", "finder", "src"))
        stand_in = STAND_IN.format(house=HOUSE_LISTING, refused=REFUSED_LISTING, sheet=example("house.sheet"))
        script(os.path.join(kit, "finder"), stand_in)
        self.search_path = os.pathsep.join([os.path.join(kit, "bin"), os.path.join(kit, "path"), os.environ["PATH"]])

    def find(self, *arguments, **more):
        environment = {**os.environ, "PATH": self.search_path, "MACHINE": "x86_64", "LC_ALL": "C", **more}
        program = os.path.join(self.clone, "find-rule")
        done = subprocess.run([program, *arguments], capture_output=True, cwd=self.room, env=environment, check=False)
        return done.returncode, done.stdout.decode(), done.stderr.decode()

    def test_examples_first_and_again(self):
        for first in (True, False):
            status, out, err = self.find()
            self.assertEqual(status, 0, err)
            self.assertIn(HOUSE_LISTING + "\nA rule was found", out)
            self.assertIn("1.5095 < ratio ≤ 2.1055", out)
            self.assertIn(REFUSED_LISTING + "\nThe sheet was refused, reason 5", out)
            self.assertEqual("some minutes" in err, first)
            self.assertIn("finder: logic=proved functions=3\n", err)
            self.assertNotIn("chose", err)

    def test_a_table_and_a_sheet(self):
        shutil.copy(example("house.csv"), self.path("my house.csv"))
        status, out, _ = self.find("my house.csv")
        self.assertEqual((status, out.startswith(HOUSE_LISTING + "\nA rule")), (0, True))
        status, out, _ = self.find("my house.csv", "--support", "2")
        self.assertEqual((status, out.startswith(REFUSED_LISTING)), (0, True))
        shutil.copy(example("house.sheet"), self.path("my house.sheet"))
        status, out, err = self.find("my house.sheet")
        self.assertEqual((status, out, "no my house.names" in err), (0, HOUSE_LISTING, True))

    def test_failures(self):
        write(self.path("bad.csv"), b"a,label\nx,y\n")
        self.assertEqual(self.find("bad.csv")[0], 1)
        self.assertEqual(self.find("nowhere.sheet")[0], 1)
        self.assertEqual(self.find("--what")[0], 2)
        self.assertEqual(self.find("")[0], 2)
        self.assertEqual(self.find("bad.sheet", "more")[0], 2)
        write(self.path("bad.sheet"), b"XX")
        status, out, err = self.find("bad.sheet")
        self.assertEqual((status, out, "failed on bad.sheet (status 3)" in err), (1, "", True))
        status, out, err = self.find(RT_STATUS="1")
        self.assertEqual((status, out, "was not proved" in err), (1, "", True))
        self.assertEqual(self.find(MACHINE="riscv64")[0], 1)
        os.remove(os.path.join(self.clone, "crates", "finder", "out", "finder"))
        status, out, err = self.find(RT_BUILDS_NOTHING="1")
        self.assertEqual((status, "not built" in err), (1, True))
