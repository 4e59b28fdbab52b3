""".ci/run, over an rt that only says what rt ci says, and over tools that pass or fail."""
import os
import shutil
import subprocess

from masking.tests.room import ROOT, InRoom, script

RT = """#!/bin/sh
[ "$*" = ci ] && [ -f crates.txt ] || exit 9
echo "rt: $SAYS"
echo "250 passed, $FAILED failed"
exit $FAILED
"""
OK = "ok; handles allowed: none; must-fail edits: 219 refused"
MORE = "; every proof and must-fail edit was done in this run"


class Gate(InRoom):
    def setUp(self):
        super().setUp()
        self.clone = self.path("a clone")
        os.makedirs(os.path.join(self.clone, ".ci"))
        shutil.copy(os.path.join(ROOT, ".ci", "run"), os.path.join(self.clone, ".ci"))
        self.file(os.path.join(self.clone, "crates.txt"), "")
        for tool in ("sheet", "papers"):
            script(os.path.join(self.clone, "tools", "test-" + tool), f'#!/bin/sh\necho tool\nexit ${{{tool.upper()}:-0}}\n')
        script(self.path("bin/rt"), RT)

    def gate(self, says=OK + MORE, failed=0, **more):
        """The status, and the lines of standard output."""
        search_path = os.pathsep.join([self.path("bin"), os.environ["PATH"]])
        environment = {**os.environ, "PATH": search_path, "SAYS": says, "FAILED": str(failed), **more}
        words = ["bash", os.path.join(self.clone, ".ci", "run")]
        done = subprocess.run(words, capture_output=True, cwd=self.room, env=environment, stdin=subprocess.DEVNULL, check=False)
        return done.returncode, done.stdout.decode().splitlines()

    def test_passes_where_rt_ci_does(self):
        for says in (OK + MORE, OK + ", 3 of them only by a limit" + MORE, OK + ", 0 bad" + MORE, "note: 2 edits of 9, 2 bad"):
            self.assertEqual(self.gate(says), (0, ["rt: " + says, "250 passed, 0 failed"]))

    def test_fails_where_rt_ci_does(self):
        for failed in (1, 2):
            self.assertEqual(self.gate("FAILED: basics", failed), (failed, ["rt: FAILED: basics", f"250 passed, {failed} failed"]))

    def test_fails_where_an_edit_no_longer_applies(self):
        for bad in (", 1 bad", ", 3 of them only by a limit, 10 bad"):
            for more in (MORE, ""):
                status, lines = self.gate(OK + bad + more)
                self.assertEqual((status, lines[0], lines[-1]), (1, "rt: " + OK + bad + more, "250 passed, 0 failed"))

    def test_fails_where_a_tool_does(self):
        for tool in ("SHEET", "PAPERS"):
            status, lines = self.gate(**{tool: "1"})
            self.assertEqual((status, lines), (1, []))
