"""The organisation in `examples/`, and the step for build servers."""

from __future__ import annotations

import os
import subprocess
import sys
import unittest

from .support import CLIENT, Served, run

ORGANISATION = CLIENT.parent / "examples" / "organisation"


@unittest.skipUnless(ORGANISATION.is_dir(), "examples/organisation isn't there")
class Organisation(unittest.TestCase):
    """What needs no server."""

    def test_validate(self) -> None:
        status, out, err = run("validate", str(ORGANISATION))
        self.assertEqual((status, err), (0, ""), out)


@unittest.skipUnless(ORGANISATION.is_dir(), "examples/organisation isn't there")
class PushedOrganisation(Served):
    """What README shows."""

    def test_push_and_owned(self) -> None:
        self.run_ok("push", str(ORGANISATION), "--yes")
        group = self.run_ok("list", "--filter", "kind=group,relations.ownerOf", "-o", "name").split()[0]
        self.assertRegex(self.run_ok("owned", group), r"^KIND +NAME +TYPE +LIFECYCLE +SYSTEM +OWNER\n")
        self.run_ok("status")

    def test_step_of_a_build_server(self) -> None:
        command = CLIENT / "wirgatsu"
        variables = {**os.environ, "WIRGATSU_SERVER": self.server, "WIRGATSU": str(command),
            "PATH": os.path.dirname(sys.executable) + os.pathsep + os.environ["PATH"]}
        for _ in range(2):
            done = subprocess.run([str(CLIENT / "examples" / "push_on_merge.sh"), str(ORGANISATION)], env=variables, capture_output=True, text=True,
                check=False)
            self.assertEqual((done.returncode, done.stderr), (0, ""), done.stdout)
        self.assertIn("0 to add, 0 to change, 0 to remove", done.stdout)


if __name__ == "__main__":
    unittest.main()
