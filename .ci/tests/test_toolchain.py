"""Which `rt` the scripts run: that of a folder which PATH names from the root, and none of the current folder."""
import subprocess
import sys
import tempfile
import unittest
from pathlib import Path

sys.dont_write_bytecode = True
CI = Path(__file__).resolve().parents[1]
# What PATH may have besides the toolchain's folder, by which `rt` of the current folder is found.
TRAPS = ("", ".", "bin", "./bin")


class Found(unittest.TestCase):
    def setUp(self):
        self.room = Path(self.enterContext(tempfile.TemporaryDirectory()))
        for name in ("rt", "bin/rt"):
            self.write(name, "#!/bin/sh\necho the trap ran\n")

    def write(self, name: str, text: str) -> None:
        file = self.room / name
        file.parent.mkdir(exist_ok=True)
        file.write_text(text)
        file.chmod(0o755)

    def run_with(self, *folders: str) -> tuple[int, str]:
        """Runs `.ci/rt` in the room, with these folders as PATH. Returns its status and what it printed."""
        ran = subprocess.run([sys.executable, CI / "rt", "version"], cwd=self.room, env={"PATH": ":".join(folders)},
                             stdin=subprocess.DEVNULL, stdout=subprocess.PIPE, stderr=subprocess.STDOUT, text=True,
                             check=False)
        return ran.returncode, ran.stdout

    def test_none_of_the_current_folder(self):
        lacks = (127, "rt: no folder that the PATH names from the root on has an rt, the Rattle toolchain\n")
        for trap in TRAPS:
            with self.subTest(trap):
                self.assertEqual(self.run_with(trap, "/nowhere"), lacks)

    def test_the_toolchain_s_behind_them(self):
        self.write("kit/rt", "#!/bin/sh\necho the kit ran: $*\n")
        for trap in TRAPS:
            with self.subTest(trap):
                self.assertEqual(self.run_with(trap, str(self.room / "kit")), (0, "the kit ran: version\n"))

    def test_one_that_loads_a_module_of_its_own_folder(self):
        self.write("rtlib.py", "print('the trap was loaded')\n")
        self.write("kit/rtlib.py", "class Crate:\n    pass\n")
        self.write("kit/rt", "import os\nfrom sys import path\n"
                             "path.insert(0, os.path.dirname(os.path.realpath(__file__)))\nimport rtlib\n"
                             "def main(words):\n    print('the kit:', *words)\n    return 5\n")
        for trap in TRAPS:
            with self.subTest(trap):
                self.assertEqual(self.run_with(trap, str(self.room / "kit")), (5, "the kit: version\n"))

    def test_builds_look_so_too(self):
        for trap in TRAPS:
            for script in ("build", "trial"):
                with self.subTest(script, trap=trap):
                    ran = subprocess.run([sys.executable, CI / script, self.room / "out", "sftpv3"], cwd=self.room,
                                         env={"PATH": f"{trap}:/nowhere"}, stdin=subprocess.DEVNULL, text=True,
                                         stdout=subprocess.PIPE, stderr=subprocess.STDOUT, check=False)
                    self.assertEqual((ran.returncode, ran.stdout), (
                        3, "sftpv3: there is no rt in the PATH: the Rattle toolchain, which has it, proves and builds "
                        "the program\n"))


if __name__ == "__main__":
    unittest.main()
