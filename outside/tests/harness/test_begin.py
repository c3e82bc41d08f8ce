"""A program may say where faults act, and what it promises, by reading links below /.paklour."""

import json
import unittest

from .base import Campaigns

PROGRAM = """#!/bin/sh
exec python3 -S -c '
import os

def says(word):
    try:
        os.readlink("/.paklour/" + word)
    except OSError:
        pass

def save(name):
    file = os.open(name, os.O_WRONLY | os.O_CREAT, 0o644)
    if os.write(file, name.encode()) == len(name):
        says("=say/saved " + name)

{}
'
"""
PARTS = """
save("first")
says("=begin")
save("within")
says("=end")
save("behind")
"""
JUDGE = """#!/bin/sh
while read -r saved name; do [ "$(cat "$name")" = "$name" ] || { echo "lost $name"; exit 1; }; done < "$SAID"
"""
SAFE = JUDGE.replace("while", "[ -s first ] || { echo never; exit 1; }\nwhile")
LIVE = 'states = ["live"]\n'


class Begin(Campaigns):
    def program(self, parts=PARTS, judge=SAFE, **steps):
        folder = self.harness(run=PROGRAM.format(parts), judge=judge, **steps)
        (folder / "harness.py").write_text(LIVE)
        return folder

    def test_faults_act_between_a_beginning_and_an_end(self):
        """An open and a write: each fails or ends the run, and the write also finds the disk full or does half. The first file is there in any case."""
        folder = self.program()
        done = self.loop("-j", 1, folder)
        kinds = [("sys::open", "return"), ("sys::open", "panic"), *[("sys::write", kind) for kind in ("return", "return(ENOSPC)", "return(HALF)", "panic")]]
        hits = {"sys::open": "sys::open", "sys::write": "sys::open;sys::write"}
        self.assertEqual(sorted(self.answers(folder)), sorted(["pass\tnone\tsys::open;sys::write",
            *[f"pass\t{point}=1*{kind}\t{hits[point]}" for point, kind in kinds]]), done.told)

    def test_what_was_done_before_lasts(self):
        """The loss of each file that was saved, by the state that keeps nothing: not that of the first, though nobody syncs it."""
        folder = self.program(judge=JUDGE)
        (folder / "harness.py").write_text('states = ["lasting"]\n')
        shown = self.loop("--try", "none", folder)
        self.assertIn("\nfail lost within: without any fault", shown.out)
        self.assertNotIn("first", "".join(line for line in shown.out.splitlines() if line.startswith("pending: ")))
        self.assertIn("create behind", shown.out)

    def test_promises_are_those_of_a_printed_line(self):
        """A promise that is broken is told, and it stands where it was made."""
        folder = self.program(judge="#!/bin/sh\n! grep -q within \"$SAID\" || { echo within; exit 1; }\n")
        shown = self.loop("--try", "none", folder).out.splitlines()
        self.assertEqual(shown[:6], ["      said: saved first", "    1 sys::open 1 (within) 4", "    2 sys::write 1 (within) 6", "      said: saved within",
            "      said: saved behind", "pending: 1 create within"])
        self.assertTrue(any(line.startswith("fail within: ") for line in shown))

    def test_recovery_has_a_beginning_of_its_own(self):
        """Without one, each of its calls may fail; with one, only those behind it."""
        opens = 'open("again", "w").close()\n'
        folder = self.program('open("note", "w").close()\n', judge="#!/bin/sh\nexit 0\n", again=PROGRAM.format(opens + 'says("=begin")\n' + opens))
        (folder / "harness.py").unlink()
        shown = self.loop("--try", "none", folder)
        self.assertEqual([line.split()[1:4] for line in shown.out.splitlines() if " sys::" in line], [["sys::open", "1", "(note)"], ["sys::open", "2", "(again)"]])

    def test_a_run_that_never_gets_there(self):
        """The second run doesn't say where faults begin, as the first did."""
        folder = self.program(PARTS.replace('says("=begin")', f'if not os.path.exists("{self.here}/second"): says("=begin")\nopen("{self.here}/second", "w").close()'))
        done = self.loop("-j", 1, folder)
        self.assertEqual(done.status, 2)
        self.assertIn("unresolved: faults: not seen: where faults begin, though =begin was awaited, in ", done.told)

    def test_a_campaign_that_goes_on_knows_it(self):
        folder = self.program(judge="#!/bin/sh\nexit 0\n")
        self.loop("-j", 1, folder)
        answers = self.answers(folder)
        self.assertEqual(json.loads((folder / "campaign.json").read_text())["begins"], ["run"])
        (folder / "answers").write_text("".join(f"{line}\n" for line in answers[:3]))
        done = self.loop("-j", 1, folder)
        self.assertEqual(sorted(self.answers(folder)), sorted(answers), done.told)


if __name__ == "__main__":
    unittest.main()
