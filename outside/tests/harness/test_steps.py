"""What the programs of a harness find when they start."""

import unittest

from .base import Campaigns

LEAVES = """#!/bin/sh
for number in 1 2 3; do
    echo $number > "$TMPDIR/number"
    echo $number > "file$number"
done
echo left
"""
FINDS = '#!/bin/sh\n[ -z "$(ls -A "$TMPDIR")" ] || { echo "found$(cat "$TMPDIR"/*)"; exit 1; }\necho judged > "$TMPDIR/number"\n'
FINDS_IN_PYTHON = """import os


def judge(said):
    if names := os.listdir(os.environ["TMPDIR"]):
        return f"found {names}"
    open(os.environ["TMPDIR"] + "/number", "w").write("judged")
"""
# Each run is judged in four states, by a judgement each.
SETTINGS = 'target = "outside"\ndepth = 1\n[outside]\nlabel = "steps"\ncodes = ["lost"]\npoints = ["sys::open", "sys::write"]\n'


class Temporary(Campaigns):
    def assert_same(self, folder):
        """Derived runs are judged as whole ones are."""
        (folder / "settings.toml").write_text(SETTINGS)
        for words in ([], ["--every-run"]):
            into = self.here / f"into{len(words)}"
            done = self.loop("-j", 2, *words, "--into", into, folder)
            self.assertEqual(done.status, 0, done.told)
            self.assertEqual("; 0 plans were derived" in done.told, bool(words), done.told)
        self.assertEqual(*(sorted((self.here / f"into{number}" / "answers").read_text().splitlines()) for number in (0, 1)))

    def test_a_program_that_judges(self):
        self.assert_same(self.harness(run=LEAVES, judge=FINDS))

    def test_a_function_that_judges(self):
        self.assert_same(self.harness(run=LEAVES, **{"harness.py": FINDS_IN_PYTHON}))

    def test_again(self):
        again = '#!/bin/sh\nls -A "$TMPDIR" | sed "s/^/found /"\n: > again\n'
        done = self.loop("-j", 2, "--no-kinds", self.harness(run=LEAVES, again=again, judge='#!/bin/sh\n! grep found "$SAID"\n'))
        self.assertEqual(done.status, 0, done.told)


class Failing(Campaigns):
    def test_prepare(self):
        """Its last lines are shown, as the last one alone may be no reason."""
        prepare = "#!/bin/sh\necho begin >&2; echo 'store: permission denied' >&2; echo 'hint: delete it' >&2; echo >&2; exit 3\n"
        done = self.loop(self.harness(prepare=prepare, run=LEAVES, judge=FINDS))
        self.assertEqual((done.status, done.told.splitlines()[1:]),
            (2, ["loop: prepare failed: it ended with 3: begin; store: permission denied; hint: delete it"]))


class Missing(Campaigns):
    def unresolved(self, run):
        done = self.loop(self.harness(run=run, judge="#!/bin/sh\n"))
        self.assertEqual(done.status, 2, done.told)
        return done.told.splitlines()[1]

    def test_a_program_that_is_not(self):
        self.assertEqual(self.unresolved("#!/bin/sh\n./save >&2\n"),
            f"unresolved: run made no call on its data: {self.here}/harness/run: 2: ./save: not found: none")

    def test_an_interpreter_that_is_not(self):
        self.assertEqual(self.unresolved("#!/nowhere/python\n"),
            f"unresolved: run made no call on its data: faults: {self.here}/harness/run: No such file or directory: none")


if __name__ == "__main__":
    unittest.main()
