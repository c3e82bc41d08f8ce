"""What a command says about arguments that mean nothing, and about a signal that ends it: a line that names the word."""

import signal
import subprocess
import time
import unittest

from .base import NOTE, OUTSIDE, Campaigns


class Words(Campaigns):
    def told(self, name: str, *words: str, **variables: str) -> str:
        """What a command says that refuses these words, without its folder."""
        done = subprocess.run([OUTSIDE / name, *words], env=self.environment | variables, cwd=self.here, capture_output=True, text=True, check=False)
        self.assertEqual((done.returncode, done.stdout), (2, ""), words)
        self.assertEqual(list(self.here.iterdir()), [self.here / "bin"], "nothing is made")
        return done.stderr.replace(f"{OUTSIDE}/", "")

    def test_words_of_the_loop(self):
        for words, why in {
            "--deph 2 none": "--deph: there is no such option",
            "none --depth": "--depth: its value is missing",
            "--depth x none": "--depth x: this is no whole number from 1 on",
            "--failures 0 none": "--failures 0: this is no whole number from 1 on",
            "-jx none": "-j x: this is no whole number from 1 on",
            "--room 12Q none": "--room 12Q: this is no number of bytes such as 500M",
            "--shard 3/2 none": "--shard 3/2: there are only 2 shares",
            "--engine make a b c": "--engine make: the only engine is parallel",
            "a b c -- d": "--: words can stand behind it only with --engine parallel",
        }.items():
            self.assertEqual(self.told("loop", *words.split()), f"loop: {why} (loop --help lists the options)\n")

    def test_a_number_of_the_environment(self):
        self.assertEqual(self.told("loop", "none", PROCESSES="few"), "loop: PROCESSES few: this is no whole number from 1 on (loop --help lists the options)\n")

    def test_words_of_new(self):
        for words, why in {"--serve x": "--serve: there is no such option", "--server": "--server: its value is missing",
                "--mail --post x": "--post: there is no such option"}.items():
            self.assertEqual(self.told("new", *words.split()), f"new: {why} (new --help lists the options)\n")

    def test_words_of_the_census(self):
        for words, why in {"--pointz x": "--pointz: there is no such option", "--hits --kinds": "--kinds: behind --hits stands the trace",
                "none": "none: there is no such trace, or it can't be read"}.items():
            self.assertEqual(self.told("census", *words.split()), f"census: {why} (census --help lists the options)\n")

    def test_too_few_words(self):
        """Then it says how it is used."""
        for name, lines in {"loop": 3, "new": 5, "census": 2}.items():
            told = self.told(name)
            self.assertTrue(told.startswith(f"Usage: paklour-{name} "), told)
            self.assertEqual(len(told.splitlines()), lines)
        self.assertEqual(self.told("loop", "a", "b"), self.told("loop"))
        self.assertEqual(self.told("census", "--hits"), self.told("census"))

    def test_a_command_that_the_path_leads_to(self):
        path = f"{OUTSIDE}/out/bin:{self.environment['PATH']}"
        done = subprocess.run(["paklour-loop", "--deph"], env=self.environment | {"PATH": path}, capture_output=True, text=True, check=False)
        self.assertEqual(done.stderr, "loop: --deph: there is no such option (paklour-loop --help lists the options)\n")


class Signals(Campaigns):
    def test_what_is_kept(self):
        """It is stopped after the first answers, and after more of them, and the same command goes on."""
        answers = self.here / "into" / "answers"
        words = ("-j", 1, "--depth", 2, "--into", self.here / "into", NOTE)
        for number in (signal.SIGINT, signal.SIGTERM, signal.SIGHUP):
            before = len(self.answers(self.here / "into")) if answers.exists() else 0
            with self.start(*words, FLAW="rename_first") as process:
                while not (answers.exists() and answers.read_text().count("\n") >= before + 3):
                    time.sleep(0.01)
                process.send_signal(number)
                _, told = process.communicate()
            kept = self.answers(self.here / "into")
            failing = sum(line.startswith("fail") for line in kept)
            self.assertEqual(process.returncode, 128 + number)
            self.assertTrue(told.endswith(f"loop: stopped by {number.name}: {len(kept)} answers are kept in {answers}, of which {failing} fail; "
                "the same command goes on from there\n"), told)
        self.assertEqual(self.loop(*words, FLAW="rename_first").status, 1)


if __name__ == "__main__":
    unittest.main()
