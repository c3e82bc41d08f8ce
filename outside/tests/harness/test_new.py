"""What `new` writes runs as it is."""

import contextlib
import os
import pty
import shutil
import subprocess
import unittest

from .base import OUTSIDE, Campaigns

UNSAFE = "#!/bin/sh\necho new > note\n"
SAFE = "#!/bin/sh\necho new > new && sync new && mv new note && sync .\n"
SERVER = """#!/bin/sh
[ -e state ] && ! grep -qx whole state && {{ echo broken; exit 1; }}
{write}
echo ready
sleep 30
"""
DELIVERS = "#!/bin/sh\nmkdir -p tmp new && cat > tmp/1 && {syncs} mv tmp/1 new/1 && sync new . \n"


class New(Campaigns):
    def made(self, text, *options):
        """The harness of such a program, and its campaign."""
        program = self.here / "program"
        program.write_text(text)
        program.chmod(0o755)
        made = subprocess.run([OUTSIDE / "new", *options, self.here / "made", program], capture_output=True, text=True, check=True)
        self.assertEqual(made.stdout, f"{OUTSIDE}/loop {self.here}/made\n")
        return self.loop("-j", 2, "--seconds", 10, self.here / "made")

    def made_anew(self, text):
        """The campaign of the same harness, whose program is another one now."""
        (self.here / "program").write_text(text)
        return self.loop("-j", 2, "--seconds", 10, self.here / "made")

    def test_a_command(self):
        done = self.made(SAFE)
        self.assertEqual(done.status, 0, done.told)

    def test_a_command_that_syncs_nothing(self):
        done = self.made(UNSAFE)
        self.assertEqual(done.status, 1)
        self.assertIn("fail lost: without any fault\n", done.told)
        self.assertIn("pending: 1 create note\n", done.told)

    def test_a_server(self):
        done = self.made(SERVER.format(write="echo whole > new && sync new && mv new state && sync ."), "--server", "ready")
        self.assertEqual(done.status, 0, done.told)

    def test_a_server_that_does_not_start_again(self):
        done = self.made(SERVER.format(write=": > state && sync state . && echo whole > state"), "--server", "ready")
        self.assertEqual(done.status, 1)
        self.assertIn("fail unopenable: ", done.told)

    def test_a_server_that_says_another_word(self):
        """It isn't ready when it says `already`, and what it says then is shown."""
        done = self.made(SERVER.format(write="[ ! -e state ] || { echo already here; exit 1; }; echo whole > new && sync new && mv new state && sync ."), "--server", "ready")
        self.assertEqual(done.status, 1)
        self.assertIn("fail unopenable: ", done.told)
        done = self.loop("--try", "none", self.here / "made")
        self.assertEqual(done.told, "the server ended with 1\nalready here\n")

    def taken(self, says):
        """How the harness of a server that prints these words looks for the line `ready`, and what `new` says of it."""
        program = self.here / "program"
        program.write_text(SERVER.format(write="echo whole > new && sync new && mv new state && sync .").replace("echo ready\n", says))
        program.chmod(0o755)
        made = subprocess.run([OUTSIDE / "new", "--server", "ready", self.here / "made", program], capture_output=True, text=True, check=True)
        scripts = [(self.here / "made" / name).read_text() for name in ("run", "judge")]
        shutil.rmtree(self.here / "made")
        grep = {line.partition("! grep -sq ")[2].partition(' "$TMPDIR')[0] for script in scripts for line in script.splitlines() if "grep -sq" in line}
        return grep, [line for line in made.stderr.splitlines() if " as a whole" in line]

    def test_which_line_says_that_a_server_is_ready(self):
        """The one that is found by the strictest of three ways, and no other that is found by it alone."""
        no_line = "new: no line is ready as a whole, so the server is ready at the first line that"
        self.assertEqual(self.taken("echo not ready yet\nsleep 0.5\necho ready\n"), ({"-xF -e ready"}, []))
        self.assertEqual(self.taken("echo ready soon\nsleep 0.5\necho 12:01 ready\n"), ({"-w -e 'ready$'"}, [f"{no_line} ends with it: 12:01 ready"]))
        self.assertEqual(self.taken("echo already\nsleep 0.5\necho 1 ready, on 8080\n"), ({"-wF -e ready"}, [f"{no_line} has its words: 1 ready, on 8080"]))

    def test_a_server_that_is_not_ready_yet(self):
        """It says so before it has opened its store, which it never does."""
        told = self.failed("#!/bin/sh\ncat state\necho not ready yet\nsleep 1\nexit 3\n", "--server", "ready")
        self.assertTrue(told.startswith("the server ended with 3\ncat: state: No such file or directory\nnot ready yet\nnew: "), told)

    def again(self, made):
        """Makes anew what the judge expects."""
        return subprocess.run([OUTSIDE / "new", "--expect", made], capture_output=True, text=True, check=False)

    def test_a_file_that_was_there_before(self):
        """It has its old or its new contents, never others: the judge that `new` writes convicts a rename before the sync."""
        for text, status in ((SAFE, 0), ("#!/bin/sh\necho new > new && mv new note && sync note && sync .\n", 1)):
            self.assertEqual(self.made(text).status, 0)
            made = self.here / "made"
            (made / "prepare").write_text("#!/bin/sh\necho old > note\n")
            again = self.again(made)
            self.assertEqual((again.returncode, again.stdout, again.stderr), (0, f"{OUTSIDE}/loop {made}\n", ""))
            (made / "answers").unlink()
            done = self.loop("-j", 2, made)
            self.assertEqual(done.status, status, done.told)
            if status:
                self.assertIn("\nfail torn: the 1st sys::fsync (note) fails, the pending changes of names are kept\n", done.told)
                self.assertIn("note: it has neither its old nor its new contents\n", self.loop(made, "--try", "sys::fsync=1*return").told)
            shutil.rmtree(made)

    def begins_again(self, text, journaled=""):
        """The campaign of a harness that begins with what a run has left, and what `new` said."""
        program = self.here / "program"
        program.write_text(text)
        program.chmod(0o755)
        made = subprocess.run([OUTSIDE / "new", "--begins", "again", self.here / "again", program], capture_output=True, text=True, check=True)
        if journaled:
            (self.here / "again" / "journaled").write_text(journaled)
        done = self.loop("-j", 2, self.here / "again")
        shutil.rmtree(self.here / "again")
        return done, made.stderr

    def test_what_a_run_before_left(self):
        """Old data can be lost only if there are some. With an empty folder a rename before the sync passes."""
        renames_first = "#!/bin/sh\necho new > new && mv new note && sync note && sync .\n"
        done = self.made(renames_first)
        began = "\nloop: each run began with an empty folder, so nothing that was there before could be lost: "
        self.assertEqual((done.status, began in done.told), (0, True), done.told)
        done, _ = self.begins_again(renames_first)
        self.assertEqual((done.status, "\nfail torn: the 1st sys::fsync (note) fails, the pending changes of names are kept\n" in done.told), (1, True), done.told)
        done, told = self.begins_again(SAFE)
        self.assertEqual((done.status, "in place" in told, "empty folder" in done.told), (0, False, False), done.told)

    def test_a_file_that_is_appended_to(self):
        """It begins with its old contents at each moment, and needs no more until `done` is printed."""
        appends = "#!/bin/sh\necho one >> log && sync log && echo two >> log && sync log .\n"
        done, told = self.begins_again(appends)
        self.assertEqual((done.status, "in place" in told), (0, False), done.told)
        done, told = self.begins_again("#!/bin/sh\n[ -e log ] || : > log\nold=$(cat log; echo one)\necho \"$old\" > log && sync log .\n")
        self.assertEqual((done.status, "fail torn: " in done.told), (1, True), done.told)

    def test_a_file_that_is_written_over(self):
        """`new` names it, since the judge can't know whether a journal has what is missing meanwhile. A person may say that one has."""
        writes = "#!/bin/sh\nset -e\ndate +%s%N > time\nif [ -e store ]; then echo two > store; else echo one > store; fi\nsync store time .\n"
        done, told = self.begins_again(writes)
        self.assertEqual((done.status, "fail torn: " in done.told), (1, True), done.told)
        self.assertIn(" only the old contents or the new ones of what is written over in place: store, time. If a journal ", told)
        done, _ = self.begins_again(writes, "store\n")
        self.assertEqual(done.status, 0, done.told)

    def test_a_server_that_begins_again(self):
        """With nothing there it may be killed before its state is whole. With a whole one it only adds to its log."""
        server = SERVER.format(write="[ -e state ] || { : > state; echo whole > state; sync state .; }; echo started >> log; sync log .")
        self.assertEqual(self.made(server, "--server", "ready").status, 1)
        shutil.rmtree(self.here / "made")
        done = self.made(server, "--begins", "again", "--server", "ready")
        self.assertEqual((done.status, sorted(os.listdir(self.here / "made" / "left"))), (0, ["log", "state"]), done.told)

    def test_threads_that_left_something_before(self):
        """What a run began with is the same in the campaign as in the first runs."""
        appends = "#!/bin/sh\nfor word in one two three four; do echo $word >> log & done\nwait; sync log .\n"
        done, _ = self.begins_again(appends)
        self.assertNotIn("without any fault", done.told)

    def test_a_command_that_does_not_run_twice(self):
        told = self.failed("#!/bin/sh\nmkdir one && sync .\n", "--begins", "again")
        made = self.here / "made"
        self.assertRegex(told, rf"\Amkdir: .*one.*: File exists\nnew: {made}/run ended with 1 on what a run before it has left\. If the command can't be run "
            rf"twice, delete {made}\n\Z")

    def test_a_file_that_is_removed(self):
        """Once that is promised, it doesn't come back."""
        self.made("#!/bin/sh\nrm -f note\n")
        made = self.here / "made"
        (made / "prepare").write_text("#!/bin/sh\necho old > note\n")
        self.assertEqual(self.again(made).returncode, 0)
        (made / "answers").unlink()
        done = self.loop("-j", 2, made)
        self.assertEqual((done.status, "\njudge: note: it is as it was before\n" in done.told), (1, True), done.told)

    def test_contents_that_differ_in_each_run(self):
        """They count by their names alone."""
        program = "#!/bin/sh\ndate +%s%N > 'a time' && echo same > note && echo $$ > \"$$.log\" && sync note 'a time' . && rm -f *.log\n"
        done = self.made(program)
        self.assertEqual((done.status, (self.here / "made" / "unjudged").read_text()), (0, "a?time\n"), done.told)

    def test_names_that_differ_in_each_run(self):
        """The judge doesn't look for them."""
        self.made('#!/bin/sh\necho same > note && : > "$(date +%s).log" && sync note .\n')
        self.assertEqual(os.listdir(self.here / "made" / "expected"), ["note"])

    def test_threads_go_in_the_order_of_a_campaign(self):
        """The shell was started first, so its line comes first there, though by itself its child's does. Contents that only the order decides are
        judged."""
        program = "#!/bin/sh\nfor word in child shell; do {turn}; done\nwait; sync log .\n".format(
            turn='if [ $word = child ]; then echo child >> log & else i=0; while [ $i -lt 30000 ]; do i=$((i+1)); done; echo shell >> log; fi')
        done = self.made(program)
        self.assertNotIn("without any fault", done.told)
        self.assertEqual(((self.here / "made" / "expected" / "log").read_text(), (self.here / "made" / "unjudged").exists()), ("shell\nchild\n", False))

    def test_random_contents_are_those_of_a_campaign(self):
        """They are the same in each run there, so the judge looks into them."""
        done = self.made("#!/bin/sh\nhead -c 16 /dev/urandom > new && sync new && mv new note && sync .\n")
        self.assertEqual((done.status, (self.here / "made" / "unjudged").exists()), (0, False), done.told)

    def answers(self, typed, *options):
        """What `new` asks on a terminal, and the harness that it writes after these answers."""
        person, terminal = pty.openpty()
        os.write(person, typed.encode())
        words = [OUTSIDE / "new", *options, self.here / "made", "touch", "note"]
        with subprocess.Popen(words, stdin=terminal, stdout=subprocess.DEVNULL, stderr=terminal) as process:
            os.close(terminal)
            told = b""
            with contextlib.suppress(OSError):  # as the end of a terminal is told
                while read := os.read(person, 65536):
                    told += read
        os.close(person)
        self.assertEqual(process.returncode, 0, told)
        return told.decode()

    def test_what_a_person_is_asked(self):
        """An answer that is none of those is asked for again, and an empty one is the default."""
        told = self.answers("never\nkill\nposix\n\nagain\n")
        asked = ("sync or kill [sync]", "linux or ext4 or xfs or btrfs or posix [linux]", "no or yes [no]", "empty or again [empty]")
        self.assertEqual([told.count(question) for question in asked], [2, 1, 1, 1])
        self.assertEqual(os.listdir(self.here / "made" / "left"), ["note"])
        said = (self.here / "made" / "harness.py").read_text()
        self.assertTrue("\nenvironment = {\"FAULTS_SYNC\": \"posix\"}" in said and said.startswith('states = ["live"]'), said)
        self.assertFalse((self.here / "made" / "allowed").exists())

    def test_what_options_answer_is_not_asked(self):
        told = self.answers("yes\n", "--promises", "sync", "--file-system", "linux", "--begins", "empty")
        self.assertNotIn("sync or kill", told)
        self.assertEqual((self.here / "made" / "allowed").read_text(), "crashed\n")
        self.assertFalse((self.here / "made" / "harness.py").exists())

    def test_a_program_that_promises_no_sync(self):
        done = self.made(UNSAFE, "--promises", "kill")
        self.assertEqual(done.status, 0, done.told)
        self.assertNotIn("power::", (self.here / "made" / "settings.toml").read_text())

    def test_answers_that_mean_nothing(self):
        for words, told in {("--promises", "x"): "--promises x: the values are sync, kill", ("--file-system",): "--file-system: its value is missing",
                ("--every",): "--every: there is no such option"}.items():
            made = subprocess.run([OUTSIDE / "new", *words], capture_output=True, text=True, check=False)
            self.assertEqual((made.returncode, made.stderr), (2, f"new: {told} ({OUTSIDE}/new --help lists the options)\n"))
        (self.here / "made").mkdir()
        made = self.again(self.here / "made")
        self.assertEqual((made.returncode, made.stderr), (1, f"new: {self.here}/made/judge doesn't look at `expected`: --expect is for a harness that "
            "paklour-new wrote for a command\n"))

    def failed(self, text, *options):
        """What `new` says of a program that fails in an empty folder. The harness stays, for its `prepare` to be written."""
        program = self.here / "program"
        program.write_text(text)
        program.chmod(0o755)
        made = subprocess.run([OUTSIDE / "new", *options, self.here / "made", program], capture_output=True, text=True, check=False)
        self.assertEqual((made.returncode, made.stdout), (1, ""))
        self.assertTrue((self.here / "made" / "prepare").exists())
        return made.stderr

    def test_a_command_that_fails(self):
        made = self.here / "made"
        told = self.failed("#!/bin/sh\ncat input && echo new > note && sync note .\n")
        self.assertEqual(told, f"cat: input: No such file or directory\nnew: {made}/run ended with 1. If it needs files, let {made}/prepare make them, and then call paklour-new --expect {made}. If the command was wrong, delete {made}\n")
        (made / "prepare").write_text("#!/bin/sh\necho word > input\n")
        self.assertEqual(self.again(made).returncode, 0)
        self.assertEqual(sorted(os.listdir(made / "expected")), ["input", "note"])
        self.assertEqual(self.loop("-j", 2, "--no-kinds", made).status, 0)

    def made_here(self, *words):
        """What `new` says of a command that is typed in the folder of the program."""
        return subprocess.run([OUTSIDE / "new", "made", *words], cwd=self.here, capture_output=True, text=True, check=False)

    def test_a_command_that_names_a_file_here(self):
        """It is run elsewhere, where that file isn't."""
        (self.here / "save.sh").write_text(SAFE)
        made = self.made_here("sh", "save.sh")
        self.assertEqual(made.returncode, 1, made.stderr)
        self.assertIn(". The command is run in the folder of its data: name save.sh by its path, such as ./save.sh\n", made.stderr)

    def test_a_script_that_another_program_runs(self):
        """Named by its path, it is found from the harness, and answers belong to it."""
        (self.here / "save.sh").write_text(SAFE)
        for word in ("./save.sh", str(self.here / "save.sh")):
            self.assertEqual(self.made_here("sh", word, "/dev/null").returncode, 0)
            made = self.here / "made"
            self.assertIn('\nsh "$HARNESS"/../save.sh /dev/null || exit\n', (made / "run").read_text())
            self.assertEqual(os.readlink(made / "save.sh"), "../save.sh")
            shutil.rmtree(made)

    def test_a_command_that_stores_elsewhere(self):
        """A campaign of it would try nothing."""
        told = self.failed(f"#!/bin/sh\necho not here >&2\necho new > {self.here}/elsewhere\n")
        self.assertTrue(told.startswith(f"not here\nnew: {self.here}/made/run made no call on files in the folder in which it starts. If it needs "), told)

    def test_a_delivery_that_fails(self):
        told = self.failed("#!/bin/sh\ncat > spool\nexit 75\n", "--mail")
        self.assertTrue(told.startswith(f"new: {self.here}/made/run ended with 75. "), told)

    def test_a_server_that_fails(self):
        told = self.failed("#!/bin/sh\ncat socket\necho not so\necho no socket >&2\nexit 3\n", "--server", "ready")
        self.assertTrue(told.startswith(f"the server ended with 3\ncat: socket: No such file or directory\nnot so\nno socket\nnew: {self.here}/made/run "
            "ended with 1. "), told)

    def test_a_server_that_is_not_ready_in_time(self):
        """Ended by its time, `run` shows what the server said."""
        self.made(SERVER.format(write=": > state"), "--server", "ready")
        run = self.here / "made" / "run"
        run.write_text(run.read_text().replace(" ready ", " other "))
        done = subprocess.run([OUTSIDE / "out" / "within", "1", "-", run], cwd=self.here, env=self.environment | {"HARNESS": self.here / "made"},
            capture_output=True, text=True, check=False)
        self.assertEqual(done.returncode, 124, done.stderr)
        self.assertIn("ready", done.stderr.splitlines())

    def test_a_harness_that_can_not_be_written(self):
        """Nothing of it stays."""
        made = subprocess.run(["prlimit", "--fsize=100", OUTSIDE / "new", self.here / "made", "true"], capture_output=True, text=True, check=False)
        self.assertEqual((made.returncode, made.stderr), (4, f"new: {self.here}/made/prepare: File too large\n"))
        self.assertFalse((self.here / "made").exists())

    def test_a_delivery(self):
        done = self.made(DELIVERS.format(syncs="sync tmp/1 &&"), "--mail")
        self.assertEqual(done.status, 0, done.told)

    def test_a_delivery_that_is_not_synced(self):
        done = self.made(DELIVERS.format(syncs=""), "--mail")
        self.assertEqual(done.status, 1)
        self.assertRegex(done.told, "fail (lost|torn): ")

    def test_a_session(self):
        """A file for each key, the name of which is never synced. The guesses for its operations and its look are right here."""
        done = self.made('#!/bin/sh\ncase $1 in put) echo "$3" > "$2" && sync "$2" ;; list) grep -H . * || : ;; esac\n', "--session")
        self.assertEqual(done.status, 0, done.told)
        done = self.made_anew('#!/bin/sh\ncase $1 in put) echo "$3" > "$2" ;; list) grep -H . * || : ;; esac\n')
        self.assertEqual(done.status, 1)
        self.assertIn("1 failure: lost: put a 1: without any fault\n  expected one of: a:1\n  found: nothing\n", done.told)

    def test_a_session_begins_with_nothing(self):
        made = subprocess.run([OUTSIDE / "new", "--session", "--begins", "again", self.here / "made", "true"], capture_output=True, text=True, check=False)
        self.assertEqual((made.returncode, made.stderr), (2, "new: --begins again: with --session what was there before comes from earlier operations "
            f"({OUTSIDE}/new --help lists the options)\n"))

    def test_a_program_that_is_changed(self):
        """It is linked into the harness, so its old answers say nothing."""
        self.assertEqual(self.made(SAFE).status, 0)
        self.assertEqual(os.readlink(self.here / "made" / "program"), "../program")
        (self.here / "program").write_text(SAFE + "# changed\n")
        done = self.loop(self.here / "made")
        self.assertEqual(done.status, 0)
        self.assertIn(f"loop: {self.here}/made/answers belongs to a harness with another program, so it is now {self.here}/made/answers.1, ", done.told)

    def test_a_harness_that_is_copied(self):
        """With its program it runs the copy, and without it says that the program is missing."""
        self.assertEqual(self.made(SAFE).status, 0)
        copied = self.here / "with a blank"
        copied.mkdir()
        shutil.copytree(self.here / "made", copied / "made", symlinks=True)
        (copied / "made" / "answers").unlink()
        (copied / "program").write_text(UNSAFE)
        (copied / "program").chmod(0o755)
        self.assertIn("fail lost: without any fault\n", self.loop(copied / "made").told)
        (copied / "program").unlink()
        done = self.loop(copied / "made")
        self.assertEqual(done.status, 2, done.told)
        self.assertRegex(done.told, rf"unresolved: run made no call on its data: .*{copied}/made/../program: not found: none\n")

    def test_a_script_that_reads_a_file_beside_it(self):
        (self.here / "beside").write_text("echo new > new && sync new && mv new note && sync .\n")
        done = self.made('#!/bin/sh\n. "$(dirname "$0")/beside"\n')
        self.assertEqual(done.status, 0, done.told)

    def test_a_program_that_is_not_linked(self):
        """Its name has a meaning in a harness, or it is found by the PATH."""
        again = self.here / "again"
        again.write_text(SAFE)
        again.chmod(0o755)
        for number, words in enumerate(([again], ["touch", "note"])):
            folder = self.here / f"made{number}"
            subprocess.run([OUTSIDE / "new", folder, *words], capture_output=True, check=True)
            self.assertEqual(sorted(os.listdir(folder)), ["expected", "judge", "prepare", "run"])

    def test_a_folder_that_is_there(self):
        made = subprocess.run([OUTSIDE / "new", self.here, "true"], capture_output=True, text=True, check=False)
        self.assertEqual((made.returncode, made.stderr), (1, f"new: {self.here} exists already: delete it, or give another name\n"))

    def test_a_program_that_is_not(self):
        made = subprocess.run([OUTSIDE / "new", self.here / "made", self.here / "none"], capture_output=True, text=True, check=False)
        self.assertEqual((made.returncode, made.stderr), (1, f"new: there is no such program: {self.here}/none\n"))
        self.assertFalse((self.here / "made").exists())


if __name__ == "__main__":
    unittest.main()
