"""Operations, and the judgement by looking: what is left has to look as after a run without faults of all that was acknowledged, and of the rest each or
not."""

import json
import re
import shutil
import unittest

from harness import definition
from harness.answers import Stopped
from harness.operations import WORK, Promises, asks_ahead, promises_of

from .base import OUTSIDE, SAVES, Campaigns

KEYS = OUTSIDE / "flaws" / "keys"
PREPARE = "#!/bin/sh\nprintf old > note\n"
LOOK = "#!/bin/sh\ncat note\n"
LINES = """#!/bin/sh
[ -e log ] || : > log
while read -r line; do
    {perform} && echo "$line"
done
exit 0
"""
STORES = LINES.format(perform='echo "$line" >> log && sync log && sync .')


def trace_of(*hits):
    """A trace whose hits are operations by their numbers, other calls, and the end of the input, which is 0."""
    return [[str(number), WORK, "", f"return({hit})" if hit else "go", "-", "", "an operation" if hit else "-"] if isinstance(hit, int)
        else [str(number), hit, "", "go", "log", "", "-"] for number, hit in enumerate(hits, 1)]


class WhatWasPromised(unittest.TestCase):
    """By what is said of a session: it prints a line for each operation that it has acknowledged."""

    def promised(self, hits, lengths, said, reads_ahead=False):
        marks = list(enumerate(lengths, 1))
        return promises_of(trace_of(*hits), marks, said, reads_ahead)

    def test_each_in_its_turn(self):
        promised = self.promised([3, "sys::write", 1, "sys::write", 0], [0, 0, 2, 2, 4], b"x\ny\n")
        self.assertEqual((promised.given, promised.acknowledged), ((3, 1), {0, 1}))

    def test_one_that_failed_is_not(self):
        promised = self.promised([3, "sys::write", 1, "sys::write", 0], [0, 0, 0, 0, 2], b"y\n")
        self.assertEqual((promised.given, promised.acknowledged), ((3, 1), {1}))

    def test_nor_one_that_was_under_way(self):
        promised = self.promised([3, "sys::write", 1, "sys::write"], [0, 0, 2, 2], b"x\n")
        self.assertEqual((promised.given, promised.acknowledged), ((3, 1), {0}))

    def test_what_was_printed_before_the_first_acknowledges_nothing(self):
        self.assertEqual(self.promised(["sys::open", 3, "sys::write"], [0, 6, 6], b"hello\n").acknowledged, frozenset())

    def test_some_that_are_acknowledged_together(self):
        promised = self.promised([1, "sys::write", 2, "sys::write", 3, "sys::fsync", 0], [0, 0, 0, 0, 0, 0, 6], b"x\ny\nz\n")
        self.assertEqual(promised.acknowledged, {0, 1, 2})

    def test_a_line_that_has_no_end_yet(self):
        self.assertEqual(self.promised([1, "sys::write"], [0, 0], b"x").acknowledged, frozenset())

    def test_what_may_be_done(self):
        promised = Promises(b"", (4, 1, 2), frozenset([1]))
        choices = list(promised.choices())
        self.assertEqual((set(choices[:4]), set(choices[4:])), ({(0, 1, 2), (0, 1), (1, 2), (1,)}, {(), (0,), (2,), (0, 2)}))
        self.assertEqual(promised.numbers((0, 1)), (4, 1))

    def test_of_one_that_reads_ahead_only_the_count_is_known(self):
        promised = self.promised([1, 2, 0, "sys::write", "sys::write"], [0, 0, 0, 0, 2], b"x\n", reads_ahead=True)
        self.assertEqual({done for done in promised.choices() if promised.allows(done)}, {(0, 1), (0,), (1,)})

    def test_of_a_long_workload(self):
        """Those that may be done, and then those in which it has only begun or lacks one."""
        promised = Promises(b"", tuple(range(1, 11)), frozenset(range(9)))
        choices = list(promised.choices())
        self.assertEqual(choices[:2], [tuple(range(10)), tuple(range(9))])
        self.assertEqual(choices[2:11], [tuple(range(size)) for size in range(8, -1, -1)])
        self.assertEqual(choices[11:], [tuple(other for other in range(10) if other != place) for place in range(9)])

    def test_too_many_choices(self):
        self.assertFalse(Promises(b"", tuple(range(20)), frozenset(range(12))).are_too_many)
        self.assertTrue(Promises(b"", tuple(range(20)), frozenset(range(11))).are_too_many)
        self.assertFalse(Promises(b"", tuple(range(20)), least=19).are_too_many)
        self.assertTrue(Promises(b"", tuple(range(64)), least=62).are_too_many)

    def test_who_reads_ahead(self):
        self.assertTrue(asks_ahead(trace_of(1, 0, "sys::write"), [(1, 0), (2, 0), (3, 0)]))
        self.assertFalse(asks_ahead(trace_of(1, "sys::write", 0), [(1, 0), (2, 0), (3, 0)]))
        self.assertFalse(asks_ahead(trace_of(1, 0), [(1, 0), (2, 2)]))


class OneCommand(Campaigns):
    """Without operations: it was done or it wasn't."""

    def first(self, run, look=LOOK, **more):
        folder = self.harness(prepare=PREPARE, run=run, look=look, **more)
        done = self.loop("-j", 1, "-x", folder)
        return done, [line for line in done.told.splitlines() if line.startswith(("fail ", "  expected", "  found", "expected", "found"))]

    def test_a_sound_one(self):
        done, told = self.first(SAVES)
        self.assertEqual((done.status, told), (0, []), done.told)

    def test_one_that_is_lost(self):
        done, told = self.first("#!/bin/sh\nprintf new > new && mv new note && echo saved\n")
        self.assertEqual((done.status, told), (1, ["fail lost: without any fault", "expected one of: new", "found: old"]), done.told)

    def test_one_that_is_torn(self):
        """The new name is on the disk, and its bytes aren't: there is neither what was nor what shall be."""
        done, told = self.first("#!/bin/sh\nprintf new > new && mv new note && sync note && sync . && echo saved\n")
        self.assertEqual((done.status, told[0][:9]), (1, "fail torn"), done.told)
        self.assertEqual(told[-2:], ["  expected one of: new | old", "  found: nothing"])

    def test_a_store_that_can_not_be_opened(self):
        done, told = self.first("#!/bin/sh\nprintf new > new && mv new note && sync note && sync . && echo saved\n", look="#!/bin/sh\n[ -s note ] && cat note\n")
        self.assertEqual((done.status, told[0][:15]), (1, "fail unopenable"), done.told)

    def test_a_judge_beside_it(self):
        """What either of them finds counts: here what the judge says of a name that nobody looks at."""
        done, told = self.first(SAVES, judge='#!/bin/sh\n[ ! -e new ] || { echo untidy; exit 1; }\n')
        self.assertEqual((done.status, told[0][:11]), (1, "fail untidy"), done.told)

    def test_a_judge_that_sees_nothing(self):
        done, told = self.first("#!/bin/sh\nprintf new > new && mv new note && echo saved\n", judge="#!/bin/sh\n")
        self.assertEqual((done.status, told[0]), (1, "fail lost: without any fault"), done.told)


class Refused(Campaigns):
    """Harnesses that can't be judged so, or that say too little."""

    def refused(self, line, **steps):
        done = self.loop("-j", 1, self.harness(**steps))
        self.assertEqual((done.status, [told for told in done.told.splitlines() if line in told][:1]), (2, [f"loop: {line}"]), done.told)
        return done

    def test_looks_that_differ(self):
        done = self.refused("`look` prints other lines in a second run without faults of nothing. Let it leave out what no run repeats, such as times:",
            session=STORES, operations="a\nb\n", look="#!/bin/sh\n[ ! -s log ] || cat log; echo now $(date +%s%N)\n")
        self.assertRegex(done.told, r"-now [0-9]+\n\+now [0-9]+\n")
        self.assertFalse((self.here / "harness" / "answers").read_text())

    def test_a_look_that_fails_where_nothing_is_yet(self):
        self.refused("`look` ended with 1 after `prepare`, and has to end with 0", run=SAVES, look=LOOK)

    def test_a_look_that_sees_nothing(self):
        self.refused("`look` prints the same before and after the run without faults: let it print what the store holds", session=STORES, operations="a\n",
            look="#!/bin/sh\n")

    def test_a_session_that_acknowledges_nothing(self):
        self.refused("`session` acknowledges nothing: let it print a line for what it has done, as soon as that is done", operations="a\n",
            session=STORES.replace("&& echo", "&& : echo"), look="#!/bin/sh\ncat log\n")

    def test_a_session_that_says_more(self):
        self.refused("a run without faults of a printed 2 lines: let `session` print one for each operation that it has acknowledged, and no other",
            session=STORES.replace("&& echo", "&& echo done && echo"), operations="a\n", look="#!/bin/sh\ncat log\n")

    def test_a_session_that_fails(self):
        self.refused("a run without faults of nothing: it ended with 3", session="#!/bin/sh\nread -r line; exit 3\n", operations="a\n", look="#!/bin/sh\n")

    def test_parts_that_lack(self):
        """Files are written or taken away one after the other, and this is said of what is there then."""
        both = "`session` needs `operations`, which lists what it may be asked to do, or `workload`, and each of these needs `session`"
        lacks = "is missing: a harness has a program of this name, or a file of Python that defines it"
        folder = self.harness(run=SAVES, look=LOOK)
        for name, text, line in (("operations", "a\n", both), ("session", STORES, "a harness has `run` or `session`, and not both"), ("run", None, ""),
                ("length", "9\n", "`length` must be a number from 1 to 8"), ("length", "two\n", "`length` must be a number from 1 to 8"), ("length", None, ""),
                ("workload", "a\n", "a harness has `operations` or `workload`, each once"), ("workload", None, ""),
                ("operations", "a\n\n", "operation 2 must be a line of up to 200 bytes that isn't empty"),
                ("operations", "\n".join(map(str, range(65))), "there are 65 operations, and there may be 1 to 64"),
                ("operations", None, both), ("operations", "a\n", ""), ("look", None, f"`look` {lacks}"), ("session", None, f"`session` {lacks}")):
            path = folder / name
            if text is None:
                path.unlink()
            else:
                path.write_text(text)
                path.chmod(0o755)
            if line:
                with self.assertRaisesRegex(Stopped, f": {re.escape(line)}$"):
                    definition.read(str(folder))

    def test_more_operations_than_a_campaign_may_choose_among(self):
        self.refused("a campaign chooses among up to 8 operations, and this harness has 9: let another one have the rest", session=STORES, look=LOOK,
            operations="".join(f"{number}\n" for number in range(9)))


class Sessions(Campaigns):
    """A store that forgets to sync the name of its new log, and others."""

    def campaign(self, folder, *options, **variables):
        done = self.loop("-j", 2, *options, "--into", self.here / "into", folder, **variables)
        return done, sorted(line for line in done.told.splitlines() if line.startswith("fail "))

    def test_a_compaction_that_loses_what_comes_later(self):
        """With nothing written but `look`: whatever the disk keeps of the rename, what was put behind it is lost with the new log."""
        done, fails = self.campaign(KEYS, FLAW="no_folder_sync")
        self.assertEqual((done.status, fails), (1, ["fail lost: compact, put a 1: without any fault", "fail lost: compact, put b 2: without any fault"]), done.told)
        self.assertIn("1 failure: lost: compact, put a 1: without any fault\n  expected one of: a 1\n  found: nothing\n  perhaps a folder", done.told)
        derived = self.answers(self.here / "into")
        every, _ = self.campaign(KEYS, "--every-run", FLAW="no_folder_sync")
        self.assertEqual(sorted(self.answers(self.here / "into")), sorted(derived), every.told)
        shown = self.loop(KEYS, "--into", self.here / "into", "--try", "work::next=1*return(4)->1*return(1)", FLAW="no_folder_sync")
        self.assertEqual(shown.out.splitlines()[-3:], ["fail lost: compact, put a 1: without any fault", "expected one of: a 1", "found: nothing"])
        self.assertIn("    6 work::next 1 (compact) 8 [return(4)]", shown.out.splitlines())

    def test_one_operation_does_not_show_it(self):
        done, fails = self.campaign(KEYS, "--depth", 1, FLAW="no_folder_sync")
        self.assertEqual((done.status, fails), (0, []), done.told)

    def test_a_sound_one(self):
        done, fails = self.campaign(KEYS, "--depth", 3)
        self.assertEqual((done.status, fails), (0, []), done.told)

    def test_what_the_page_and_junit_tell(self):
        self.campaign(KEYS, "--junit", FLAW="no_folder_sync")
        page = (self.here / "into" / "page.html").read_text()
        told = json.loads(page.partition('id="told-by-the-loop">')[2].partition("</script>")[0])
        story = told["stories"][0]
        self.assertEqual(story["words"], "fail lost: compact, put a 1: without any fault")
        self.assertEqual(story["judge"], ["expected one of: a 1", "found: nothing"])
        self.assertEqual(story["promised"], ["compact", "put a 1"])
        self.assertEqual([what for what in story["hits"] if what in ("compact", "put a 1")], ["compact", "put a 1"])
        self.assertIn("judge: found: nothing\n", (self.here / "into" / "junit.xml").read_text())

    def test_answers_belong_to_operations(self):
        folder = self.harness(session=STORES, operations="a\nb\n", look="#!/bin/sh\n[ ! -e log ] || cat log\n", length="1\n")
        done = self.loop("-j", 2, folder)
        self.assertEqual(done.status, 0, done.told)
        (folder / "operations").write_text("a\nc\n")
        done = self.loop("-j", 2, folder)
        self.assertIn("belongs to a harness with another operations, so it is now", done.told)

    def test_who_reads_all_first(self):
        """Of its two operations one was acknowledged, and nobody knows which: so either may be there. That neither is there is lost."""
        reads = "import os\nimport sys\n\nfor line in sys.stdin.read().splitlines():\n    with open('log', 'a') as log:\n        log.write(line + '\\n')\n        log.flush()\n" \
            "        os.fsync(log.fileno())\n    print(line, flush=True)\n"
        session = f"#!/bin/sh\n: >> log && sync log && sync . && exec python3 -S -c \"{reads}\"\n"
        folder = self.harness(session=session, operations="a\n", look="#!/bin/sh\n[ ! -e log ] || cat log\n", length="2\n")
        done, fails = self.campaign(folder, "--no-kinds")
        self.assertIn("loop: the session asks for its next operation before it does the one that it has, so", done.told)
        self.assertEqual((done.status, fails), (0, []), done.told)

    def test_a_file_of_python(self):
        """Operations, and functions in place of programs."""
        file = self.here / "store.py"
        file.write_text("import os\nimport sys\n\noperations = ['a', 'b']\nlength = 2\n\n\ndef session():\n    for line in sys.stdin:\n"
            "        with open('log', 'a') as log:\n            log.write(line)\n        print(line.strip())\n\n\ndef look():\n    if os.path.exists('log'):\n"
            "        print(open('log').read(), end='')\n")
        done, fails = self.campaign(file)
        self.assertEqual(done.status, 1, done.told)
        self.assertIn("fail lost: a: without any fault", fails)

    def test_a_store_that_can_not_be_opened_before_anything_is_asked(self):
        """The session makes its log at once, and a power cut loses it."""
        done, fails = self.campaign(self.harness(session=STORES, operations="a\n", look="#!/bin/sh\ncat log\n"))
        self.assertEqual((done.status, fails), (1, ["fail unopenable: without any fault"]), done.told)
        self.assertIn("judge: cat: log: No such file or directory\n", done.told)

    def test_a_snapshot_that_can_not_be_opened(self):
        """The sound log doesn't take it for none: what it has would be missing in the next one."""
        log = f'"{OUTSIDE}/out/log" sound'
        session = f'#!/bin/sh\nwhile read -r operation; do {log} $operation < /dev/null || break; done\nexit 0\n'
        folder = self.harness(session=session, look=f'#!/bin/sh\n{log} list > "$TMPDIR/listed" && sort -u "$TMPDIR/listed"\n',
            workload="add first-record sync\nsnapshot\nsnapshot\n")
        done, fails = self.campaign(folder, "--no-kinds")
        self.assertEqual((done.status, fails), (0, []), done.told)

    def test_a_workload(self):
        """A list that is done as it stands, so that only faults count."""
        folder = self.harness(session=f'#!/bin/sh\nexec "{OUTSIDE}/out/keys" "${{FLAW:-sound}}" session\n', look=f'#!/bin/sh\nexec "{OUTSIDE}/out/keys" sound list\n',
            workload="put a 1\nput b 2\ncompact\ndel a\nput c 3\n")
        done, fails = self.campaign(folder)
        self.assertEqual((done.status, fails), (0, []), done.told)
        self.assertIn('"work::next" = ["panic"]', (self.here / "into" / "settings.toml").read_text())
        shutil.rmtree(self.here / "into")
        done, fails = self.campaign(folder, FLAW="no_folder_sync")
        self.assertEqual((done.status, fails), (1, ["fail lost: put a 1, put b 2, compact, del a, put c 3: without any fault"]), done.told)
        self.assertIn("expected one of: b 2; c 3\nfound: a 1; b 2\n", done.told)

    def test_a_workload_whose_operations_are_synced_by_the_next(self):
        """Each is lost if the run ends when it asks for the next one."""
        session = '#!/bin/sh\n: >> log && sync log .\nwhile read -r line; do\n    sync log\n    echo "$line" >> log\n    echo "$line"\ndone\nsync log\n'
        folder = self.harness(session=session, look="#!/bin/sh\n[ ! -e log ] || cat log\n", workload="a\nb\nc\n")
        done, fails = self.campaign(folder)
        for line in ("fail lost: a: the run ends before b", "fail lost: a, b: the run ends before c"):
            self.assertIn(line, fails, done.told)
        self.assertNotIn("without any fault", done.told)
