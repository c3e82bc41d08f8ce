import assert from "node:assert/strict";
import { test } from "node:test";
import { KEEP, NEXT, WORK, clausesOf } from "../scenario.js";
import { answerWords, callsOf, counted, listed, ordinal, quoted, shown, wordsOfClauses, wordsOfKind, wordsOfScenario } from "../words.js";

const call = callsOf(["libc::write", "libc::fsync", "libc::write@a.db", "one::send", "two::send", "sys::send", "sys::fsync@note.new", "sys::fsync@.", KEEP, NEXT, WORK]);

test("a point is called by its last part where that says which", () => {
  assert.equal(call("libc::fsync"), "fsync");
  assert.equal(call("libc::write@a.db"), "write of a.db");
  assert.equal(call("sys::fsync@note.new"), "fsync of note.new");
  assert.equal(call("sys::fsync@."), "fsync of the data folder");
  assert.deepEqual([KEEP, NEXT].map(call), ["change asked for", "choice between threads"]);
  assert.equal(call("one::send"), "one::send");
  assert.equal(call("elsewhere"), "elsewhere");
});

const SENTENCES = {
  none: "no fault",
  "libc::fsync=1*off->1*return": "the 2nd fsync fails",
  "libc::fsync=1*off->1*panic": "the program ends at the 2nd fsync",
  [`libc::fsync=1*return;${KEEP}=2*off->1*return`]: "the 1st fsync fails; the power cut keeps the 3rd change asked for",
  [`${KEEP}=1*return->1*off->1*return;libc::fsync=panic`]:
    "the program ends at each fsync; the power cut keeps the 1st change asked for and the 3rd change asked for",
  [`${KEEP}=return`]: "the power cut keeps each change asked for",
  [`${KEEP}=1*off->return`]: "the power cut keeps each change asked for from the 2nd on",
  [`${KEEP}=2*return`]: "the power cut keeps each change asked for from the 1st to the 2nd",
  [`${KEEP}=1*return(HALF)`]: "the power cut keeps the 1st change asked for",
  [`${KEEP}=1*panic`]: "the 1st change asked for is lost all the same",
  [`${KEEP}=50%return`]: "each change asked for is kept by chance, in 50 of 100",
  [`${NEXT}=1*off->1*return`]: "at the 2nd choice between threads the next one goes first",
  [`${NEXT}=1*panic`]: "the program ends at the 1st choice between threads",
  "sys::fsync@note.new=1*off->1*return": "the 2nd fsync of note.new fails",
  "libc::fsync=2*off->return": "each fsync from the 3rd on fails",
  "libc::write=1*return(ENOSPC)": "the 1st write fails with ENOSPC",
  "libc::write=1*off->1*return(HALF)": "the 2nd write does its first half alone",
  "one::send=1*return(HALF)": "the 1st one::send fails with the text \u201cHALF\u201d",
  "sys::send=1*return(DROP)": "the 1st sys::send answers that all is done, and does nothing",
  "one::send=1*return(DROP)": "the 1st one::send fails with the text \u201cDROP\u201d",
  "sys::fsync@note.new=1*return(KILL)": "the 1st fsync of note.new kills its process",
  "sys::fsync@note.new=1*return(TERM)": "the 1st fsync of note.new sends SIGTERM to its process",
  "libc::write=1*return(FULL)": "the 1st write finds a disk that is full until room is given back",
  "one::send=1*return(KILL)": "the 1st one::send fails with the text \u201cKILL\u201d",
  [`${WORK}=1*return(4)->1*return(2)`]: "at the 1st request for an operation operation 4 is given; at the 2nd request for an operation operation 2 is given",
  "two::send=1*return(no)": "the 1st two::send fails with the text \u201cno\u201d",
  "libc::write=3*return": "each write from the 1st to the 3rd fails",
  "libc::fsync=20%return": "each fsync fails by chance, in 20 of 100",
  "libc::fsync=20%2*return->10%panic": "what each fsync answers is drawn by 20%2*return->10%panic",
  "libc::fsync=2*off->1*pause": "the run is ended at the 3rd fsync",
  "libc::fsync=1*delay(7)": "the 1st fsync takes 7 ms more",
  "libc::fsync=1*print(x)": "a note is taken at the 1st fsync",
  "not a scenario": "a scenario that this page can't put in words",
};

test("a scenario in words", () => {
  for (const [scenario, words] of Object.entries(SENTENCES)) assert.equal(wordsOfScenario(scenario, call), words, scenario);
});

test("of two power cuts each says what it keeps, where the order of time is known", () => {
  const words = (...texts) => wordsOfClauses(texts.flatMap(clausesOf), call, true);
  const [first, second, third] = [`${KEEP}=1*return`, `${KEEP}=1*off->1*return`, `${KEEP}=2*off->1*return`];
  assert.equal(words(first, second, "libc::fsync=1*return", third),
    "the power cut keeps the 1st change asked for and the 2nd change asked for; the 1st fsync fails; the power cut keeps the 3rd change asked for");
});

test("an answer in words", () => {
  const told = [
    ["libc::fsync", "return", "fails"], ["libc::write", "return(ENOSPC)", "fails with ENOSPC"], ["libc::write", "return(HALF)", "does its first half alone"],
    ["libc::write", "panic", "the program ends here"], ["libc::write", null, null], ["libc::write", "print(x)", "print(x)"],
    ["one::send", "return(<b>)", "fails with the text \u201c<b>\u201d"], [KEEP, "return", "is kept"], [KEEP, null, "isn\u2019t kept"],
    [KEEP, "panic", "isn\u2019t kept"], [NEXT, "return", "the next one goes first"],
    [NEXT, null, null]];
  for (const [point, answer, words] of told) assert.equal(answerWords(point, answer, ""), words, `${point} ${answer}`);
  const asked = [["2 rename new -> note, and all before it", "kept"], ["0 create log, undone", "undone"], ["0 rename a -> b, of it b undone", "undone"]];
  for (const [about, word] of asked) {
    assert.equal(answerWords(KEEP, "return", about), `is ${word}`);
    assert.equal(answerWords(KEEP, null, about), `isn\u2019t ${word}`);
  }
});

test("numbers and lists in words", () => {
  assert.deepEqual([1, 2, 3, 4, 11, 12, 13].map(ordinal), ["1st", "2nd", "3rd", "4th", "11th", "12th", "13th"]);
  assert.deepEqual([21, 102, 111, 1003].map(ordinal), ["21st", "102nd", "111th", "1\u202f003rd"]);
  assert.equal(counted(65536, "plan"), "65\u202f536 plans");
  assert.equal(counted(1, "plan"), "1 plan");
  assert.equal(listed(["a", "b", "c"]), "a, b and c");
  const kinds = (point, ...texts) => texts.map((kind) => wordsOfKind(point, kind));
  assert.deepEqual(kinds("libc::write", "return(ENOSPC)", "return(HALF)", "return", "panic"),
    ["a full disk (ENOSPC)", "its first half alone", "a failure", "the end of the program"]);
  assert.deepEqual([...kinds("sys::write", "return(KILL)", "return(TERM)", "return(FULL)"), ...kinds(WORK, "return(2)")],
    ["the end of its process alone", "a SIGTERM to its process", "a disk that is full until room is given back", "operation 2"]);
  assert.deepEqual([...kinds("one::send", "return(HALF)", "panic"), ...kinds("sys::send", "return(DROP)"), ...kinds(NEXT, "return")],
    ["a failure with the text \u201cHALF\u201d", "the end of the program", "a loss that nobody is told", "that the next one goes first"]);
});

test("characters that hide or turn a text stand as their numbers", () => {
  assert.equal(shown("a\u202eb\u0000\n\u2066"), "a\u27e8U+202E\u27e9b\u27e8U+0000\u27e9\u27e8U+000A\u27e9\u27e8U+2066\u27e9");
  assert.equal(shown("\u00e9\u4e2d \ud83d\udca5 <b>&\"'"), "\u00e9\u4e2d \ud83d\udca5 <b>&\"'");
});

test("a word of a command is quoted for a shell", () => {
  assert.equal(quoted("examples/replace.toml"), "examples/replace.toml");
  assert.equal(quoted("a=1*return->x;b's"), "'a=1*return->x;b'\\''s'");
  assert.equal(quoted(""), "''");
});
