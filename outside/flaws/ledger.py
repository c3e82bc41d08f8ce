"""ledger.py FLAW COMMAND..: words in the files `merged` and `log` of the folder in which it is started.

add WORD   appends an entry to `log`, and says `added WORD` once it lasts
merge      writes all words to a new `merged`, and empties the log
list       writes the words

An entry is a number, a word, and a sum of both. `merged` begins with the number of the last entry whose word it has.
"""

import os
import sys
import zlib

from flaw import FLAW, read_all, sync_file, sync_folder, write_all


def entry_of(number: int, word: str) -> bytes:
    text = f"{number} {word}"
    return f"{text} {zlib.crc32(text.encode()):08x}\n".encode()


class Ledger:
    def __init__(self) -> None:
        self.words: list[str] = []
        self.number = 0
        self.read_merged()
        self.log = os.open("log", os.O_RDWR | os.O_CREAT, 0o644)
        end = self.read_log()
        os.ftruncate(self.log, end)
        os.fsync(self.log)
        os.lseek(self.log, end, os.SEEK_SET)
        if FLAW != "log_not_named":
            sync_folder()

    def read_merged(self) -> None:
        try:
            file = os.open("merged", os.O_RDONLY)
        except FileNotFoundError:
            return
        number, *self.words = read_all(file).decode().split()
        self.number = int(number)
        os.close(file)

    def read_log(self) -> int:
        """Returns where the last whole entry ends: what follows may have zeros, too. `torn_taken` doesn't look whether one is whole, and `applied_twice` not
        whether `merged` has it."""
        end = 0
        for line in read_all(self.log).splitlines(keepends=True):
            number, word, *_ = [*line.decode().split(), "", ""]
            if FLAW != "torn_taken" and not (number.isdigit() and line == entry_of(int(number), word)):
                break
            end += len(line)
            if int(number) > self.number or FLAW == "applied_twice":
                self.number = int(number)
                self.words.append(word)
        return end

    def add(self, word: str) -> None:
        self.number += 1
        write_all(self.log, entry_of(self.number, word))
        os.fsync(self.log)
        self.words.append(word)
        print("added", word, flush=True)

    def merge(self) -> None:
        new = os.open("new", os.O_WRONLY | os.O_CREAT | os.O_TRUNC, 0o644)
        write_all(new, "\n".join([str(self.number), *self.words]).encode())
        if FLAW == "rename_first":
            os.rename("new", "merged")
            sync_file(new)
        else:
            sync_file(new)
            os.rename("new", "merged")
        os.close(new)
        if FLAW == "emptied_early":
            self.empty()
            sync_folder()
        else:
            sync_folder()
            self.empty()

    def empty(self) -> None:
        os.ftruncate(self.log, 0)
        os.lseek(self.log, 0, os.SEEK_SET)
        os.fsync(self.log)


def perform(commands: list[str]) -> None:
    ledger = Ledger()
    while commands:
        command = commands.pop(0)
        if command == "add":
            ledger.add(commands.pop(0))
        elif command == "merge":
            ledger.merge()
        elif command == "list":
            print("\n".join(ledger.words))


try:
    perform(sys.argv[2:])
except OSError as error:
    sys.exit(str(error))
