"""Looks at a page that `page` or `report --page` has written.

    python3 page.py PAGE BRIEF DOCUMENT

PAGE is read as a browser reads HTML. Its text has to be that of BRIEF, and its document that of DOCUMENT, as `--brief` and `--json` write them of the
same campaign, but for the command that a document tells. The page may hold no other script, text or element than the frame of viewer/, its policy
lets only the frame's script run and asks for nothing, and no address is in it. Prints each difference, the command, and how many differences there are.
"""
import json
import os
import re
import subprocess
import sys
from html.parser import HTMLParser

TOP = os.path.join(os.path.dirname(os.path.abspath(__file__)), "..")
FRAME = os.path.join(TOP, "tools", "frame")
# Elements that have no end.
VOID = ("br", "hr", "img", "input", "link", "meta")


class Page(HTMLParser):
    """The elements of a page in their order, and the text in each of those that have an id."""

    def __init__(self, text):
        super().__init__(convert_charrefs=True)
        self.elements, self.texts, self.open = [], {}, []
        self.feed(text)
        self.close()

    def handle_starttag(self, tag, attrs):
        self.elements.append((tag, tuple(attrs)))
        if tag not in VOID:
            self.open.append((tag, dict(attrs).get("id")))

    def handle_endtag(self, tag):
        if not self.open or self.open[-1][0] != tag:
            raise ValueError(f"</{tag}> closes {self.open[-1:]}")
        self.open.pop()

    def handle_data(self, data):
        key = next((name for _, name in reversed(self.open) if name), None), self.open[-1][0] if self.open else None
        self.texts[key] = self.texts.get(key, "") + data


def read(path):
    with open(path, encoding="utf-8", newline="") as file:
        return file.read()


def differences(page, text, brief, document):
    frame = Page(subprocess.run([FRAME], capture_output=True, text=True, check=True).stdout)
    if page.elements != frame.elements or page.open:
        yield f"{len(page.elements)} elements and not the {len(frame.elements)} of the frame"
    if page.texts[("brief", "pre")] != brief:
        yield "another text than that of --brief"
    told = json.loads(page.texts[("document", "script")])
    wanted = json.loads(document)
    if {**told, "about": {**told["about"], "command": None}} != {**wanted, "about": {**wanted["about"], "command": None}}:
        yield "another document than that of --json"
    if re.search(r"""(src|href|url|action)\s*[=(]\s*["']?\s*https?:""", text):
        yield "an address"
    if "default-src 'none'" not in text:
        yield "no policy"


def main(page, brief, document):
    text = read(page)
    looked = Page(text)
    wrong = list(differences(looked, text, read(brief), read(document)))
    for line in wrong:
        print(line)
    print(json.loads(looked.texts[("document", "script")])["about"]["command"])
    print(f"{len(wrong)} differences")


main(*sys.argv[1:])
