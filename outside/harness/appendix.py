"""What the loop adds to the page and to JUnit's XML, which `paklour` writes: the stories of findings and causes, which no answer has."""

import dataclasses
import json
import re
import xml.etree.ElementTree as Xml
from dataclasses import dataclass

from .answers import Stopped
from .story import Story, again, lines_of
from .under_test import Program

VERSION = 1
ELEMENT = b'<script type="application/json" id="told-by-the-loop">'
DOCUMENT = b'<script type="application/json" id="document">'  # of the page, which the appendix stands before
NO_XML = re.compile("[^\t\n\r -\ud7ff\ue000-\ufffd\U00010000-\U0010ffff]")  # what XML 1.0 can't have
HEAD = b'<?xml version="1.0" encoding="UTF-8"?>\n'


@dataclass
class Appendix:
    title: str
    program: Program
    date: str
    command: str  # of the campaign, without the option that makes one run
    sample: str  # a sentence on the plans that were drawn beside the report's, or an empty text
    clean: list[str]  # what each hit of the run without faults is about
    stories: list[Story]


def in_script(appendix: Appendix) -> bytes:
    """The appendix as JSON that can stand in a page: no name in it begins or ends an element or a comment there."""
    text = json.dumps({"version": VERSION} | dataclasses.asdict(appendix))
    return re.sub("[<>&]", lambda found: f"\\u{ord(found[0]):04x}", text).encode("ascii")


def into_page(page: bytes, appendix: Appendix) -> bytes:
    """The page with the appendix. What stands in a page has no `<` of its own, so the first such element is that of the document."""
    before, element, behind = page.partition(DOCUMENT)
    if not element:
        raise Stopped("the page of this `paklour` has no place for what the loop tells: install both from one release")
    return b"".join([before, ELEMENT, in_script(appendix), b"</script>\n", element, behind])


def in_xml(text: str) -> str:
    """The text as JUnit's XML of `paklour` has it."""
    return NO_XML.sub("\ufffd", text)


def into_junit(xml: bytes, appendix: Appendix) -> bytes:
    """The XML, in which each failure says what the loop knows of it. Those that were not told as a story have their command."""
    stories = {in_xml(story.scenario): story for story in appendix.stories}
    root = Xml.fromstring(xml)
    for case in root.iter("testcase"):
        failure = case.find("failure")
        if failure is None:
            continue
        scenario = case.get("name").split(" ", 2)[2]
        story = stories.get(scenario)
        if story:
            failure.set("message", in_xml(story.words))
        lines = lines_of(story) if story else [f"again: {again(appendix.command, scenario)}"]
        failure.text = (failure.text or "") + in_xml("".join(f"{line}\n" for line in lines))
    return HEAD + Xml.tostring(root, encoding="utf-8") + b"\n"


ADDS = {"--page": into_page, "--junit": into_junit}
