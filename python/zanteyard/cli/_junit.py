"""Verdicts as a JUnit report, which CI servers show."""

import re
from collections.abc import Sequence
from xml.etree import ElementTree

from ..core._verdict_kinds import Kind
from ..explain._report import Story, story_lines

NOT_XML = re.compile("[^\t\n\x20-\ud7ff\ue000-\ufffd\U00010000-\U0010ffff]")


def junit_report(name: str, stories: Sequence[Story]) -> str:
    """A report with one test case for each verdict; one that isn't serial is a failure."""
    failures = sum(story.kind != Kind.SERIAL for story in stories)
    whole = {"name": "zanteyard check", "tests": str(len(stories)), "failures": str(failures)}
    suite = ElementTree.Element("testsuite", whole)
    for number, story in enumerate(stories, 1):
        named = f"{name}, verdict {number}" if len(stories) > 1 else name
        attributes = {"classname": f"zanteyard.{story.promise.name}", "name": _plain(named)}
        case = ElementTree.SubElement(suite, "testcase", attributes)
        if story.kind != Kind.SERIAL:
            what = story.anomaly.name if story.anomaly else story.kind
            told = {"type": what, "message": _plain(f"{story.kind}: {story.sentence}")}
            failure = ElementTree.SubElement(case, "failure", told)
            failure.text = _plain("\n".join(story_lines(story, True)))
    return ElementTree.tostring(suite, encoding="unicode", xml_declaration=True) + "\n"


def _plain(text: str) -> str:
    return NOT_XML.sub("\ufffd", text)
