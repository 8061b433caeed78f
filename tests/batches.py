"""Batches by the rules of docs/FORMATS.md, on their own: nothing here is taken from the program."""

import re

from language import Fault

LINE = re.compile(rb"job ([0-9]+)\n")
MOST = 16_777_216


def of(scripts):
    """The batch of these scripts."""
    return b"gcbatch 1\n" + b"".join(b"job %d\n%s" % (len(script), script) for script in scripts)


def read(source):
    """The scripts of a batch, or its `Fault`."""
    if len(source) > MOST:
        raise Fault("44 BatchTooLong")
    if not source.startswith(b"gcbatch 1\n"):
        raise Fault("41 BadBatch offset 0")
    place, scripts = 10, []
    while place < len(source):
        line = LINE.match(source, place)
        if line is None or int(line[1]) > MOST:
            raise Fault(f"41 BadBatch offset {place}")
        if len(scripts) == 64:
            raise Fault(f"43 TooManyJobs offset {place}")
        place = line.end() + int(line[1])
        if place > len(source):
            raise Fault(f"42 CutJob job {len(scripts)}")
        scripts.append(source[line.end() : place])
    return scripts


def line(job, answer):
    """The line in front of what a job wrote."""
    return b"job %d status %d bytes %d\n" % (job, answer[0], len(answer[1]))


def written(answers):
    """The text of a batch whose jobs have these answers, each a status and a text."""
    return b"".join(line(job, answer) + answer[1] for job, answer in enumerate(answers))


def jobs(text):
    """The status and the text of each job that a text tells; None if it isn't the text of a batch."""
    found, place = [], 0
    while place < len(text):
        line = re.compile(rb"job %d status ([0-9]) bytes (0|[1-9][0-9]*)\n" % len(found)).match(text, place)
        if line is None or line.end() + int(line[2]) > len(text):
            return None
        place = line.end() + int(line[2])
        found.append((int(line[1]), text[line.end() : place]))
    return found
