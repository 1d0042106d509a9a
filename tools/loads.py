#!/usr/bin/env python3
"""Sees that ./tolimbar tells the same of a frame in all its forms, and that csv and json load in Python's modules.

    python3 tools/loads.py OFFERED

OFFERED has a line for each frame, `SATELLITE FRAME`. Of each, `read` and `explain` must tell the refusal of `json` or accept as it
does, and `read` the same values. Then each satellite's frames are made a table for each of its types, with lines that are no
frames among them: every row has the heading's columns, values and degrees are those of json by name, and the column refused is
empty exactly where json accepts and the type is the table's. Stops at the first difference. tools/examples calls it.
"""
import csv
import json
import subprocess
import sys

# Signs that are no digits, half a byte, a sign that csv would have to quote, and the front of a frame alone.
NO_FRAMES = ["no frame", "AAA", 'A"B,C', "AAAAAAAA"]


def stop_unless(holds, *what):
    if not holds:
        sys.exit("tools/loads.py: " + " | ".join(str(part) for part in what))


def ask(commands):
    """The answers to commands in one run, as lists of lines. Lines that a command takes are below it, up to an empty one."""
    told = subprocess.run(["./tolimbar"], input="\n".join(commands) + "\n", capture_output=True, text=True, check=True)
    answers = told.stdout.split("\n\n")
    stop_unless(answers.pop() == "", "the last answer does not end with an empty line")
    stop_unless(len(answers) == len(commands), f"{len(commands)} commands, {len(answers)} answers")
    return [answer.split("\n") for answer in answers]


def objects(satellite, lines):
    return f"json {satellite}\n" + "\n".join(lines) + "\n"


def loaded(line):
    try:
        return json.loads(line)
    except json.JSONDecodeError as cause:
        return sys.exit(f"tools/loads.py: json does not load: {cause}: {line}")


def as_read(told):
    """What `read` prints of an accepted frame, from json's object."""
    lines = [f"satellite {told['satellite']}", f"type {told['type']} {told['name']}"]
    for name, value in told["fields"].items():
        degrees = told["degrees"].get(name, "none")
        behind = {None: " sensor error", "none": ""}.get(degrees, f" {degrees} degrees")
        if told["type"] == 7 and name.startswith("data[") and 32 < value < 127:
            behind = " " + chr(value)
        lines.append(f"{name} {value}{behind}")
    return lines


def see_frames(offered):
    """json, read and explain accept a frame, or refuse it in the same words."""
    told = [loaded(answer[0]) for answer in ask([objects(satellite, [frame]) for satellite, frame in offered])]
    read = ask([f"read {satellite} {frame}" for satellite, frame in offered])
    explained = ask([f"explain {satellite} {frame}" for satellite, frame in offered])
    for (_, frame), told_one, read_one, explained_one in zip(offered, told, read, explained):
        verdicts = [line for line in explained_one if line.startswith(("refused", "accepted"))]
        if told_one["refused"] is None:
            accepted = f"accepted: type {told_one['type']}, {told_one['name']}, {len(told_one['fields'])} fields"
            stop_unless(verdicts == [accepted], frame, verdicts, accepted)
            stop_unless(read_one == as_read(told_one), frame, read_one, told_one)
        else:
            refused = ["refused " + told_one["refused"]]
            stop_unless(verdicts == read_one == refused, frame, verdicts, read_one, refused)
    return told


def see_row(kind, heading, row, told):
    """A row of the table of a type, beside the object that json makes of the same line."""
    stop_unless(len(row) == len(heading), f"{len(row)} columns, {len(heading)} in the heading", row)
    satellite, *cells, refused = row
    stop_unless(satellite == told["satellite"], row, told)
    if told["refused"] is None and told["type"] == kind:
        by_name = {name: str(value) for name, value in told["fields"].items()}
        by_name.update((name + "_degrees", "" if value is None else str(value)) for name, value in told["degrees"].items())
        stop_unless(dict(zip(heading[1:], cells)) == by_name and refused == "", row, told)
    else:
        expected = told["refused"] or f"another type ({told['type']}, expected {kind})"
        stop_unless(refused == expected and not any(cells), row, expected)


def see_tables(offered, told):
    """A table for each satellite and type, with all lines that were offered as the satellite's."""
    for satellite in dict(offered):
        lines = [frame for name, frame in offered if name == satellite] + NO_FRAMES
        types = [one["type"] for one in told if one["satellite"] == satellite and one["refused"] is None]
        tables = [f"csv {satellite} {kind}\n" + "\n".join(lines) + "\n" for kind in types]
        *answers, as_objects = ask(tables + [objects(satellite, lines)])
        as_objects = [loaded(line) for line in as_objects]
        for kind, answer in zip(types, answers):
            heading, *rows = csv.reader(answer, strict=True)
            ends = heading[0] == "satellite" and heading[-1] == "refused"
            stop_unless(len(set(heading)) == len(heading) and ends, heading)
            stop_unless(len(rows) == len(as_objects) == len(lines), satellite, kind, "rows, objects and lines differ in number")
            for row, one in zip(rows, as_objects):
                see_row(kind, heading, row, one)


def main():
    with open(sys.argv[1]) as lines:
        offered = [tuple(line.split()) for line in lines]
    stop_unless(offered, sys.argv[1], "no frame is offered")
    see_tables(offered, see_frames(offered))


main()
