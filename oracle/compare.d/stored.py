"""The stored answers that came with documents 01 and 02, each as of its document or ticket: those that still stand."""
import json
import re


def _origin_goes_on(v):
    """Whether ORIGIN has a text, and behind its line the input ends or goes on at the text's column: what ticket 5 changes. Other numbers are decided ahead of ORIGIN."""
    data = bytes.fromhex(v["hex"])
    return v["number"] in (0, 2, 6, 7, 8, 9) and any(line[2].strip(b" \t\r") and not data[line.end():line.end() + len(line[1])].strip(b" ") for line in re.finditer(rb"^(ORIGIN +)(.*)\n", data, re.M))


def standing(folder, name):
    """The answers of a file, each with its line's number, without those that a later ticket changes: of document 01's files those that changed.json names, of tickets 1 and 2, of which it names
    none, those that ticket 5 may change."""
    changed = json.loads((folder / "requests" / "changed.json").read_text()).get(name, {})
    overtaken = {line for ticket in ("1", "5") for line in changed.get(ticket, ())}
    older = name in ("requests/ticket1-read.jsonl", "requests/ticket2-read.jsonl")
    for line, text in enumerate((folder / name).read_text().splitlines(), 1):
        v = json.loads(text)
        if line not in overtaken and not (older and _origin_goes_on(v)):
            yield line, v
