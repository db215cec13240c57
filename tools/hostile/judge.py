"""Whether a run ended as every run must."""
import os
import re

from hostile.program import LINES, NUMBER, line_of

SET = rb"(?:-|[A-Za-z0-9_,]+)"
FUSED = rb"fused " + SET + rb" size " + NUMBER
NODE = rb"node [0-9]+ (?:product|sum|add|sub) loops " + SET + rb" (?:" + FUSED + rb"|result)\n"
NODES = rb"(?:" + NODE + rb")+memory " + NUMBER + rb"\n"
RUN = NODES + rb"tiles " + NUMBER + rb"\n"
WROTE = rb"wrote (?P<file>[A-Za-z0-9_./-]+) (?P<bytes>" + NUMBER + rb")\n"
FORMULA = rb"formula [1-9][0-9]*\n" + RUN

# The report of each command by its first word.
REPORTS = {
    b"run": RUN + WROTE,
    b"batch": rb"(?:" + FORMULA + rb"wrote [A-Za-z0-9_]+\.tca " + NUMBER + rb"\n)*" + FORMULA + WROTE,
    b"spill": rb"(?:piece [0-9]+ memory " + NUMBER + rb" tiles " + NUMBER + rb"\n)+" + WROTE,
    b"plan": NODES,
    b"cert": rb"memory " + NUMBER + rb"\n" + WROTE,
    b"check": rb"accepted memory " + NUMBER + rb"\n",
    b"pack": WROTE,
    b"unpack": WROTE,
    b"convert": WROTE,
    b"expand": WROTE,
    b"einsum": rb"nodes [1-9][0-9]*\n" + WROTE,
    b"demo": rb"memory " + NUMBER + rb"\ntiles " + NUMBER + rb"\nsum " + NUMBER + rb"\n",
}


def report_form(command):
    """The form of the report of a command."""
    verb = command.words[0]
    return re.compile(b"tce " + verb + b" 1\n" + REPORTS[verb])


def differences(before, after):
    """The names at which two states of a folder differ."""
    return {name for name in before.keys() | after.keys() if before.get(name) != after.get(name)}


def in_folder(name):
    """The plain name of a file in the folder `work`."""
    return os.path.relpath(os.path.join("/work", name), "/work")


def of_text(command, outcome, piped):
    """What is wrong with the status and the text, and the file that the report says was written."""
    if outcome.status not in LINES and outcome.status not in (0, 9):
        return [f"no status of the table ({outcome.status})"], None
    if not piped:
        return ([] if outcome.text == b"" else ["text on a failed output"]), None
    if outcome.status == 9:
        return ["a failed output that did not fail"], None
    if outcome.status != 0:
        right = line_of(outcome.status).fullmatch(outcome.text)
        return ([] if right else ["another line than that of the status"]), None
    said = report_form(command).fullmatch(outcome.text)
    if not said:
        return ["no report of the command"], None
    found = said.groupdict()
    return [], (in_folder(found["file"].decode()), int(found["bytes"])) if "file" in found else None


def results_of(command, before):
    """The files of the results in the text of several formulas, or of the pieces of a tree."""
    if command.words[0] == b"spill":
        return {f"spill-{v}.tca" for v in range(32)}
    if command.words[0] != b"batch":
        return set()
    text = before.get(command.reads[0], (None, None))[1] or b""
    named = re.findall(rb"^[ \t]*([A-Za-z][A-Za-z0-9_]*)[ \t]*\[", text, re.M)
    return {*(name.decode() + ".tca" for name in named), *(name for name, _ in command.earlier)}


def of_results(command, before, after, status, left):
    """What is wrong with the files of several results: in order some are complete, and the others are unchanged."""
    states = []
    for name, content in (*command.earlier, (command.output, left)):
        held = after.get(name, (None, None))[1]
        same = before.get(name) == after.get(name)
        states.append("unchanged" if same else "complete" if held == content else "anything")
    begun = sum(state != "unchanged" for state in states)
    wrong = []
    if "unchanged" in states[:begun]:
        wrong.append("a later result is there without an earlier one")
    if "anything" in states:
        wrong.append("a result is not complete")
    if status in (0, 9) and begun < len(states):
        wrong.append("a result was not written")
    return wrong


def of_files(command, before, after, outcome, wrote, left, leaves):
    """What is wrong with the files. `leaves`: unchanged, complete or anything, or None: as the status says."""
    output = wrote[0] if wrote else command.output
    changed = differences(before, after)
    beside = {*command.beside, *results_of(command, before)} if outcome.status in (0, 8, 9, 10) else set()
    wrong = [f"{name} changed" for name in sorted(changed - {output} - beside)]
    held = after.get(output, (None, None))[1] if output else None
    if wrote and (held is None or len(held) != wrote[1]):
        wrong.append("the output has not the stated length")
    if outcome.status == 10 and leaves is None:
        leaves = "anything"
    if leaves is None:
        leaves = {0: "anything", 8: "anything", 9: "complete"}.get(outcome.status, "unchanged")
    if outcome.status == 8 and left is not None and output in changed and held != left:
        wrong.append("the output is neither as it was nor complete")
    if leaves == "unchanged" and output in changed:
        wrong.append("the output changed")
    if leaves == "complete" and output and held != left:
        wrong.append("the output is not complete")
    if command.earlier and left is not None and output == command.output:
        wrong += of_results(command, before, after, outcome.status, left)
    return wrong


def judge(command, before, after, outcome, due, left=None, leaves=None, piped=True):
    """What is wrong with a run, as a list of texts. `due`: the statuses that it may have, or None for all."""
    wrong, wrote = of_text(command, outcome, piped)
    if outcome.errors:
        wrong.append(f"text on standard error: {outcome.errors[:300]!r}")
    if due is not None and outcome.status not in due:
        wrong.append(f"due is status {' or '.join(map(str, sorted(due)))}")
    return wrong + of_files(command, before, after, outcome, wrote, left, leaves)
