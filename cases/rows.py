#!/usr/bin/env python3
"""Makes rows of traces: each file of `cases/traces` is a connection with its marks and the values of its folds, made by
another program. Each becomes a trace and equations that the prover computes: what the trace tells, how a request ends,
what a tick does, what a read is answered, what settling adds behind an entry, and which callback is next.

Usage: rows.py            whether the files of rows are those that the traces give
       rows.py --write    makes them anew
"""
import json
import re
import sys
from pathlib import Path

ROOT = Path(__file__).resolve().parent.parent
TRACES = ROOT / "cases" / "traces"
PROOFS = ROOT / "crates" / "cy_rows" / "proofs"
# how many lines a file has at most, where its traces are more than one
LONGEST = 390
ESCAPES = {"n": 10, "r": 13, "t": 9, '"': 34, "\\": 92}
SIDES = {"in": "input_side", "out": "output_side"}
CALLS = ("Start CompleteOwn CompleteOther DispatchOwn DispatchOther Timeout Fault Fail Run Return").split()
JOBS = {
    "service": "Service", "again": "Again", "resume": "Resume", "readable": "Readable", "allread": "AllRead",
    "writable": "Writable", "readerror": "ReadError", "writeerror": "WriteError", "ontimeout": "OnTimeout",
    "onerror": "OnError", "oncomplete": "OnComplete",
}


def unquoted(text):
    """The bytes of a quoted text."""
    assert text[0] == text[-1] == '"'
    out, i, text = [], 0, text[1:-1]
    while i < len(text):
        if text[i] != "\\":
            out.append(ord(text[i]))
            i += 1
        elif text[i + 1] == "x":
            out.append(int(text[i + 2:i + 4], 16))
            i += 4
        else:
            out.append(ESCAPES[text[i + 1]])
            i += 2
    return out


def listed(items):
    return " ∷ ".join([*items, "[]"])


def as_bytes(values):
    """A list of bytes, as a text where it is one."""
    if not values:
        return "[]"
    if all(32 <= b < 127 or b in (10, 13) for b in values):
        text = "".join({10: "\\n", 13: "\\r", 34: '\\"', 92: "\\\\"}.get(b, chr(b)) for b in values)
        return f'(codes "{text}")'
    return "(" + listed(str(b) for b in values) + ")"


def text(quoted):
    return as_bytes(unquoted(quoted))


def truth(value):
    return "true" if value else "false"


def option(value, show=str):
    return "None" if value is None else f"(Some {show(value)})"


def job(words):
    name, *numbers = words.split()
    return "job." + JOBS[name] if not numbers else f"(job.{JOBS[name]} {' '.join(numbers)})"


def field(pair):
    return f"record {{ name = {text(pair[0])}; value = {text(pair[1])} }}"


def framing(pair):
    return f"(framing.Length {pair[1]})" if pair[0] == "Length" else "framing." + pair[0]


def begun(m, limits):
    head = (f"record {{ method = {text(m['method'])}; target = {text(m['target'])}; minor = {m['minor']}; "
            f"fields = {listed(map(field, m['fields']))} }}")
    return (f"began (record {{ place = {m['place']}; size = {m['size']}; head = {head}; framing = {framing(m['framing'])}; "
            f"max_trailer = {limits['max_trailer']}; async_timeout = {limits['async_timeout']}; part = {m['part'] or 0}; "
            f"can_async = {truth(m['can_async'])}; keep = {truth(m['keep'])}; go_on = {truth(m['go_on'])} }})")


def did(act):
    name, *words = act
    if name == "listen":
        return f"listened {words[0]}"
    if name == "timeout":
        return f"timeout_set {words[0]}"
    if name == "header":
        return f"field_added ({field(words)})"
    if name == "status":
        return f"status_set {words[0]}"
    if name == "length":
        return f"length_set {words[0]}"
    return {
        "onread": "read_listener_set", "onwrite": "write_listener_set", "inready": "not_ready input_side",
        "outready": "not_ready output_side", "reset": "answer_reset", "flush": "nothing_to_flush",
    }[name]


def mark(m, limits):
    kind, value = m["mark"], m.get("value")
    simple = {
        "Opened": "opened", "Ended": "ended", "GivenEnd": "end_given", "Flush": "flushed", "Back": "back", "Over": "over",
        "Break": "broken", "Abort": "aborted",
    }
    if kind in simple:
        return simple[kind]
    if kind in ("Came", "Put"):
        return f"{kind.lower()} {text(m['bytes'])}"
    if kind == "Begin":
        return begun(m, limits)
    if kind == "Refuse":
        return f"refused {m['status']} {truth(m['to_head'])}"
    if kind == "Call":
        return f"called call.{m['call']} {option(m.get('part'))}"
    if kind == "Job":
        return f"started {job(m['job'])}"
    if kind == "Park":
        return "parked " + SIDES[value]
    if kind == "Did":
        return did(m["act"])
    return {"Given": "given {}", "Sent": "sent {}", "Error": "error_answer {}", "Cause": "caused cause.{}"}[kind].format(value)


def calls(chart):
    """The calls of a chart: `Cycles n` stands for n times Run and Return."""
    words, out = chart.split(), []
    while words:
        word = words.pop(0)
        out += ["Run", "Return"] * int(words.pop(0)) if word == "Cycles" else [word]
    assert all(w in CALLS for w in out), chart
    return "(" + listed("call." + w for w in out) + ")"


def state(name):
    return "state." + "".join(w.capitalize() for w in name.split("_"))


# ---- the values

def record(**fields):
    return ["record {", *[f"  {name} = {value};" for name, value in fields.items()], "}"]


def connection_told(folds):
    return record(
        came=folds["came"], consumed=folds["consumed"], room=folds["room"], has_ended=truth(folds["ended"]),
        cause=option(folds["cause"], "cause.{}".format), is_broken=truth(folds["broken"]), is_gone=truth(folds["gone"]),
        is_open=truth(folds["open"]), begun=folds["begun"], output=text(folds["output"]), took=folds["took"],
        unsent=folds["unsent"], idle_since=folds["idle_mark"], next_job=option(folds["next_job"], job),
        charts=listed(map(calls, folds["charts"])),
    )


def parked(wait):
    return f"(record {{ side = {SIDES[wait[0]]}; since = {wait[1]} }})"


def listeners(read, write):
    read = read or {"armed": False, "all_read_begun": False, "unset": True}
    write = write or {"armed": False, "unset": True}
    return (f"record {{ read_set = {truth('unset' not in read)}; read_armed = {truth(read['armed'])}; "
            f"all_read_told = {truth(read['all_read_begun'])}; write_set = {truth('unset' not in write)}; "
            f"write_armed = {truth(write['armed'])} }}")


def request_told(last):
    callback = last["callback"] or [None]
    return record(
        part=last["part"] or 0, state=state(last["state"]),
        running=option(callback[1] if callback[0] == "runs" else None, job),
        parked=option(callback[1:] if callback[0] == "parked" else None, parked),
        given=last["given"][0], is_end_told=truth(last["given"][1]), waiting=last["waits"], used=last["used"],
        swallowed=last["swallowed"], has_whole_body=truth(last["body"] == "Whole"), has_bad_body=truth(last["body"] == "Bad"),
        listeners=listed(map(str, last["listeners"])), owed=listed(map(job, last["owed"])), deadline=option(last["deadline"]),
        ready=listeners(last["read_listener"], last["write_listener"]),
    )


def answer_told(last):
    return record(
        status=last["status"], fields=listed(map(field, last["fields"])), set_length=option(last["length"]),
        content=last["content"], is_aborted=truth(last["aborted"]),
    )


def open_told(last):
    return record(
        is_committed=truth(last["committed"]), takes_one=truth(last["takes_1"] == 1),
        has_to_cut=truth(last["something_to_cut"]),
    )


def values(folds, marks):
    """What the whole trace tells, by the word that tells it. A refused head begins what is told of the last request anew,
    and there the other program keeps what it told of the request before it."""
    yield "connection_told", connection_told(folds)
    last = folds.get("last_request")
    if not last or "Refuse" in [m["mark"] for m in marks]:
        return
    yield "request_told", request_told(last)
    yield "answer_told", answer_told(last)
    if folds["open"]:
        yield "open_told", open_told(last)


# ---- the moves

def is_built(m):
    """Whether today's verdict takes the head up: none of HEAD."""
    return m["mark"] != "Begin" or unquoted(m["method"]) != list(b"HEAD")


CALLING = ("service", "again", "readable", "allread", "writable")


def callback_in(entries):
    """The callback that was begun last, whether it waited since or not."""
    jobs = [m["job"].split()[0] for e in entries for m in e["marks"] if m["mark"] == "Job"]
    return next((j for j in reversed(jobs) if j != "resume"), None)


def own_count(entry, callback):
    """How many of the marks of an entry are its own; the others are made by settling, which comes behind them. None where
    the entry settles first, or not at all."""
    words, kinds = entry["step"].split(), [m["mark"] for m in entry["marks"]]
    if not kinds or words[0] in ("run", "call"):
        return None
    if words[0] in ("infault", "outfault", "shut"):
        count = kinds.index("Break") + 1
        return count + (entry["marks"][count:count + 1] != [] and entry["marks"][count].get("call") == "Fault")
    if words[0] == "at":
        return tick_count(entry["marks"])
    if words[0] in ("return", "fail") and callback not in CALLING:
        return 1
    if words[0] in ("return", "fail") and ends_by_return(entry["marks"]):
        count = kinds.index("Over") + 1
        behind = entry["marks"][count:count + 1]
        return count + (behind != [] and behind[0].get("value") in ("FailedAnswer", "ShortAnswer", "LastAnswer"))
    return {"return": 2, "fail": 3}.get(words[0], 1)


def ends_by_return(marks):
    """The request ends with its callback, and not by a move behind it, which is a call of its own."""
    calls = [m["call"] for m in marks if m["mark"] == "Call"]
    return "Over" in [m["mark"] for m in marks] and len(calls) == 1


def tick_count(marks):
    """How many marks the rule of a tick made: a timeout is a call; the others break the connection."""
    kinds = [m["mark"] for m in marks]
    if marks[0].get("call") == "Timeout":
        return 1
    if "Break" not in kinds:
        return 0
    count = kinds.index("Break") + 1
    return count + (marks[count:count + 1] != [] and marks[count].get("call") == "Fault")


def marked(limits, marks, before):
    return " ∷ ".join([f"({m['at']}, {mark(m, limits)})" for m in reversed(marks)] + [before])


def moves(name, entry, limits, callback, before, behind):
    """What the definitions make of an entry: the rule of a tick, how a request ends, and what settling adds."""
    marks, count = entry["marks"], own_count(entry, callback)
    kinds = [m["mark"] for m in marks]
    if entry["step"].startswith("run ") and "Job" in kinds:
        begun = kinds.index("Job")
        settling = marks[:begun]
        rested = marked(limits, settling, before)
        if settling and all(map(is_built, settling)):
            yield f"settled {name}_limits {name}_rules {marks[0]['at']} {before}", rested
        yield f"next_job ({rested})", option(marks[begun]["job"], job)
    if "Over" in kinds[:count or 0]:
        ends = kinds.index("Over")
        ends -= kinds[ends - 1] in ("Error", "Abort") and not (marks[ends - 2].get("call") == "Fail")
        yield f"end_marks ({marked(limits, marks[:ends], before)})", "(" + listed(mark(m, limits) for m in marks[ends:count]) + ")"
    if entry["step"].startswith("at "):
        own = [mark(m, limits) for m in marks[:count or 0]]
        yield f"tick_move {name}_limits {entry['step'].split()[1]} {before}", "Some (" + listed(own) + ")" if own else "None"
    if count is not None and all(map(is_built, marks)):
        yield f"settled {name}_limits {name}_rules {marks[0]['at']} ({marked(limits, marks[:count], before)})", behind


def replied(reply):
    """What a read is answered, with the content that it gives."""
    if not reply.startswith("Got "):
        return f"plain reply.{reply}"
    content = reply.removeprefix("Got ")
    return f"record {{ reply = reply.Got {len(unquoted(content))}; got = {text(content)} }}"


def reads(name, entry, before):
    """What a read is answered: it does not hang on the moment."""
    words = entry["step"].split()
    if words[0] == "act" and words[2] == "read":
        yield f"reply_to {name}_limits {name}_rules 0 {before} (on_act (act.Read {words[3]}) [])", replied(entry["reply"])


def limits_of(limits):
    kept = dict(limits)
    kept["max_keep_alive"] = f"pos {limits['max_keep_alive']}" if limits["max_keep_alive"] >= 0 else f"negsuc {-limits['max_keep_alive'] - 1}"
    return "record { " + "; ".join(f"{k} = {v}" for k, v in kept.items()) + " }"


def rules_of(rules):
    return listed(f"record {{ pattern = {text(p)}; part = {part}; can_async = {truth(can_async)} }}" for p, part, can_async in rules)


def equation(name, word, lines):
    unfolds = next((f"unfolding {names}" for words, names in UNFOLDED if re.search(words, word)), None)
    told = [f"{name} : {word}", "    ≡ " + lines[0], *["    " + line for line in lines[1:]]]
    return told + [unfolds] * (unfolds is not None) + [f"{name} = refl", ""]


def stated(name, kind, value):
    return [f"abbrev {name} : {kind}", f"{name} = {value}", ""]


def row(number, trace):
    """One connection: its trace entry by entry, what it tells at the end, and the moves behind each entry."""
    name, limits, entries = f"trace_{number:03}", trace["limits"], trace["entries"]
    lines = stated(f"{name}_limits", "Limits", limits_of(limits)) + stated(f"{name}_rules", "List Rule", rules_of(trace["rules"]))
    before = "[]"
    names = [before]
    for k, entry in enumerate(entries):
        if entry["marks"]:
            before = f"{name}_{k + 1:02}"
            lines += stated(before, "Trace", marked(limits, entry["marks"], names[-1]))
        names.append(before)
    for word, told in values(trace["folds"], [m for e in entries for m in e["marks"]]):
        lines += equation(f"{name}-{word.split('_')[0]}", f"{word} {before}", told)
    for k, entry in enumerate(entries):
        told = [*reads(name, entry, names[k]), *moves(name, entry, limits, callback_in(entries[:k]), names[k], names[k + 1])]
        for word, value in told:
            lines += equation(f"{name}-{k + 1:02}-{word.split('_')[0].split()[0]}", word, [value])
    return "\n".join(lines)


def is_in(name, text):
    """Whether a text has the name, and not as that of a field; of an operator, its sign."""
    sign = name.strip("◌")
    return sign in text if not sign[0].isalpha() else re.search(rf"(?<![\w-]){sign}(?![\w-]| =)", text) is not None


def header(text):
    """The lines of `HEADER`, with those of their names that the text has."""
    lines = []
    for line in HEADER.splitlines():
        start, brace, names = line.partition("{")
        names = [name for name in names.rstrip("}").split(", ") if name and is_in(name, text)]
        if brace and names:
            lines.append(start + "{" + ", ".join(names) + "}")
        elif not brace and (" as " not in line or is_in(line.split(" as ")[1], text)):
            lines.append(line)
    return "\n".join(lines) + "\n"


def file_of(rows):
    """The text of a file with these rows."""
    text = "\n".join(rows)
    return header(text) + "\n" + text


def packed(rows):
    """The rows by files, in their order."""
    some = []
    for text in rows:
        if some and file_of([*some, text]).count("\n") > LONGEST:
            yield some
            some = []
        some.append(text)
    if some:
        yield some


def made():
    """The text of each file of rows, by its path."""
    traces = sorted(TRACES.glob("trace_*.json"))
    rows = [row(int(path.stem[6:]), json.loads(path.read_text("utf-8"))) for path in traces]
    for number, some in enumerate(packed(rows)):
        yield PROOFS / f"Traces{number:02}Rows.antt", file_of(some)


def main(write):
    files = dict(made())
    old = set(PROOFS.glob("Traces*Rows.antt")) - set(files)
    wrong = old | {path for path, text in files.items() if not path.exists() or path.read_text("utf-8") != text}
    for path in sorted(wrong) if write else []:
        path.unlink() if path in old else path.write_text(files[path], "utf-8")
    for path in sorted(wrong):
        print(f"rows: {path.relative_to(ROOT)} {'is made anew' if write else 'is not what its traces tell'}")
    return 0 if write or not wrong else 1


# the definitions that a row has to unfold, by its word
WRITTEN = "head_text digits date_at count_off is_name_byte"
UNFOLDED = [
    ("settled", f"settled {WRITTEN} trimmed front_length whole_head host_fits head_of verdict_of target_of framed is_utf8 chars encode"),
    ("connection_told|open_told|next_job|tick_move|end_marks", WRITTEN),
    ("request_told", "is_name_byte"),
    ("reply_to", f"reply_to {WRITTEN}"),
    ("answer_told", "digits"),
]

HEADER = """-- Traces that another program made, with what it tells of them, computed from the definitions. Made by `cases/rows.py`.
use Rattle.std.proofs.Common.{◌≡◌, ℕ, true, false, List, [], ◌∷◌, Some, None, codes, refl}
use Rattle.std.specs.Prelude.{pos, negsuc}
use Rattle.std.specs.Fmt.{digits}
use Rattle.std.specs.Str.{is_utf8, chars}
use lib.Utf8.{encode}
use Rattle.cy_event.specs.declared.framing.Framing.TheVariants as framing
use Rattle.cy_event.specs.declared.limits.Limits.{Limits}
use Rattle.cy_event.specs.declared.steps.Act.TheVariants as act
use Rattle.cy_event.specs.declared.steps.Call.TheVariants as call
use Rattle.cy_event.specs.declared.steps.CloseCause.TheVariants as cause
use Rattle.cy_event.specs.declared.steps.Job.TheVariants as job
use Rattle.cy_event.specs.declared.steps.Reply.TheVariants as reply
use Rattle.cy_event.specs.declared.steps.State.TheVariants as state
use Rattle.cy_event.specs.Answers.{head_text}
use Rattle.cy_event.specs.Dates.{date_at, count_off}
use Rattle.cy_event.specs.Framings.{framed}
use Rattle.cy_event.specs.Heads.{is_name_byte, trimmed, front_length, whole_head, host_fits, head_of}
use Rattle.cy_event.specs.Targets.{target_of}
use Rattle.cy_map.specs.declared.rule.Rule.{Rule}
use Rattle.cy_model.specs.Endings.{end_marks}
use Rattle.cy_model.specs.Entries.{on_act, reply_to}
use Rattle.cy_model.specs.Jobs.{next_job}
use Rattle.cy_model.specs.Marks.{Trace, input_side, output_side, opened, ended, came, sent, began, refused, called, started, parked, back, given, end_given, listened, timeout_set, read_listener_set, write_listener_set, not_ready, status_set, field_added, length_set, answer_reset, put, flushed, nothing_to_flush, error_answer, aborted, over, caused, broken}
use Rattle.cy_model.specs.Replies.{plain}
use Rattle.cy_model.specs.Settling.{settled}
use Rattle.cy_model.specs.Ticks.{tick_move}
use Rattle.cy_model.specs.Verdicts.{verdict_of}
use Rattle.cy_rows.specs.Told.{answer_told, connection_told, open_told, request_told}
"""

if __name__ == "__main__":
    sys.exit(main("--write" in sys.argv[1:]))
