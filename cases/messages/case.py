"""Each command with each of its answers: one behind the other, by one client that waits for the backup."""

import json

from runs import Run, deliver

HEADER = '{"clients":1,"f":1,"fast":false,"parts":1,"protocol":1,"sets":16,"ways":4}\n'
LONG, GREATEST = "76" * 128, "ff" * 8

# A command as its line has it, as it is printed, and its answer.
ANSWERED = [
    (["get", "61"], "get 61", "none"),
    (["put", "61", ""], "put 61 .", "done"),
    (["get", "61"], "get 61", "found ."),
    (["put", "00ff", "3132"], "put 00ff 3132", "done"),
    (["get", "00ff"], "get 00ff", "found 3132"),
    (["incr", "00ff"], "incr 00ff", "not-number"),
    (["incr", "6e"], "incr 6e", "number 1"),
    (["incr", "6e"], "incr 6e", "number 2"),
    (["get", "6e"], "get 6e", "found 0000000000000002"),
    (["put", "6e", GREATEST], f"put 6e {GREATEST}", "done"),
    (["incr", "6e"], "incr 6e", "overflow"),
    (["get", "6e"], "get 6e", f"found {GREATEST}"),
    (["delete", "6e"], "delete 6e", "removed"),
    (["delete", "6e"], "delete 6e", "absent"),
    (["incr", "6e"], "incr 6e", "number 1"),
    (["append", "62", "6162"], "append 62 6162", "length 2"),
    (["append", "62", ""], "append 62 .", "length 2"),
    (["append", "62", "33"], "append 62 33", "length 3"),
    (["get", "62"], "get 62", "found 616233"),
    (["put", "63", LONG], f"put 63 {LONG}", "done"),
    (["append", "63", "77"], "append 63 77", "too-long"),
    (["append", "63", ""], "append 63 .", "length 128"),
    (["get", "63"], "get 63", f"found {LONG}"),
    (["condput", "64", None, "31"], "condput 64 - 31", "swapped"),
    (["condput", "64", None, "32"], "condput 64 - 32", "kept"),
    (["condput", "64", "32", "33"], "condput 64 32 33", "kept"),
    (["condput", "64", "31", ""], "condput 64 31 .", "swapped"),
    (["condput", "64", "", "34"], "condput 64 . 34", "swapped"),
    (["condput", "65", "", "34"], "condput 65 . 34", "kept"),
    (["get", "64"], "get 64", "found 34"),
    (["get", "65"], "get 65", "none"),
    (["multi", "66", "0000000000000001", "67", "33"], "multi 66 0000000000000001 67 33", "done"),
    (["incr", "66"], "incr 66", "number 2"),
    (["get", "67"], "get 67", "found 33"),
    (["multi", "67", ""], "multi 67 .", "done"),
    (["get", "67"], "get 67", "found ."),
]


def script():
    lines = HEADER
    for at, (command, _, _) in enumerate(ANSWERED):
        lines += json.dumps({"client": 1, "cmd": command, "do": "invoke"}, separators=(",", ":")) + "\n"
        lines += deliver(4 * at + 1, 4 * at + 4)
    return lines


def text():
    """Each update is an entry of the log, and takes a round to the backup. So does a read, which is a capture, and no entry."""
    lines, length, reads = [], 0, 0
    for at, (command, told, answer) in enumerate(ANSWERED):
        n, step, message = at + 1, 5 * at + 1, 4 * at + 1
        is_read = command[0] == "get"
        reads += is_read
        asks = "read" if is_read else "sync"
        answers = f"value 1.{n} e1 r{reads} {answer}" if is_read else f"reply 1.{n} synced e1 v1 {answer}"
        entries = 0 if is_read else 1
        lines += [
            f"s{step} done",
            f"m{message} C1 M1 {asks} 1.{n} f{n} e1 v1 {told}",
            f"s{step + 1} done",
            f"m{message + 1} M1 B1 append e1 b{length} n{entries} r{n}",
            f"s{step + 2} done",
            f"m{message + 2} B1 M1 stored e1 l{length + entries} r{n}",
            f"s{step + 3} done",
            f"m{message + 3} M1 C1 {answers}",
            f"s{step + 4} done",
            f"c 1.{n} {answer}",
        ]
        length += entries
    lines.append(f"order {len(ANSWERED)}")
    lines += [f"1.{at + 1} {told} -> {answer}" for at, (_, told, answer) in enumerate(ANSWERED)]
    return "\n".join(lines) + "\n"


def history():
    """The same as `play --history` writes it."""
    names = {"none": ["found", None], "removed": ["removed", True], "absent": ["removed", False]}
    names |= {"swapped": ["swapped", True], "kept": ["swapped", False]}
    events, places = [], []
    for at, (command, _, answer) in enumerate(ANSWERED):
        word, _, value = answer.partition(" ")
        told = names.get(answer) or [word] + ([value.replace(".", "") if word == "found" else int(value)] if value else [])
        events.append({"cmd": command, "ev": "invoke", "id": [1, at + 1]})
        events.append({"ans": told, "ev": "complete", "id": [1, at + 1]})
        places.append({"cmd": command, "ev": "place", "id": [1, at + 1]})
    return "".join(json.dumps(line, separators=(",", ":")) + "\n" for line in events + places)


def runs():
    yield Run("each answer", ["play"], script, text)
    yield Run("each answer in a history", ["play", "--history"], script, history)
    yield Run("each answer checked", ["check"], history, "yes\n")
