"""What the clients of a cluster saw, in the order of real time, as `curp check` reads it."""

import json
import resource
import subprocess
from pathlib import Path

from client import Call, Watcher


def line(**fields) -> str:
    return json.dumps(fields, separators=(",", ":"), sort_keys=True)


class Recorder(Watcher):
    """Writes down each invocation as it is given, and each completion as it is heard."""

    def __init__(self):
        self.events: list[tuple[int, Call, list | None] | None] = []
        self.places: dict[Call, int] = {}

    def invoked(self, client: int, call: Call) -> None:
        if call in self.places:
            # It was lost before it was kept: only now it may take effect.
            self.events[self.places[call]] = None
        self.places[call] = len(self.events)
        self.events.append((client, call, None))

    def completed(self, client: int, call: Call, answer: list) -> None:
        self.events.append((client, call, answer))

    def lines(self) -> list[str]:
        """The history. A request that no client node took has no number, and never was."""
        found = []
        for client, call, answer in filter(None, self.events):
            name = [client, call.number]
            if answer is not None:
                found.append(line(ans=answer, ev="complete", id=name))
            elif call.number:
                found.append(line(cmd=call.command, ev="invoke", id=name))
        return found

    def unanswered(self) -> set[tuple[int, int]]:
        """The requests that didn't complete; 0 stands for the number of one that no client node took."""
        events = [(client, call) for client, call, _ in filter(None, self.events)]
        return {(client, call.number) for client, call in events if not call.answer.done()}

    def answered(self) -> dict[tuple[int, int], list]:
        """The answer of each request that completed."""
        events = filter(None, self.events)
        return {(client, call.number): answer for client, call, answer in events if answer is not None}


# ---- what the proved programs say of a run


class Wrong(Exception):
    """Something that has to hold doesn't."""


MOST_SECONDS = 120  # of a processor, so that no verdict hangs on what else the machine does


def run(words: list[str], given: str = "") -> str:
    """What a program writes. Another status than 0 is wrong."""
    limit = resource.RLIMIT_CPU, (MOST_SECONDS, MOST_SECONDS)
    done = subprocess.run(
        words, input=given, capture_output=True, text=True, preexec_fn=lambda: resource.setrlimit(*limit)
    )
    if done.returncode != 0:
        raise Wrong(f"{' '.join(words[:4])} ended with {done.returncode}: {done.stderr.strip()[-500:]}")
    return done.stdout


def gather(curpd: str, journals: list[Path], until: int | None = None) -> tuple[str, str]:
    """The script of what the nodes did, and what `curpd` says that `play` writes for it."""
    words = [curpd, "gather", *map(str, sorted(journals))]
    words += [] if until is None else ["--until", str(until)]
    script, gap, played = run(words).partition("\n\n")
    if not gap:
        raise Wrong("gather writes no empty line")
    return script + "\n", played


def check_script(curp: str, script: str, played: str) -> None:
    """`curp play` writes for the script what was written behind it."""
    if "order " not in played:
        raise Wrong("curpd gather writes no order")
    if run([curp, "play"], script) != played:
        raise Wrong("curp play writes something else for the script than curpd gather")


def check_history(curp: str, script: str, recorder: Recorder) -> None:
    """The recorder's history is linearizable by the order of the script, and what was answered stands in the script.

    And the recorder heard of all that the script completes, or the history would say too little.
    """
    told = [json.loads(text) for text in run([curp, "play", "--history"], script).splitlines()]
    completed = {tuple(event["id"]): event["ans"] for event in told if event["ev"] == "complete"}
    answered = recorder.answered()
    for name, answer in answered.items():
        if completed.get(name) != answer:
            raise Wrong(f"request {name} was answered {answer}, and the script has {completed.get(name)}")
    unheard = sorted(completed.keys() - answered.keys())
    if unheard:
        raise Wrong(f"requests completed, and the recorder never heard of it: {unheard[:5]}")
    places = [line(**event) for event in told if event["ev"] == "place"]
    if not places:
        raise Wrong("no request stands in the order")
    verdict = run([curp, "check"], "\n".join([*recorder.lines(), *places, ""])).strip()
    if verdict != "yes":
        raise Wrong(f"curp check says {verdict!r} to the recorder's history with the script's order")
