"""Takes the step `trace FILE N` of a row: the trace of a run of N workers. Each line below it has a
derivation that was built or failed: its word, how it ended, how many milliseconds its builder takes
at least, and the words of its inputs. Each has one event, and each worker has one. The leases are
numbered from 0. No worker has two at a time, no builder begins before an input's ends, and all end
within the time of the run.
"""

import itertools
import json

from scenes import expect

SLACK = 5_000_000  # The microseconds by which a builder may take longer than its script.
# Values in order, as a text.
told = lambda values: "".join(f"{value}\n" for value in sorted(map(str, values)))


def take_trace(scene, step):
    """Compares a trace with the lines below the step."""
    file, jobs = step.words
    events = json.loads(scene.path(file).read_text())["traceEvents"]
    rows = [line.split(" ") for line in scene.text(step).splitlines()]
    found = {event["name"]: event for event in events}
    expect(told(range(len(rows))), told(event["args"]["lease"] for event in events))
    expect(told(range(1, int(jobs) + 1)), told({event["tid"] for event in events}))
    wanted = []
    for name, ended, *_ in rows:
        args = {"lease": found[name]["args"]["lease"], "ended": ended}
        args["path"] = scene.names[f"<{name}>"]
        times = {key: found[name][key] for key in ("tid", "ts", "dur")}
        wanted.append({"name": name, "ph": "X", "pid": 1, "args": args, **times})
    expect(*(told(json.dumps(it, sort_keys=True) for it in each) for each in (wanted, events)))
    expect("", told(faults_of(found, rows, scene.seconds)))


def faults_of(found, rows, seconds):
    """What is wrong with the times of events by their names."""
    spans = {name: (it["ts"], it["ts"] + it["dur"]) for name, it in found.items()}
    for name, _, least, *inputs in rows:
        begin, end = spans[name]
        if not int(least) * 1000 <= end - begin <= int(least) * 1000 + SLACK:
            yield f"{name}: from {begin} to {end}"
        if begin < 0 or end > seconds * 1_000_000:
            yield f"{name}: not within the run of {seconds} seconds"
        yield from (f"{name}: before the end of {it}" for it in inputs if spans[it][1] > begin)
    for one, other in itertools.combinations(found, 2):
        (begin, end), (start, last) = spans[one], spans[other]
        if found[one]["tid"] == found[other]["tid"] and begin < last and start < end:
            yield f"{one}: at the time of {other} by the same worker"
