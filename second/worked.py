"""What the program `worked` must print: the calls of examples/two-studies.job with a route among them, and the state after the last."""

from collections import deque
from pathlib import Path

import planner

HERE = Path(__file__).resolve().parent.parent


def reach(plan, start):
    """Every place that steps lead to from the start."""
    met, waiting = {start}, deque([start])
    while waiting:
        at = waiting.popleft()
        for step in planner.steps_of(plan.net, plan.load):
            if step.start == at and step.end not in met:
                met.add(step.end)
                waiting.append(step.end)
    return sorted(met)


def lines():
    job = planner.read_job((HERE / "examples" / "two-studies.job").read_bytes())
    plan, said, routes = planner.Plan(job.net, job.most_rest), [], 0
    settles = sum(1 for call in job.calls if call.name == "settle")
    for call in job.calls:
        if call.name == "settle":
            settles -= 1
            if settles == 0:
                said.append(plan.route())
                routes += said[-1].startswith("sent")
        said.append(planner.answer(job, plan, call))
        if call.name == "settle":
            routes += int(said[-1].split()[0])
    said.append("loads " + " ".join(map(str, plan.load)))
    said.append("rests " + " ".join(map(str, plan.rests)))
    said.append(f"routes {routes}")
    said.append("reach of 1: " + " ".join(map(str, reach(plan, 1))))
    return said


if __name__ == "__main__":
    print("\n".join(lines()))
