"""The rack test from Python: all calls, on the set whose file is named.

    cc -shared -o target/librack.so -Wl,--whole-archive target/staticlib/librack.a \
        -Wl,--no-whole-archive
    PYTHONPATH=include python3 examples/use.py examples/x.set
"""

import sys

from rack import Number, Rack

rack = Rack("target/librack.so")
with open(sys.argv[1], "rb") as file:
    task_set = file.read()


def print_verdict(call, verdict):
    """Prints what a verdict says; ends where the set was refused."""
    if verdict.number == Number.OK:
        print(f"{call}: accepted")
    elif verdict.number == Number.OVERRUN:
        print(f"{call}: {verdict.x} ticks may carry {verdict.w} units")
    else:
        sys.exit(f"refused, {verdict.number.name} at record {verdict.place}")


print_verdict("judge on 2 processors at 1/1", rack.judge(task_set, 2, 1, 1))

# With 0/0 the library picks the speed and names it: there is one, since no task was dense.
verdict = rack.judge(task_set, 2, 0, 0)
print(f"judge on 2 processors at 0/0: the speed is {verdict.p}/{verdict.q}")

figures = rack.figures(task_set, 0)
print(f"figures of task 0: length {figures.length}, volume {figures.volume}")

demand = rack.demand(task_set, 0, 1, 1, 65)
if demand.number == Number.OK:
    print(f"demand of task 0 at 1/1, tick 65: {demand.work}")

layers = rack.layers(task_set, 0, 1, 1)
print("layers of task 0 at 1/1:", *(f"({width},{ticks})" for width, ticks in layers.pairs))

# As a poor link hands it in, in parts that end anywhere.
upload = rack.upload(65536)
for at in range(0, len(task_set), 7):
    upload.part(task_set[at : at + 7])
print_verdict("upload in parts of 7 bytes, judged on 2 processors at 1/1", upload.close(2, 1, 1))
