#!/usr/bin/env python3
"""Makes the example `room`: a machine room of 256 nodes, and a day of 3,000 requests in it. Values are watts.

`python3 examples/room.py tree` prints tree.txt, `python3 examples/room.py requests` prints requests.txt, the same in every run."""

import random
import sys

REQUESTS = 3000
ROWS, RACKS, MACHINES = 3, 4, 20  # rows, racks in a row, machines in a rack
ROOM = 0
ROW = range(1, 1 + ROWS)
RACK = range(ROW.stop, ROW.stop + ROWS * RACKS)
MACHINE = range(RACK.stop, RACK.stop + len(RACK) * MACHINES)
IDLE, BUSY = 110, 380


def row_of(rack):
    return ROW[RACK.index(rack) // RACKS]


def machines_of(rack):
    first = RACK.index(rack) * MACHINES
    return MACHINE[first : first + MACHINES]


def tree():
    yield "# A machine room: 0 is the room itself, with its battery and its dashboard."
    yield f"# {ROW[0]} to {ROW[-1]} are its rows, {RACK[0]} to {RACK[-1]} the racks, {MACHINE[0]} to {MACHINE[-1]} the machines."
    yield f"nodes {MACHINE.stop}"
    yield "\n# rows, each with its cooling"
    yield from (f"{row} {ROOM}" for row in ROW)
    for row in ROW:
        yield f"\n# racks of row {row}, each with its switch, its fans and a panel on its door"
        yield from (f"{rack} {row}" for rack in RACK if row_of(rack) == row)
    for rack in RACK:
        yield f"\n# machines of rack {rack}"
        yield from (f"{machine} {rack}" for machine in machines_of(rack))


class Day:
    """The lines of requests.txt so far, and what each node draws."""

    def __init__(self):
        self.lines, self.left, self.watts, self.random = [], REQUESTS, dict.fromkeys(range(MACHINE.stop), 0), random.Random(1).random

    def below(self, bound):
        return int(self.random() * bound)

    def one_of(self, nodes):
        return nodes[self.below(len(nodes))]

    def ask(self, line):
        if self.left:
            self.left -= 1
            self.lines.append(line)

    def say(self, text):
        if self.left:
            self.lines.append(f"\n# {text}")

    def look(self, node=ROOM):
        self.ask(f"combine {node}")

    def draw(self, node, watts):
        self.watts[node] = watts
        self.ask(f"write {node} {watts}")

    def waver(self, machine):
        self.draw(machine, max(60, self.watts[machine] + self.below(31) - 15))

    # ---- what happens in a day

    def morning(self):
        self.say("06:00 the room is switched on, rack by rack, with a look at the dashboard after each")
        self.draw(ROOM, 250)
        for row in ROW:
            self.draw(row, 1500)
        for rack in RACK:
            self.draw(rack, 150 + self.below(40))
            for machine in machines_of(rack):
                self.draw(machine, IDLE + self.below(20))
            self.look()

    def quiet(self, time, turns):
        self.say(f"{time} little happens: loads waver, the dashboard is on")
        for _ in range(turns):
            for _ in range(1 + self.below(3)):
                self.waver(self.one_of(MACHINE))
            self.look()

    def job(self, time, rack):
        self.say(f"{time} a job starts on rack {rack}: a burst of writes, then its row cools more")
        for machine in machines_of(rack):
            self.draw(machine, BUSY + self.below(60))
            if self.below(6) == 0:
                self.look()
        self.draw(row_of(rack), self.watts[row_of(rack)] + 800)
        self.look()

    def visit(self, time, rack):
        self.say(f"{time} someone stands at the panel of rack {rack}, whose machines waver")
        for _ in range(4 + self.below(4)):
            self.look(rack)
            for _ in range(self.below(3)):
                self.waver(self.one_of(machines_of(rack)))

    def done(self, time, rack):
        self.say(f"{time} the job on rack {rack} is done")
        for machine in machines_of(rack):
            self.draw(machine, IDLE + self.below(20))
        self.draw(row_of(rack), self.watts[row_of(rack)] - 800)
        self.look()

    def failure(self, time):
        self.say(f"{time} the mains fail: the battery feeds the room and counts below zero; machines are slowed down, and many look on")
        for _ in range(12):
            self.draw(ROOM, -sum(watts for node, watts in self.watts.items() if node != ROOM))
            self.look()
            for _ in range(8):
                self.draw(self.one_of(MACHINE), 70)
            self.look(self.one_of(RACK))
            self.look(self.one_of(ROW))
        self.say("and are back: the battery is charged")
        self.draw(ROOM, 2500)
        self.look()

    def night(self):
        self.say("20:00 the night: backups run rack after rack, and hardly anyone looks")
        while self.left:
            rack = self.one_of(RACK)
            for machine in machines_of(rack):
                self.draw(machine, IDLE + 90 + self.below(40))
            if self.below(3) == 0:
                self.look()


def requests():
    day = Day()
    day.lines.append("# A day in the machine room: `write` is what a node draws, `combine 0` a look at the dashboard.")
    day.morning()
    for hour in range(8, 20):
        rack = day.one_of(RACK)
        day.quiet(f"{hour:02}:00", 20 + day.below(10))
        day.job(f"{hour:02}:20", rack)
        day.visit(f"{hour:02}:30", rack if hour % 2 else day.one_of(RACK))
        if hour == 14:
            day.failure(f"{hour:02}:35")
        day.quiet(f"{hour:02}:40", 10)
        day.done(f"{hour:02}:50", rack)
    day.night()
    return day.lines


if __name__ == "__main__":
    made = {"tree": tree, "requests": requests}
    if len(sys.argv) != 2 or sys.argv[1] not in made:
        sys.exit(__doc__)
    print("\n".join(made[sys.argv[1]]()))
