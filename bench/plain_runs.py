"""Histories made without the program: scripts take turns as a picker says, on the machine of `plain_machine.py`.

The next event of a script is what `plain_running.py` makes after the replies that it has had, so a script is run anew for each of
its events. That is slow, and good for short histories alone.
"""
import plain_machine
import plain_running
import plain_trace as trace


class Turns:
    """Scripts that run on one machine, an event at a time. `stops` has, by their numbers, scripts whose tree fails."""

    def __init__(self, case, stops=()):
        self.case, self.stops, self.entries = case, dict(stops), []
        self.machine = plain_machine.Machine(case.scripts, case.texts, case.path, case.begins)
        self.due = {number: self.event_of(number) for number in range(len(case.scripts))}

    def event_of(self, number):
        """The event that a script makes next, or None."""
        own = [it for it in self.entries if it.thread == number]
        text, stop = self.case.texts[number], self.stops.get(number)
        parts = plain_running.Script(self.case.trees[number], number, text, self.case.fuel, own, stop).parts()
        return parts and parts.event

    def ready(self):
        """The scripts that can go on."""
        return [number for number, event in self.due.items() if event and self.machine.allowed(number, event)]

    def turn(self, number):
        event = self.due[number]
        reply = self.machine.step(number, event)
        texts = trace.spelled(trace.EVENTS, event), trace.spelled(trace.REPLIES, reply)
        self.entries.append(trace.Entry(number, event, reply, *texts))
        self.due[number] = self.event_of(number)

    def text(self):
        return trace.FIRST + "".join(f"{it.thread} {it.event_text} -> {it.reply_text}\n" for it in self.entries)


def history(case, pick, stops=()):
    """The trace of a run in which `pick` chooses the next script among those that can go on."""
    turns = Turns(case, stops)
    while ready := turns.ready():
        turns.turn(pick(ready))
    return turns.text()
