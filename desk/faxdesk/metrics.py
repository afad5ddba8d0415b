"""What a monitor sees of the queue, in Prometheus' text format."""
import re
import time

from .client import STATES, TIMES

READY = STATES.index("ready")


class Metrics:
    """The queue as the clerk saw it. The last confirmed page is known since the desk was started."""

    def __init__(self):
        self.seen, self.confirmed = None, time.monotonic()
        self.states, self.modems, self.oldest, self.pages = {}, "", None, None

    def saw(self, listing, states, modems, times_of):
        """Takes what was seen in one look. `times_of` returns the text of a job's times."""
        pages = sum(int(line[47:56].partition(":")[0]) for line in listing.split("\n")[1:] if line)
        if self.pages is not None and pages > self.pages:
            self.confirmed = time.monotonic()
        ready = min((job for job, state in states.items() if state == READY), default=None)
        times = times_of(ready) if ready else None
        self.oldest = int(TIMES.fullmatch(times)[1]) if times else None
        self.seen, self.pages, self.states, self.modems = time.monotonic(), pages, states, modems

    def text(self):
        """The lines for a scrape."""
        now, counts, lines = time.monotonic(), [0] * len(STATES), []

        def gauge(name, about, *values):
            lines.extend((f"# HELP {name} {about}", f"# TYPE {name} gauge"))
            lines.extend(f"{name}{labels} {value:g}" for labels, value in values)

        for state in self.states.values():
            counts[state] += 1
        gauge("faxqd_seen_seconds", "Seconds since the queue answered the desk last.",
              ("", float("inf") if self.seen is None else now - self.seen))
        gauge("faxqd_jobs", "Jobs by state, of the newest 200.",
              *((f'{{state="{name}"}}', counts[place]) for place, name in enumerate(STATES) if name))
        age = max(time.time() - self.oldest, 0) if self.oldest else 0
        gauge("faxqd_oldest_ready_seconds", "Age of the oldest ready job, or 0.", ("", age))
        kinds = re.findall(r"(?m)^[^:]+:(up|down|gone)( grant)?", self.modems)
        gauge("faxqd_modems", "Modems that are up, down or gone, and those that hold a grant.",
              *((f'{{state="{kind}"}}', sum(found == kind for found, _ in kinds)) for kind in ("up", "down", "gone")),
              ('{state="holding"}', sum(bool(held) for _, held in kinds)))
        gauge("faxqd_last_page_seconds", "Seconds since a page was confirmed, or since the desk was started.",
              ("", now - self.confirmed))
        return "\n".join(lines) + "\n"
