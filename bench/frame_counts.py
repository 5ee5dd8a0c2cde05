"""Refcache of dictionaries, as a second reading of it: which frames are free, what each core has yet to add to counts, which frames it is to review, and
the lines of the state that tell of them. bench/state_reading.py and bench/lesson_reading.py use it."""
import bisect

PLACES = 64  # a core keeps one frame's change in each place, which is the frame's number modulo this


class FrameCounts:
    def __init__(self, cores, frames):
        self.cores, self.free, self.epoch = cores, list(range(frames)), 0
        self.globals, self.dirty, self.flushed = {}, set(), set()  # the first has each frame in use
        self.changes, self.queues = [{} for _ in range(cores)], [[] for _ in range(cores)]  # by frame; frames and their epochs

    def take(self):
        """The lowest free frame, which nothing counts yet; None if there is none."""
        if not self.free:
            return None
        frame = self.free.pop(0)
        self.globals[frame] = 0
        return frame

    def begin(self, frame, count):
        self.globals[frame] = count

    def add(self, core, frame, by):
        """The change stays with the core. Another frame's change that is in its place goes out."""
        for other in [f for f in self.changes[core] if f != frame and f % PLACES == frame % PLACES]:
            self.hand_on(core, other)
        self.changes[core][frame] = self.changes[core].get(frame, 0) + by

    def enqueue(self, core, frame):
        self.dirty.discard(frame)
        self.queues[core].append((frame, self.epoch))

    def hand_on(self, core, frame):
        """The change goes into the global count. One that is 0 then is noticed: the frame is queued, or dirty if it is queued already."""
        self.globals[frame] += self.changes[core].pop(frame)
        if self.globals[frame] == 0:
            if any(frame == queued for queue in self.queues for queued, _ in queue):
                self.dirty.add(frame)
            else:
                self.enqueue(core, frame)

    def flush(self, core):
        """The lowest frame's change goes out; a core without one is marked, and the last mark ends the epoch."""
        if self.changes[core]:
            return self.hand_on(core, min(self.changes[core]))
        self.flushed.add(core)
        if len(self.flushed) == self.cores:
            self.epoch, self.flushed = self.epoch + 1, set()
        return None

    def review(self, core):
        """The first frame of the queue, if two epochs have ended since: it stays in use, is queued anew, or is free."""
        if not self.queues[core] or self.epoch < self.queues[core][0][1] + 2:
            return
        frame, _ = self.queues[core].pop(0)
        if self.globals[frame] == 0 and frame in self.dirty:
            self.enqueue(core, frame)
        elif self.globals[frame] == 0:
            del self.globals[frame]
            bisect.insort(self.free, frame)

    def lines(self):
        """The cores' lines, and those of the frames in use."""
        for core in range(self.cores):
            for frame, change in sorted(self.changes[core].items()):
                yield f"core {core} count frame {frame} {change:+d}"
            for frame, epoch in self.queues[core]:
                yield f"core {core} queue frame {frame} epoch {epoch}"
            if core in self.flushed:
                yield f"core {core} flushed"
        for frame, known in sorted(self.globals.items()):
            count = known + sum(changes.get(frame, 0) for changes in self.changes)
            yield f"frame {frame} count {count} global {known}" + (" dirty" if frame in self.dirty else "")
