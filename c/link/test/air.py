"""An air between interfaces, that loses frames, sends some twice and delays each on its own.

It runs where the test calls it, by draws of one seed, and notes each copy that it put on a wire: so
a test knows what came, and needn't hope.
"""

import heapq
import itertools
import random
import select
import time


class Air:
    def __init__(self, links, loss=0, doubles=0, latest=0, seed=1):
        self.links, self.loss, self.doubles, self.latest = links, loss, doubles, latest
        self.draws, self.order, self.waiting = random.Random(seed), itertools.count(), []
        self.frames, self.copies = [], {}
        self.counts = {"frames": 0, "copies": 0, "lost": 0, "twice": 0, "overtaken": 0}
        self.last = 0
        for link in links:
            link.setblocking(False)

    def spread(self, source, frame):
        """A frame that a station gave goes to all others."""
        self.counts["frames"] += 1
        self.frames.append(frame)
        for k in range(len(self.links)):
            if k == source:
                continue
            if self.draws.random() * 100 < self.loss:
                self.counts["lost"] += 1
                continue
            twice = self.draws.random() * 100 < self.doubles
            self.counts["twice"] += twice
            for _ in range(1 + twice):
                at = time.monotonic() + self.draws.random() * self.latest / 1000
                heapq.heappush(self.waiting, (at, next(self.order), k, frame))

    def deliver(self):
        while self.waiting and self.waiting[0][0] <= time.monotonic():
            _, number, k, frame = heapq.heappop(self.waiting)
            try:
                self.links[k].send(frame)
            except OSError:
                continue
            self.counts["copies"] += 1
            self.counts["overtaken"] += number < self.last
            self.last = max(self.last, number)
            came = self.copies.setdefault((k, frame[26:28], frame[30:38]), 0)
            self.copies[k, frame[26:28], frame[30:38]] = came + 1

    def hear(self, wait):
        ready, _, _ = select.select(self.links, [], [], wait)
        for link in ready:
            try:
                self.spread(self.links.index(link), link.recv(2048))
            except OSError:
                pass

    def run(self, length):
        """Until nothing waits any more, and none came for so many seconds."""
        quiet = time.monotonic()
        while self.waiting or time.monotonic() - quiet < length:
            before = self.counts["frames"]
            self.hear(0.002)
            self.deliver()
            if self.counts["frames"] != before:
                quiet = time.monotonic()

    def came(self, k, frame):
        """How many copies of a GBC, by its source and number, whoever sent it on."""
        return self.copies.get((k, frame[26:28], frame[30:38]), 0)
