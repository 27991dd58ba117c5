"""Runs pieces of work side by side: one a lane, as many as the free memory holds. A piece may add further ones."""
import threading


class Lanes:
    def __init__(self, number, memory):
        self.number, self.memory = number, memory
        self.waiting, self.running, self.failures = [], [], []
        self.changed = threading.Condition()

    def add(self, weight, needs, call):
        """Adds a piece that needs this much memory. Those of greater weight start first."""
        with self.changed:
            self.waiting.append((weight, needs, call))
            self.waiting.sort(key=lambda it: -it[0])
            self.changed.notify_all()

    def run(self):
        """Returns once nothing is left. Where pieces failed, it raises what the first of them raised."""
        threads = [threading.Thread(target=self.lane, daemon=True) for _ in range(self.number)]
        for it in threads:
            it.start()
        for it in threads:
            it.join()
        if self.failures:
            raise self.failures[0]

    def next(self):
        """Waits for a piece that the memory holds (any, where nothing runs) and takes it; None where none is left."""
        with self.changed:
            while self.waiting or self.running:
                room = self.memory - sum(needs for _, needs, _ in self.running)
                fits = [it for it in self.waiting if not self.running or it[1] <= room]
                if fits:
                    self.waiting.remove(fits[0])
                    self.running.append(fits[0])
                    return fits[0]
                self.changed.wait()
            return None

    def lane(self):
        piece = self.next()
        while piece:
            try:
                piece[2]()
            except BaseException as failure:
                self.failures.append(failure)
            with self.changed:
                self.running.remove(piece)
                self.changed.notify_all()
            piece = self.next()
