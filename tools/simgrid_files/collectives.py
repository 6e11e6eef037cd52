"""SMPI's collectives as messages, by SMPI's default algorithms."""

from . import values

COLLECTIVE = "collective"


class Collectives:
    """Writes collectives; its subclass has `send`, `said` and the parsing of a line."""

    def exchange(self, line, rank, sends, sources):
        """Sends and receives at once, and waits for the requests; those that SMPI sends at once are left to a later wait.

        A `wait` is for the oldest request, so this works only without older requests. The sends of an earlier collective are
        waited for first: every rank has received them before it reaches this line. With other older requests the receives block
        one after the other.
        """
        alone = len(sends) + len(sources) == 1
        if rank.requests and not alone and all(request == COLLECTIVE for request in rank.requests):
            for _ in rank.requests:
                self.said(line, rank, "wait")
            rank.requests = []
        if alone or rank.requests:
            for other, size in sends:
                if alone:
                    self.send(line, rank, other, size, COLLECTIVE)
                else:
                    self.isend(line, rank, other, size)
                    rank.requests.append(COLLECTIVE)
            for other in sources:
                self.receive(line, rank, other)
            return
        for other in sources:
            self.receive(line, rank, other, "irecv")
        eager = [message for message in sends if self.is_eager(message[1])]
        slow = [message for message in sends if not self.is_eager(message[1])]
        for other, size in slow + eager:
            self.isend(line, rank, other, size)
        for _ in range(len(sources) + len(slow)):
            self.said(line, rank, "wait")
        rank.requests += [COLLECTIVE] * len(eager)

    def isend(self, line, rank, other, size):
        self.sizes[int(values.fraction(size)[0])] += 1
        rank.sent.setdefault(other, []).append((COLLECTIVE, line))
        self.said(line, rank, f"isend p{other} {size}")

    def receive(self, line, rank, other, action="recv"):
        rank.received.setdefault(other, []).append((COLLECTIVE, line))
        self.said(line, rank, f"{action} p{other}")

    def as_line(self, line, rank, text, size, targets, sources):
        """Writes a collective as one line instead of its messages."""
        for other in targets:
            self.sizes[int(values.fraction(size)[0])] += 1
            rank.sent.setdefault(other, []).append((COLLECTIVE, line))
        for other in sources:
            rank.received.setdefault(other, []).append((COLLECTIVE, line))
        self.said(line, rank, text)

    def others(self, rank):
        """The other ranks, from the next one on."""
        return [(rank.number + step) % self.count for step in range(1, self.count)]

    def tree(self, rank, root):
        """The parent and the children of a rank in the binomial tree of a root, nearest first."""
        place, step, below = (rank.number - root) % self.count, 1, []
        while step < self.count and not place & step:
            if place + step < self.count:
                below.append((place + step + root) % self.count)
            step *= 2
        return (place - step + root) % self.count if place else None, below

    def down(self, line, rank, root, size):
        """From the root to all, along the tree."""
        above, below = self.tree(rank, root)
        if above is not None:
            self.receive(line, rank, above)
        for other in reversed(below):
            self.send(line, rank, other, size, COLLECTIVE)

    def gathered(self, line, rank, root, size):
        """All send to the root at once."""
        if rank.number == root:
            self.exchange(line, rank, [], self.others(rank))
        else:
            self.exchange(line, rank, [(root, size)], [])

    def scattered(self, line, rank, root, sizes):
        if rank.number == root:
            self.exchange(line, rank, [(other, sizes[other]) for other in self.others(rank)], [])
        else:
            self.exchange(line, rank, [], [root])

    def computed(self, line, rank, flops):
        """The computation of a reduction: in SMPI's replay each rank computes all of it, after the messages."""
        if values.fraction(flops)[0]:
            self.said(line, rank, f"compute {flops}")

    def total(self, line, words, factor):
        return self.amount(line, str(sum(int(self.amount(line, word, factor) if factor != 1 else int(values.fraction(
            self.amount(line, word))[0])) for word in words)))

    # Lines of a trace ----------------------------------------------------------------------------------------------

    def do_barrier(self, line, rank, words):
        """A message of no bytes to rank 0, and one back."""
        if self.count == 1:
            return
        if not self.as_messages:
            self.barriers_at = self.barriers_at or line
            self.said(line, rank, "barrier")
            return
        self.barriers += 1
        self.gathered(line, rank, 0, "0")
        self.scattered(line, rank, 0, ["0"] * self.count)

    def do_bcast(self, line, rank, words):
        self.need(line, words, 1)
        size, root = self.amount(line, words[0], self.size(line, rank, words, 2)), self.root(line, words, 1)
        if root == 0 and not self.is_eager(size):
            above, below = self.tree(rank, root)
            self.as_line(line, rank, f"bcast {size}", size, reversed(below), () if above is None else (above,))
        else:
            self.down(line, rank, root, size)

    def do_reduce(self, line, rank, words):
        self.need(line, words, 2)
        size, flops = self.amount(line, words[0], self.size(line, rank, words, 3)), self.amount(line, words[1])
        self.gathered(line, rank, self.root(line, words, 2), size)
        self.computed(line, rank, flops)

    def do_allreduce(self, line, rank, words):
        self.need(line, words, 2)
        size, flops = self.amount(line, words[0], self.size(line, rank, words, 2)), self.amount(line, words[1])
        self.gathered(line, rank, 0, size)
        self.down(line, rank, 0, size)
        self.computed(line, rank, flops)

    def do_alltoall(self, line, rank, words):
        self.need(line, words, 2)
        self.all_to_all(line, rank, self.amount(line, words[0], self.size(line, rank, words, 2)))

    def all_to_all(self, line, rank, size):
        """The line `alltoall`, or messages if requests are pending or sends don't wait."""
        if not rank.requests and not self.is_eager(size):
            self.as_line(line, rank, f"alltoall {size}", size, self.others(rank), self.others(rank))
        else:
            self.exchange(line, rank, [(other, size) for other in self.others(rank)], self.others(rank))

    def do_alltoallv(self, line, rank, words):
        """SEND-BUFFER SENT.. RECEIVE-BUFFER RECEIVED.., by rank."""
        self.need(line, words, 2 * self.count + 2)
        factor, others = self.size(line, rank, words, 2 * self.count + 2), self.others(rank)
        self.exchange(line, rank, [(other, self.amount(line, words[1 + other], factor)) for other in others], others)

    def do_gather(self, line, rank, words):
        self.need(line, words, 2)
        self.gathered(line, rank, self.root(line, words, 2), self.amount(line, words[0], self.size(line, rank, words, 3)))

    def do_gatherv(self, line, rank, words):
        self.need(line, words, self.count + 1)
        size = self.amount(line, words[0], self.size(line, rank, words, self.count + 2))
        self.gathered(line, rank, self.root(line, words, self.count + 1), size)

    def do_scatter(self, line, rank, words):
        self.need(line, words, 2)
        size = self.amount(line, words[0], self.size(line, rank, words, 3))
        self.scattered(line, rank, self.root(line, words, 2), [size] * self.count)

    def do_scatterv(self, line, rank, words):
        self.need(line, words, self.count + 1)
        factor = self.size(line, rank, words, self.count + 2)
        self.scattered(line, rank, self.root(line, words, self.count + 1),
                       [self.amount(line, word, factor) for word in words[:self.count]])

    def do_allgather(self, line, rank, words):
        self.need(line, words, 2)
        self.all_to_all(line, rank, self.amount(line, words[0], self.size(line, rank, words, 2)))

    def do_allgatherv(self, line, rank, words):
        self.need(line, words, self.count + 1)
        # After the sizes come types, or offsets in a buffer, which have no type before them.
        places = self.count + 3 < len(words) <= 2 * self.count + 1
        size = self.amount(line, words[0], self.size(line, rank, words, len(words) if places else self.count + 1))
        self.exchange(line, rank, [(other, size) for other in self.others(rank)], self.others(rank))

    def do_reducescatter(self, line, rank, words):
        self.need(line, words, self.count + 1)
        factor = self.size(line, rank, words, self.count + 1)
        sizes = [self.amount(line, word, factor) for word in words[:self.count]]
        if len(set(sizes)) > 1:
            self.notes.add(line, "reducescatter of parts of several sizes goes over rank 0; SMPI takes another algorithm for these")
        self.gathered(line, rank, 0, self.total(line, words[:self.count], factor))
        self.scattered(line, rank, 0, sizes)
        self.computed(line, rank, self.amount(line, words[self.count]))

    def do_scan(self, line, rank, words):
        """Each sends to all of higher number."""
        self.need(line, words, 2)
        size = self.amount(line, words[0], self.size(line, rank, words, 2))
        above = [(other, size) for other in range(rank.number + 1, self.count)]
        self.exchange(line, rank, above, list(range(rank.number)))
        self.computed(line, rank, self.amount(line, words[1]))

    do_exscan = do_scan
