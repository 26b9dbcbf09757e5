"""Remove locks (docs/RULES.md, Remove locks) and cancel slots (docs/CANCEL_SLOTS.md), one step after the other."""


class Locks:
    """The remove locks, the references that each seat holds, and the locks that each seat knows drained."""
    def __init__(self, locks, seats):
        self.removed = [False] * locks
        self.count = [0] * locks
        self.held = [[] for _ in range(seats)]
        self.known = [set() for _ in range(seats)]

    def acquire(self, seat, lock, tag):
        if lock >= len(self.count):
            return 'no_lock'
        if len(self.held[seat]) >= 64:
            return 'seat_full'
        if self.removed[lock]:
            return {'status': 3221225558}
        self.held[seat].append((lock, tag))
        self.count[lock] += 1
        return {'status': 0}

    def release(self, seat, lock, tag):
        if lock >= len(self.count):
            return 'no_lock'
        if (lock, tag) not in self.held[seat]:
            return 'not_held'
        self.held[seat].remove((lock, tag))
        self.count[lock] -= 1
        return 'ok'

    def begin_remove(self, seat, lock, tag):
        if lock >= len(self.count):
            return 'no_lock'
        if (lock, tag) not in self.held[seat]:
            return 'not_held'
        if self.removed[lock]:
            return 'already_removing'
        self.removed[lock] = True
        return self.release(seat, lock, tag)

    def drained(self, seat, lock):
        if lock >= len(self.count):
            return 'no_lock'
        word = int(self.removed[lock]) + 2 * self.count[lock]
        if word == 1:
            self.known[seat].add(lock)
            return 'yes'
        return {'busy': word}

    def hand(self, seat, lock, tag, to):
        if lock >= len(self.count):
            return 'no_lock'
        if (lock, tag) not in self.held[seat]:
            return 'not_held'
        if len(self.held[to]) >= 64:
            return 'seat_full'
        self.held[seat].remove((lock, tag))
        self.held[to].append((lock, tag))
        return 'ok'


class CancelSlots:
    """The cancel slots: their flags, their contents, and where their owners are."""
    def __init__(self, slots):
        self.flag = [False] * slots
        self.content = [0] * slots
        self.owner = ['idle'] * slots

    def swap_out(self, k):
        use, self.content[k] = self.content[k], 0
        return use

    def publish(self, k, use):
        if self.owner[k] != 'idle':
            return 'used'
        self.content[k] = use
        if not self.flag[k]:
            self.owner[k] = 'standing'
            return 'standing'
        self.owner[k] = 'done'
        use = self.swap_out(k)
        return {'taken': use} if use else 'lost'

    def withdraw(self, k):
        if self.owner[k] != 'standing':
            return 'not_standing'
        self.owner[k] = 'done'
        use = self.swap_out(k)
        return {'taken': use} if use else 'lost'

    def request(self, k):
        if k >= len(self.flag):
            return 'no_slot'
        self.flag[k] = True
        use = self.swap_out(k)
        return {'taken': use} if use else 'nothing'
