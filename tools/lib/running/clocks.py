"""Clocks of nodes, which are off from the time and drift, and stay within a skew."""

SECOND = 10**9


class Clock:
    """A clock. At time 0 it is ahead by `offset`; each second it gains `drift`, or loses it if negative. When it would
    be off by the skew its drift reverses, as in a synchronized clock. All values are in nanoseconds."""

    def __init__(self, offset, drift, skew):
        self.most, self.speed = skew - 1, abs(drift)
        # Its position on the way from the minimum offset to the maximum and back.
        self.begun = offset + self.most if drift >= 0 else 3 * self.most - offset

    def offset(self, at):
        """By how much it is ahead at a time; behind, where this is below 0."""
        if not self.most:
            return 0
        way = (self.begun + at * self.speed // SECOND) % (4 * self.most)
        return way - self.most if way <= 2 * self.most else 3 * self.most - way

    def reading(self, at):
        """What it reads at a time."""
        return max(at + self.offset(at), 0)

    def first(self, target):
        """The first time at which it reads a target or more. It never goes back, as it drifts by less than a second in
        a second."""
        low, high = target - self.most - 1, target + self.most
        while high - low > 1:
            middle = (low + high) // 2
            if middle + self.offset(middle) >= target:
                high = middle
            else:
                low = middle
        return high
