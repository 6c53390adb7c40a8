"""What every synopsis kind has.

A kind states its number and its greatest length, where 2,049 says that it is overlong. It gives
the empty form, the form of a reading, the join of two forms, the frame of a form, and what a
frame holds.
"""

from functools import reduce

OVERLONG = 2049


class Refused(Exception):
    """Bytes that are no frame: the number of the refusal, the place and the kind."""

    def __init__(self, number, place, kind):
        super().__init__(number, place, kind)
        self.number = number
        self.place = place
        self.kind = kind

    def within(self, start):
        """The same fault where the bytes are part of others, from `start` on."""
        return Refused(self.number, self.place + start, self.kind)


class NotWritten(Exception):
    """A frame that is not written, and the number of the refusal."""

    def __init__(self, number):
        super().__init__(number)
        self.number = number


class Kind:
    """What all kinds share. A kind adds `empty`, `single`, `join`, and for its frames `count_of`, `body_of`,
    `allows` (a count), `fits` (a count and a length) and `held` (what a frame holds, given that its first four bytes
    are right)."""

    def is_overlong(self):
        return self.greatest == OVERLONG

    def join_all(self, readings):
        """The forms of the readings joined one after another, from the empty form on."""
        return reduce(self.join, map(self.single, readings), self.empty)

    def frame(self, form):
        """The frame of a form."""
        if self.is_overlong():
            raise NotWritten(3)
        body = self.body_of(form)
        head = bytes([self.number, self.count_of(form)])
        return head + (4 + len(body)).to_bytes(2, "big") + body

    def length(self, form):
        return OVERLONG if self.is_overlong() else len(self.frame(form))

    def encode(self, form, room):
        """The frame's length, and the room's bytes after the frame was written at its front."""
        frame = self.frame(form)
        if len(room) < len(frame):
            raise NotWritten(8)
        return len(frame), frame + room[len(frame):]

    def decode(self, frame):
        """The form that a frame holds."""
        if self.is_overlong():
            raise Refused(3, 0, self.number)
        if len(frame) < 4:
            raise Refused(9, len(frame), self.number)
        if frame[0] != self.number:
            raise Refused(10, 0, self.number)
        count = frame[1]
        if not self.allows(count):
            raise Refused(11, 1, self.number)
        end = int.from_bytes(frame[2:4], "big")
        if end != len(frame) or not self.fits(count, end):
            raise Refused(12, 2, self.number)
        return self.held(frame)
