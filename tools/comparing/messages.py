"""Messages for captures: those of dictionaries/otp.recorded and grown ones, each with identifiers of its own."""
import os

import folders
from recorded import Table

CLASS, MANDATORY = 25, 0x40


def recorded_messages():
    """Returns the octets of the messages of dictionaries/otp.recorded."""
    with open(f"{os.path.dirname(folders.TOOLS)}/dictionaries/otp.recorded", encoding="utf-8") as it:
        return [octets for _, _, octets in Table([it.read()]).messages]


class Maker:
    """Makes messages no two of which have one Hop-by-Hop Identifier."""

    def __init__(self, chance, recorded, has_bare):
        self.chance, self.recorded, self.has_bare, self.count = chance, recorded, has_bare, 0

    def message(self):
        """Returns the octets of a message: as recorded, with more AVPs, or, where that is asked for, with none."""
        octets = self.chance.choice(self.recorded)
        draw = self.chance.random()
        if draw < 0.1 and self.has_bare:
            octets = octets[:20]
        elif draw < 0.3:
            octets += self.grown(self.chance.choice((300, 3000, 20000)))
        self.count += 1
        ends = (0x10000000 + self.count).to_bytes(4, "big") + self.chance.randbytes(4)
        return octets[:1] + len(octets).to_bytes(3, "big") + octets[4:12] + ends + octets[20:]

    def grown(self, most):
        """Returns AVPs of about so many octets at most."""
        parts, left = [], self.chance.randrange(most)
        while left > 0:
            size = self.chance.randrange(1, 1500)
            head = CLASS.to_bytes(4, "big") + bytes([MANDATORY]) + (8 + size).to_bytes(3, "big")
            parts.append(head + self.chance.randbytes(size) + bytes(-size % 4))
            left -= size
        return b"".join(parts)
