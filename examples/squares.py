"""A device for squares.chp: it answers each number that it takes on A with its square on B."""

from companion.devices import Device


class Squares(Device):
    def took(self, channel, value):
        if channel == "A":
            self.send("B", value * value)
