"""What the models have in common: the numbers of registers, and what an instruction can come to instead of its effect."""

EAX, ECX, EDX, EBX, ESP, EBP, ESI, EDI = range(8)
MASK = 0xFFFFFFFF


class PageFault(Exception):
    """An access at an address that is refused, with its error code."""

    def __init__(self, address, error):
        super().__init__(hex(address))
        self.address, self.error = address, error


class Trap(Exception):
    """Any other trap, with its number, its error code and the address that it is told for."""

    def __init__(self, number, error, address):
        super().__init__(str(number))
        self.number, self.error, self.address = number, error, address
