"""The statuses of the program."""
from ..faults import Fault, FileFault, OutOfMemory


def status_of(fault: Fault) -> int:
    """The program's status for a fault."""
    if isinstance(fault, OutOfMemory):
        return 4
    return 5 if isinstance(fault, FileFault) and fault.number != 53 else 3
