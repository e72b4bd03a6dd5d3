"""The memory of a process, as the system reports it while the process runs."""

ENTRY_BYTES = 256
"""The most that an entry of the journal may take, which grows by doubling."""


def resident(pid):
    """How many bytes of a process are resident; 0 of one that has ended."""
    with open(f"/proc/{pid}/status", encoding="ascii") as status:
        return next((int(line.split()[1]) << 10 for line in status if line.startswith("VmRSS:")), 0)
