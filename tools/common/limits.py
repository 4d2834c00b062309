"""The limits of `goal` and the words of its command line, as docs/COMMANDS.md and docs/TEXT.md give them. Nothing of it is
proved; tests compare them with the program."""

# The values of KIND of `goal gen` and `goal certify`, and those that take a root.
KINDS = ("bcast", "barrier", "allgather", "allreduce", "alltoall", "reduce", "gather", "scatter", "reduce_scatter", "scan")
ROOTED = ("bcast", "reduce", "gather", "scatter")
# Of a schedule.
MOST_RANKS = 65536
MOST_OPERATIONS = 1 << 20
MOST_NEEDS = 1 << 22
MOST_NOTES = 1 << 20
MOST_BYTES = (1 << 40) - 1
MOST_NANOSECONDS = (1 << 48) - 1
MOST_SLOT = (1 << 32) - 1
MOST_DEVICE = 255
# Of a machine.
MOST_CLASSES = 16
MOST_NODES = 65536
MOST_PAIRS = 65536
# The greatest value of each parameter of a run.
MOST_PARAMETER = {"L": 2**40 - 1, "o": 2**40 - 1, "g": 2**40 - 1, "G": 2**20 - 1, "Gp": 999, "O": 2**20 - 1, "Op": 999, "S": 2**40 - 1}
# The greatest time of a run.
MOST_TIME = 2**63 - 1
# Of a drawn schedule.
MOST_ROUNDS = 300000
MOST_SEED = 2**64 - 1
# The slots of a schedule that is certified: they are numbered from 0.
MOST_CERTIFIED_SLOTS = 65536
# The bytes of an input, which is read up to one byte more.
MOST_INPUT = 2**27
