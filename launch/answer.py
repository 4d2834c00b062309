"""answer.py -- WORD..: answers the command line WORD.. of `goal` when the program is not known to be up to date.
`goal` runs it.

answer.py --where: prints the path of a program that is proved from the current sources. Callers that run `goal` often
call this once. With GOAL_PROVED=1 it waits for the proof; otherwise exit status 9 means that there is no such program.

launcher.py does the work. Nothing of this is proved."""
import os

try:
    import sys

    import launcher

    sys.exit(launcher.main(sys.argv[1:]))
except KeyboardInterrupt:
    # (if env could not block the interrupt until here)
    os._exit(130)
