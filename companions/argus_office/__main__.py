"""The words of argus that a companion takes, as a program: `python3 companions/argus_office start`

The launcher of a clone calls this for the companions, and with `--attend NAME PROGRAM ..` for a run
at a terminal; an installed package calls `argus_office.command`, which takes all words.
"""

import os
import sys

# Neither the folder of this file nor the one that a user works in is a place for modules. (An
# isolated Python has put neither there.)
sys.path[: 0 if sys.flags.isolated else 1] = [
    os.path.dirname(os.path.dirname(os.path.realpath(__file__)))
]
sys.dont_write_bytecode = True

from argus_office.command import main  # noqa: E402

if __name__ == "__main__":
    sys.exit(main(sys.argv[1:]))
