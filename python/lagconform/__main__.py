"""python3 -m lagconform."""

import signal
import sys

from .files import ENDS

signal.pthread_sigmask(signal.SIG_BLOCK, ENDS)  # one that comes while modules are read waits for `main`, which knows the reports that tell it

from .command import main  # noqa: E402

sys.exit(main())
