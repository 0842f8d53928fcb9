"""python3 -m threshcinch: the command, as it is installed under the name threshcinch."""
import sys

from ._command import main

if __name__ == "__main__":
    sys.exit(main())
