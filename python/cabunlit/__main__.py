"""`python3 -m cabunlit`."""
import sys

from cabunlit.cli import main

if __name__ == "__main__":
    sys.exit(main())
