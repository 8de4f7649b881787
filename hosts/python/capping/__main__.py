"""`python3 -m capping`."""
import sys

from .command import main

sys.exit(main())
