"""`python3 -m tmem STORE`: the shell."""

import sys

from .shell import main

sys.exit(main())
