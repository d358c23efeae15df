"""`python -m kpn.native`: compiles a network to a program."""
import sys

from .command import main

sys.exit(main())
