"""python3 -m kulzobad."""
import sys

from .cli import main

sys.exit(main())
