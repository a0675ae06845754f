"""`python -m wirgatsu`."""

import sys

from .cli import main

sys.exit(main())
