"""The modules of tools/shared, for the tools that stand beside this file: Python looks for modules beside a script."""

import os

__path__ = [os.path.join(os.path.dirname(os.path.dirname(os.path.realpath(__file__))), "shared")]
