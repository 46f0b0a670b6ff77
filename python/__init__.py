"""drc.py as a package, for what installs it as one: its names, and its manual."""
from .drc import *  # noqa: F401,F403
from .drc import __all__, __doc__  # noqa: F401
