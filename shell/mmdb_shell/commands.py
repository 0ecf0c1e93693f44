"""The commands of the shell by what they are about."""

from . import changing, filing, inspecting, planning, setting
from .dotted import DOTTED, do

__all__ = ["DOTTED", "changing", "do", "filing", "inspecting", "planning", "setting"]
