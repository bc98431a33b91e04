"""The program that a script of tests/ runs. Nothing is built here: where there is no program, the script ends and names what makes one."""
import os
import shutil
import sys
from typing import Optional

ROOT = os.path.dirname(os.path.dirname(os.path.abspath(__file__)))


def tested(given: Optional[str] = None) -> str:
    """The path of the program: the one that is given, that which DCVALID names, or the one that ./dcvalid built."""
    name = given or os.environ.get("DCVALID") or os.path.join(ROOT, "crates", "dcvalid", "out", "dcvalid")
    path = shutil.which(name)
    if path is None:
        sys.exit(f"there is no program {name}: ./dcvalid --build makes one")
    return os.path.abspath(path)
