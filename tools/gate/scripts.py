"""Scripts whose names have no suffix, as modules, and the kit's own."""
import importlib.machinery
import importlib.util
import subprocess
import sys
from pathlib import Path
from typing import Any


def load(path: Path) -> Any:
    """Returns a script as a module."""
    loader = importlib.machinery.SourceFileLoader(path.name.replace("-", "_"), str(path))
    spec = importlib.util.spec_from_loader(loader.name, loader)
    assert spec is not None
    module = importlib.util.module_from_spec(spec)
    sys.modules[loader.name] = module
    loader.exec_module(module)
    return module


def kit(asker: str) -> Any:
    """Returns the module of the kit that knows the words of its commands. The tool that asks ends if there is none."""
    finder = Path(__file__).resolve().parent.parent / "package" / "find_kit"
    found = subprocess.run([finder], stdout=subprocess.PIPE, text=True, check=False).stdout.strip()
    if not found:
        sys.exit(f"{asker}: there is no Rattle kit")
    sys.path.insert(0, str(Path(found).resolve().parent))
    return importlib.import_module("rtlib")
