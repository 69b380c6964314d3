"""Which of the Debian packages that are needed are missing. Nothing here needs a package."""
import importlib.util
import shutil
from pathlib import Path

MODULES = {"starlette": "python3-starlette", "uvicorn": "python3-uvicorn"}
FILES = {"/usr/share/javascript/leaflet/leaflet.min.js": "libjs-leaflet"}
MODULES_OF_TESTS = {"selenium": "python3-selenium"}
PROGRAMS_OF_TESTS = {"chromium": "chromium", "chromedriver": "chromium-driver"}


def missing_packages() -> list[str]:
    """The packages that the gateway and the page need, and that are not installed."""
    modules = [package for module, package in MODULES.items() if importlib.util.find_spec(module) is None]
    return modules + [package for file, package in FILES.items() if not Path(file).exists()]


def missing_packages_of_tests() -> list[str]:
    """The same for the tests of the page."""
    modules = [package for module, package in MODULES_OF_TESTS.items() if importlib.util.find_spec(module) is None]
    return modules + [package for program, package in PROGRAMS_OF_TESTS.items() if shutil.which(program) is None]
