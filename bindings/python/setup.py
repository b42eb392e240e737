"""What pyproject.toml can't say: the platform of built files, and a wheel that has the same bytes each time."""
import atexit
import base64
import hashlib
import os
import shutil
import tempfile
import time
import zipfile

from setuptools import Command, setup
from setuptools.command.build_py import build_py

HERE = os.path.dirname(os.path.realpath(__file__))
FILES = (os.path.join(HERE, "../out/libmapf.so"), os.path.join(HERE, "../../crates/mapf/out/mapf"))
BUILT = [path for path in FILES if os.path.isfile(path)]
PARTS = {"PKG-INFO": "METADATA", "entry_points.txt": "entry_points.txt", "top_level.txt": "top_level.txt"}
WHEN = time.gmtime(int(os.environ.get("SOURCE_DATE_EPOCH", "315532800")))[:6]
TAG = "Wheel-Version: 1.0\nGenerator: mapf\nRoot-Is-Purelib: true\nTag: py3-none-{}\n"


class WithBuilt(build_py):
    """The command build_py, which takes the library and the program along where they are built."""

    def run(self):
        """Copies the modules, and then these files."""
        super().run()
        folder = os.path.join(self.build_lib, "mapf", "built")
        for path in BUILT:
            os.makedirs(folder, exist_ok=True)
            shutil.copy(path, folder)


class Wheel(Command):
    """The command bdist_wheel: a zip file of the package, its metadata and, at last, the hashes of all of them.

    Nothing in it depends on the folder, on the files' times or on their modes; the time is SOURCE_DATE_EPOCH, or 1980.
    """

    user_options = [
        ("dist-dir=", "d", "the folder for the wheel"), ("plat-name=", "p", "the platform"),
        ("dist-info-dir=", None, "metadata that newer setuptools made before; it is made here again")]

    def initialize_options(self):
        self.dist_dir = self.plat_name = self.dist_info_dir = None

    def finalize_options(self):
        self.dist_dir, self.plat_name = self.dist_dir or "dist", self.plat_name or "any"

    def egg2dist(self, egg_info, dist_info):
        """Turns the folder of metadata that setuptools made into a wheel's."""
        os.makedirs(dist_info, exist_ok=True)
        for old, new in PARTS.items():
            shutil.copy(os.path.join(egg_info, old), os.path.join(dist_info, new))
        with open(os.path.join(dist_info, "WHEEL"), "w") as file:
            file.write(TAG.format(self.plat_name))

    def run(self):
        """Makes the wheel."""
        self.run_command("build")
        self.run_command("egg_info")
        folder, name = self.get_finalized_command("build").build_lib, f"mapf-{self.distribution.get_version()}"
        record = f"{name}.dist-info/RECORD"
        self.egg2dist(self.get_finalized_command("egg_info").egg_info, os.path.join(folder, f"{name}.dist-info"))
        os.makedirs(self.dist_dir, exist_ok=True)
        path = os.path.join(self.dist_dir, f"{name}-py3-none-{self.plat_name}.whl")
        files = sorted(os.path.join(parent, file) for parent, _, files in os.walk(folder) for file in files)
        with zipfile.ZipFile(path, "w", zipfile.ZIP_DEFLATED) as wheel:
            lines = [added(wheel, file, os.path.relpath(file, folder)) for file in files]
            wheel.writestr(entry(record), "".join([*lines, f"{record},,\n"]))


def entry(name):
    """The head of a file in a wheel: the program alone can be run."""
    head, mode = zipfile.ZipInfo(name, WHEN), 0o100755 if name == "mapf/built/mapf" else 0o100644
    head.compress_type, head.external_attr = zipfile.ZIP_DEFLATED, mode << 16
    return head


def added(wheel, path, name):
    """Adds a file to a wheel, and answers its line of hashes."""
    with open(path, "rb") as file:
        contents = file.read()
    wheel.writestr(entry(name), contents)
    digest = base64.urlsafe_b64encode(hashlib.sha256(contents).digest()).decode().rstrip("=")
    return f"{name},sha256={digest},{len(contents)}\n"


work = tempfile.mkdtemp()
atexit.register(shutil.rmtree, work, ignore_errors=True)
platform = {"plat_name": "linux_x86_64"} if BUILT else {}
setup(
    cmdclass={"build_py": WithBuilt, "bdist_wheel": Wheel},
    options={"bdist_wheel": platform, "build": {"build_base": work}, "egg_info": {"egg_base": work}})
