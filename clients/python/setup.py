"""A wheel of this package holds the built library, and so is for one kind of machine, with a C
library that is as new as the library wants it.

    LIBMETSUWAN=FOLDER/libmetsuwan.so pip wheel clients/python
    LIBMETSUWAN=FOLDER/libmetsuwan.so python3 -m build clients/python

FOLDER is one that clients/build.sh made. Where its library is not known to be proved, the version
of the wheel says so, as 2.0+not.proved.
"""
import ctypes
import os
import pathlib
import re
import shutil
import sys
from typing import Tuple

from setuptools import Distribution, setup
from setuptools.command.build_py import build_py
from setuptools.errors import SetupError

try:
    from setuptools.command.bdist_wheel import bdist_wheel
except ImportError:  # setuptools before 70.1
    from wheel.bdist_wheel import bdist_wheel


HERE = pathlib.Path(__file__).resolve().parent
# The one place of the version; in a wheel the copy of it says what the library is.
PLACE = 'metsuwan/version.py'
VERSION = re.findall(r"^__version__ = '(.*)'$", (HERE / PLACE).read_text('utf-8'), re.M)[0]
# The oldest C library that a wheel can be tagged with.
OLDEST = 17


def library() -> str:
    """The path of the library, or an empty text where none is given."""
    given = os.environ.get('LIBMETSUWAN', '')
    return os.path.abspath(given) if os.path.isfile(given) else ''


def version() -> str:
    """The version, with what the library says of itself where that is not that it is proved.

    :raises SetupError: the library is another one, or of another version than the package
    """
    if not library():
        return VERSION
    call = getattr(ctypes.CDLL(library()), 'kmip_version', None)
    if call is None:
        raise SetupError('%s is not libmetsuwan' % library())
    call.restype = ctypes.c_char_p
    number, _, note = call().decode().partition(', ')
    if number.partition('.')[0] != VERSION.partition('.')[0]:
        raise SetupError('%s is libmetsuwan %s, and this package is %s'
                         % (library(), number, VERSION))
    if note == 'proved':
        return VERSION
    print('metsuwan: the library in this wheel: %s' % note, file=sys.stderr)
    return '%s+%s' % (VERSION, note.replace(' ', '.'))


def platform_of(tag: str) -> str:
    """The platform of a wheel, as manylinux_2_25_x86_64: that of the newest version of glibc of
    which the library takes a function (PEP 600). An installer elsewhere does not take it."""
    read = pathlib.Path(library()).read_bytes() if library() else b''
    minors = [int(minor) for minor in re.findall(rb'\0GLIBC_2\.(\d+)(?:\.\d+)?(?=\0)', read)]
    if not minors or not tag.startswith('linux_'):
        return tag
    return 'manylinux_2_%d_%s' % (max([OLDEST, *minors]), tag[len('linux_'):])


class WithLibrary(build_py):
    """The package, and the library beside it."""

    def run(self) -> None:
        super().run()
        if self.editable_mode:
            return
        given = os.environ.get('LIBMETSUWAN')
        if not given:
            raise SetupError('LIBMETSUWAN has to be the path of libmetsuwan.so: '
                             'clients/build.sh makes one')
        target = pathlib.Path(self.build_lib, 'metsuwan', 'libmetsuwan.so')
        target.parent.mkdir(parents=True, exist_ok=True)
        shutil.copyfile(given, target)
        target.chmod(0o755)
        place = pathlib.Path(self.build_lib, PLACE)
        text = (HERE / PLACE).read_text('utf-8')
        place.write_text(text.replace("'%s'" % VERSION, "'%s'" % version()), 'utf-8')


class OfOneMachine(bdist_wheel):
    """It is called by ctypes: any Python 3 will do."""

    def finalize_options(self) -> None:
        super().finalize_options()
        self.root_is_pure = False

    def get_tag(self) -> Tuple[str, str, str]:
        _, _, platform = super().get_tag()
        return 'py3', 'none', platform_of(platform)


class Binary(Distribution):
    """It is installed where packages for one kind of machine are."""

    def has_ext_modules(self) -> bool:
        return True


setup(version=version(), cmdclass={'build_py': WithLibrary, 'bdist_wheel': OfOneMachine},
      distclass=Binary)
