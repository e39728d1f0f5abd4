"""Makes the files by which pkg-config and CMake find the library. This is Python and no part of what is proved."""
import os
from pathlib import Path

from making.library import INTERFACE, VERSION
from making.sources import NAME

CMAKE = """# For find_package(clickpull): the target clickpull::clickpull is the shared library, and clickpull::archive the archive, for C and C++.
get_filename_component(clickpull_folder "${{CMAKE_CURRENT_LIST_DIR}}" REALPATH)
get_filename_component(clickpull_include "${{clickpull_folder}}/{include}" ABSOLUTE)
get_filename_component(clickpull_libraries "${{clickpull_folder}}/{libraries}" ABSOLUTE)
if(NOT TARGET clickpull::clickpull)
    add_library(clickpull::clickpull SHARED IMPORTED)
    set_target_properties(clickpull::clickpull PROPERTIES
        IMPORTED_LOCATION "${{clickpull_libraries}}/{shared}"
        IMPORTED_SONAME "{shared}"
        INTERFACE_INCLUDE_DIRECTORIES "${{clickpull_include}}")
    add_library(clickpull::archive STATIC IMPORTED)
    set_target_properties(clickpull::archive PROPERTIES
        IMPORTED_LOCATION "${{clickpull_libraries}}/{archive}"
        INTERFACE_INCLUDE_DIRECTORIES "${{clickpull_include}}")
endif()
unset(clickpull_folder)
unset(clickpull_include)
unset(clickpull_libraries)
"""

CMAKE_VERSION = """# Another major version may break callers, and before version 1.0 another minor version too.
set(PACKAGE_VERSION "{version}")
set(PACKAGE_VERSION_COMPATIBLE FALSE)
if(PACKAGE_FIND_VERSION VERSION_GREATER_EQUAL "{least}" AND PACKAGE_FIND_VERSION VERSION_LESS_EQUAL "{version}")
    set(PACKAGE_VERSION_COMPATIBLE TRUE)
endif()
if(PACKAGE_FIND_VERSION VERSION_EQUAL "{version}")
    set(PACKAGE_VERSION_EXACT TRUE)
endif()
"""


def pkg_config(folders: dict[str, Path], licence: str) -> str:
    """What pkg-config reads. It takes a blank in a path for an end unless a backslash stands before."""
    variables = "".join(f"{name}={str(path).replace(' ', chr(92) + ' ')}\n" for name, path in folders.items())
    return f"""{variables}
Name: clickpull
Description: Queues and pull schedulers of a Click router
Version: {VERSION}
License: {licence}
Cflags: -I${{includedir}}
Libs: -L${{libdir}} -lclickpull
"""


def cmake(folder: Path, include: Path, libraries: Path) -> str:
    """What CMake reads in a folder. It leads to the others from there, so that all may be moved together."""
    ways = {"include": os.path.relpath(include, folder), "libraries": os.path.relpath(libraries, folder)}
    return CMAKE.format(**ways, shared=f"lib{NAME}.so.{INTERFACE}", archive=f"lib{NAME}.a")


def cmake_version() -> str:
    """By what CMake tells whether a version serves that is asked for."""
    return CMAKE_VERSION.format(version=VERSION, least=INTERFACE)
