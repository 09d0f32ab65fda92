"""Host code, not proved: the shared library, found or linked, and its functions with C's types."""
import ctypes
import functools
import glob
import os
import shutil
import subprocess

HERE = os.path.dirname(os.path.abspath(__file__))
LIBRARY = "liborder.so"


class LibraryMissing(OSError):
    """No shared library is where it is looked for."""


def slices(*types):
    """C's arguments for slices: each a pointer and a count."""
    return [word for kind in types for word in (ctypes.POINTER(kind), ctypes.c_size_t)]


U8, U16, U32, U64 = ctypes.c_uint8, ctypes.c_uint16, ctypes.c_uint32, ctypes.c_uint64

REPLAY = slices(U32, U32, U32, U32, U16, U64, U64, U32, U64, U64) + [U64, U64]

ARGUMENTS = {
    "order_job": slices(U8, U8),
    "job_needs": slices(U8) + [ctypes.POINTER(U64)],
    "job_line_end": slices(U8) + [ctypes.c_size_t],
    "replay_calls": REPLAY,
    "replay_held": REPLAY,
    "replay_reason": REPLAY + [U64],
    "replay_ascending": slices(U32, U32, U32, U32, U16, U64, U64, U64) + [U64, U64, U64],
    "order_reason": slices(U8) + [U64],
    "order_summary": slices(U32, U32),
}


def linked(root):
    """The repository's library, linked from the archives that are there if one of them is newer; None without any."""
    archives = sorted(glob.glob(os.path.join(root, "target", "staticlib", "lib*.a")))
    library = os.path.join(root, "target", "shared", LIBRARY)
    if not archives:
        return None
    # The archives by their time of change: tools/archives dates one back to before its proof.
    if not os.path.exists(library) or any(os.path.getmtime(library) < os.stat(path).st_ctime for path in archives):
        compiler = shutil.which("cc") or shutil.which("gcc")
        if not compiler:
            raise LibraryMissing(f"no C compiler to link {library}")
        os.makedirs(os.path.dirname(library), exist_ok=True)
        link(compiler, archives, library)
    return library


def link(compiler, archives, library):
    """Links the archives into a library, which takes the place of an older one when it is whole."""
    new = f"{library}.{os.getpid()}"
    words = [compiler, "-shared", "-o", new, "-Wl,--whole-archive", *archives, "-Wl,--no-whole-archive"]
    done = subprocess.run(words, capture_output=True, text=True, errors="replace")
    if done.returncode:
        said = (done.stderr.strip().splitlines() or [f"status {done.returncode}"])[-1]
        raise LibraryMissing(f"{library} cannot be linked from the archives: {said}")
    os.replace(new, library)


def path():
    """Where the library is: in ORDER_LIBS, or in the repository, or as tools/install puts it."""
    # hosts/python/witness_order of the repository, or PREFIX/share/order/python/witness_order
    root = os.path.normpath(os.path.join(HERE, *[os.pardir] * 3))
    prefix = os.path.normpath(os.path.join(HERE, *[os.pardir] * 4))
    named = os.environ.get("ORDER_LIBS")
    if not named and os.path.exists(os.path.join(root, "crates.txt")):
        found = linked(root)
        if not found:
            raise LibraryMissing(f"no archives in {os.path.join(root, 'target', 'staticlib')}: run tools/archives first")
        return found
    found = os.path.join(named or os.path.join(prefix, "lib"), LIBRARY)
    if not os.path.exists(found):
        raise LibraryMissing(f"no {LIBRARY} in {os.path.dirname(found)}; tools/install puts one into PREFIX/lib")
    return found


@functools.lru_cache(maxsize=None)
def library():
    return ctypes.CDLL(path())


@functools.lru_cache(maxsize=None)
def function(name):
    """A function of the library, ready to be called."""
    try:
        found = getattr(library(), name)
    except AttributeError:
        raise LibraryMissing(f"{path()} has no {name}; in the repository, run tools/archives first") from None
    found.argtypes, found.restype = ARGUMENTS[name], ctypes.c_uint64
    return found


def as_arguments(*arrays):
    """Arrays as C's arguments."""
    return [word for array in arrays for word in (array, len(array))]
