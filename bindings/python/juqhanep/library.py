"""The library's calls, as `include/juqhanep.h` has them."""
import ctypes
import os
import pathlib
from ctypes import POINTER, c_bool, c_char_p, c_size_t, c_uint8, c_uint32, c_void_p

LONGEST_DATAGRAM = 8619
LONGEST_SENTENCE = 64
NAME = "libjuqhanep.so"


class Handle(ctypes.Structure):
    _fields_ = [("full", c_bool), ("at", c_void_p)]


class Fault(ctypes.Structure):
    _fields_ = [("cause", c_uint32), ("a", c_uint32), ("b", c_uint32), ("length", c_size_t)]


class Event(ctypes.Structure):
    _fields_ = [("kind", c_uint32), ("peer", c_uint32), ("to", c_uint32), ("number", c_uint32), ("plan", c_uint32), ("length", c_size_t)]


_HANDLE = POINTER(Handle)
# Bytes that are lent to the library, which doesn't write to them.
_GIVEN = (c_char_p, c_size_t)
SIGNATURES = {
    "juq_open": (c_uint32, _HANDLE, *_GIVEN, c_bool, c_uint32, c_uint32, c_uint8, c_uint8, POINTER(Fault), c_void_p, c_size_t),
    "juq_cast": (c_uint32, _HANDLE, *_GIVEN),
    "juq_send": (c_uint32, _HANDLE, c_uint32, *_GIVEN),
    "juq_leave": (c_uint32, _HANDLE),
    "juq_tick": (c_uint32, _HANDLE, c_uint32),
    "juq_receive": (c_uint32, _HANDLE, *_GIVEN),
    "juq_next": (c_uint32, _HANDLE, POINTER(Event), c_void_p, c_size_t),
    "juq_close": (c_uint32, _HANDLE),
    "juq_version": (c_char_p,),
}


def places() -> list[str]:
    """Where the library is looked for: $JUQHANEP_LIBRARY alone if it is set; else beside this file, in the builds of the repository that this
    is a part of, and where the system has it."""
    given = os.environ.get("JUQHANEP_LIBRARY")
    if given:
        return [given]
    here = pathlib.Path(__file__).resolve().parent
    build = here.parents[2] / "build"
    near = [here / NAME, build / "library" / NAME, build / "unproved" / "library" / NAME]
    return [*(str(place) for place in near if place.exists()), NAME]


def load() -> ctypes.CDLL:
    """The library with the types of its calls."""
    try:
        found = ctypes.CDLL(places()[0])
    except OSError as error:
        raise ImportError(f"{NAME} isn't there: make it by tools/library.sh, or name it by JUQHANEP_LIBRARY ({error})") from None
    for name, (answer, *given) in SIGNATURES.items():
        call = getattr(found, name)
        call.restype, call.argtypes = answer, given
    return found


calls = load()


def version() -> str:
    """What the library says that it is: its version, whether it is proved, its commit and its kit."""
    return calls.juq_version().decode()
