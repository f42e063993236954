"""mirror_refused.py [SEED]: the mirrors of test_mirrors.py, with requests of the library for memory refused at random.

A command that finds no memory may have changed the text: the copies hold all the same. Memory is refused also while
reports are read, which wait then, and while a session is saved and loaded, which leaves it. To be run with the shared
object of tests/refusals/refuse.c in LD_PRELOAD.
"""

import ctypes
import sys
from contextlib import suppress

import test_mirrors
from shared import edited, main

from lodvarn import NoMemoryError, Session
from lodvarn._lodvarn import ffi, lib

SEED = int(sys.argv.pop(1)) if len(sys.argv) > 1 else 7

_refuse_memory = ctypes.CDLL(None).refuse_memory
_refuse_memory.argtypes, _refuse_memory.restype = [ctypes.c_void_p, ctypes.c_uint, ctypes.c_uint64], None


def refuse(one_of):
    """Refuses one of so many requests of the library from now on, or none if it is 0."""
    _refuse_memory(int(ffi.cast("uintptr_t", ffi.addressof(lib, "lodvarn_version"))), one_of, SEED)


class Refused(test_mirrors.Mirrors):
    seed = SEED

    def leads_to_the_text(self, session, patience, kinds):
        """The copies hold also if memory is refused, for which many commands fail, some of them halfway."""
        self.failed = self.halfway = 0
        self.addCleanup(refuse, 0)
        refuse(12)
        super().leads_to_the_text(session, patience, kinds)
        refuse(0)
        self.assertGreater(self.failed, 500)
        self.assertGreater(self.halfway, 5)

    def test_a_session_is_saved_and_loaded_or_finds_no_memory(self):
        session, loaded = edited(), 0
        saved = session.save()
        self.addCleanup(refuse, 0)
        refuse(12)
        for _ in range(1000):
            with suppress(NoMemoryError):
                self.assertEqual(Session.load(session.save()).save(), saved)
                loaded += 1
        refuse(0)
        self.assertTrue(0 < loaded < 999, loaded)


if __name__ == "__main__":
    main()
