"""The table of calls and statuses beside the library that is loaded."""
import ctypes
import unittest

import flcol
from flcol import _interface, _library

LOADED = ctypes.CDLL(_library._path())


def answer(name, *arguments):
    """What a call of the library answers, by the table."""
    call = getattr(LOADED, name)
    call.restype, call.argtypes = _interface.CALLS[name]
    return call(*arguments)


class Interface(unittest.TestCase):
    def test_errors_are_those_of_the_library(self):
        for number in range(-300, 300):
            name, sentence = _interface.STATUSES.get(number, _interface.UNKNOWN)
            with self.subTest(number):
                self.assertEqual(answer("flcol_status_name", number).decode(), name)
                self.assertEqual(answer("flcol_status_message", number).decode(), sentence)
                if number > 0 and number in _interface.STATUSES:
                    self.assertEqual((flcol.Error(number).name, flcol.Error(number).sentence), (name, sentence))

    def test_each_call_is_in_the_library(self):
        for name in _interface.CALLS:
            self.assertTrue(hasattr(LOADED, name), name)

    def test_version(self):
        self.assertEqual(flcol.__version__.split(".")[0], _interface.LIBRARY.rpartition(".")[2])
        self.assertEqual(answer("flcol_abi_version"), _interface.ABI_VERSION)


if __name__ == "__main__":
    unittest.main()
