"""The Rust's readers and writers, called from the shared library that build.py makes."""

import ctypes


class Rust:
    def __init__(self, library):
        self.library = ctypes.CDLL(str(library))
        self.first, self.second, self.third = (ctypes.create_string_buffer(2048) for _ in range(3))
        self.lengths = [ctypes.c_size_t() for _ in range(3)]
        self.version = ctypes.c_uint8()

    def read(self, code, s):
        """(number, prefix in lower case, data part as it stands without the checksum, its bytes)."""
        a, b, c = self.lengths
        a.value = b.value = c.value = 0
        number = self.library.rust_read(ctypes.c_uint8(code), s, ctypes.c_size_t(len(s)), self.first, ctypes.byref(a), self.second,
                                        ctypes.byref(b), self.third, ctypes.byref(c)) & 255
        return number, self.first.raw[:a.value], self.second.raw[:b.value], self.third.raw[:c.value]

    def read_address(self, s):
        """(number, version, program)."""
        a = self.lengths[0]
        a.value = self.version.value = 0
        number = self.library.rust_read_address(s, ctypes.c_size_t(len(s)), ctypes.byref(self.version), self.first, ctypes.byref(a)) & 255
        return number, self.version.value, self.first.raw[:a.value]

    def write_symbols(self, code, prefix, symbols):
        return self.written(self.library.rust_write_symbols, ctypes.c_uint8(code), prefix, ctypes.c_size_t(len(prefix)), symbols,
                            ctypes.c_size_t(len(symbols)))

    def write_bytes(self, code, prefix, content):
        return self.written(self.library.rust_write_bytes, ctypes.c_uint8(code), prefix, ctypes.c_size_t(len(prefix)), content,
                            ctypes.c_size_t(len(content)))

    def write_address(self, prefix, version, program):
        return self.written(self.library.rust_write_address, prefix, ctypes.c_size_t(len(prefix)), ctypes.c_uint8(version), program,
                            ctypes.c_size_t(len(program)))

    def written(self, function, *arguments):
        """(number, what was written)."""
        a = self.lengths[0]
        a.value = 0
        number = function(*arguments, self.first, ctypes.byref(a)) & 255
        return number, self.first.raw[:a.value]
