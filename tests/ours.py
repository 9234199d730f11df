"""Our programs and our functions, as tests find them: the programs as rt builds them, the functions called as C calls them, by c/pennywax.c over the
static libraries out/libface.a and out/libbatch.a."""

import ctypes
import os
import struct
import subprocess
from pathlib import Path

ROOT = Path(__file__).resolve().parents[1]
OUT = ROOT / "out"
SHIM = ROOT / "c/pennywax.c"
ARCHIVES = [OUT / f"lib{name}.a" for name in ("face", "batch")]
GCC = ["gcc", "-std=c99", "-Wall", "-Wextra", "-Werror", "-pedantic", "-O2"]
BECH32, BECH32M = 1, 2
ENTRY = struct.Struct("@NNBBN")  # start, length, verdict, version, program length, laid out as C lays out a struct
BESIDE = b"\xaa" * ENTRY.size    # what lies before a lent list of entries, and after it


def archives():
    """The static libraries, proved and built if they are not as the sources are."""
    made = subprocess.run([ROOT / "tools/staticlib"], capture_output=True, encoding="utf-8", errors="replace")
    if made.returncode:
        raise RuntimeError("tools/staticlib: " + (made.stdout + made.stderr)[-2000:])
    return ARCHIVES


def program(crate):
    """The program of a crate, proved and built if it is not as the sources are. rt builds a program where it runs it, here on an empty input."""
    made = subprocess.run(["rt", "run"], cwd=ROOT / "crates" / crate, stdin=subprocess.DEVNULL, capture_output=True, encoding="utf-8", errors="replace")
    found = ROOT / f"crates/{crate}/out/{crate}"
    if made.returncode or not found.is_file():
        raise RuntimeError(f"rt run in crates/{crate}: " + (made.stdout + made.stderr)[-2000:])
    return found


def link(shim, shared):
    """One shared library of a shim and the static libraries. It takes its place whole, since another test may have the one before loaded."""
    made = shared.with_name(f"{shared.name}.{os.getpid()}")
    subprocess.run([*GCC, "-shared", "-fPIC", "-I", SHIM.parent, "-o", made, shim, *archives()], check=True)
    made.replace(shared)
    return ctypes.CDLL(str(shared))


def slice_of(content):
    """A byte slice as C takes it: pointer and length."""
    return ctypes.c_char_p(content), ctypes.c_size_t(len(content))


class Ours:
    """Each method gives the number and what else the function gives; a buffer that is written is filled with 0xAA before, and given back whole."""

    def __init__(self):
        self.library = link(SHIM, OUT / "libpennywax.so")
        self.version, self.first, self.second = ctypes.c_uint8(), ctypes.c_size_t(), ctypes.c_size_t()

    def check_address(self, s):
        number = self.library.pennywax_check_address(*slice_of(s), ctypes.byref(self.version), ctypes.byref(self.first))
        return number & 255, self.version.value, self.first.value

    def read_address(self, s, room):
        out = ctypes.create_string_buffer(b"\xaa" * room, room)
        number = self.library.pennywax_read_address(*slice_of(s), out, ctypes.c_size_t(room), ctypes.byref(self.version),
                                                    ctypes.byref(self.first))
        return number & 255, self.version.value, self.first.value, out.raw

    def read(self, code, s):
        number = self.library.pennywax_read(ctypes.c_uint8(code), *slice_of(s), ctypes.byref(self.first), ctypes.byref(self.second))
        return number & 255, self.first.value, self.second.value

    def locate(self, code, s):
        number = self.library.pennywax_locate(ctypes.c_uint8(code), *slice_of(s), ctypes.byref(self.first))
        return number & 255, self.first.value

    def read_bytes(self, code, s, room):
        out = ctypes.create_string_buffer(b"\xaa" * room, room)
        number = self.library.pennywax_read_bytes(ctypes.c_uint8(code), *slice_of(s), out, ctypes.c_size_t(room),
                                                  ctypes.byref(self.first))
        return number & 255, self.first.value, out.raw

    def write_symbols(self, code, prefix, symbols, room):
        return self.written(self.library.pennywax_write_symbols, room, ctypes.c_uint8(code), *slice_of(prefix), *slice_of(symbols))

    def write_bytes(self, code, prefix, content, room):
        return self.written(self.library.pennywax_write_bytes, room, ctypes.c_uint8(code), *slice_of(prefix), *slice_of(content))

    def write_address(self, prefix, version, program, room):
        return self.written(self.library.pennywax_write_address, room, *slice_of(prefix), ctypes.c_uint8(version), *slice_of(program))

    def written(self, function, room, *arguments):
        out = ctypes.create_string_buffer(b"\xaa" * room, room)
        number = function(*arguments, out, ctypes.c_size_t(room), ctypes.byref(self.first))
        return number & 255, self.first.value, out.raw

    def judge_batch(self, memory, size, entries):
        """The buffer is the first `size` bytes of the memory, and the entries are bytes. Gives the number, and as they are afterwards the
        memory and the entries with what lies beside them."""
        text = ctypes.create_string_buffer(memory, len(memory))
        lent = ctypes.create_string_buffer(BESIDE + entries + BESIDE, len(entries) + 2 * ENTRY.size)
        number = self.library.pennywax_judge_batch(text, ctypes.c_size_t(size), ctypes.byref(lent, ENTRY.size),
                                                   ctypes.c_size_t(len(entries) // ENTRY.size))
        return number & 255, text.raw, lent.raw
