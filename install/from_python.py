#!/usr/bin/env python3
"""Calls the shared library through ctypes, by the header's names alone: those that are inline in C, too. Usage: from_python.py LIBRARY HEADER"""
import ctypes
import re
import sys

library, header = ctypes.CDLL(sys.argv[1]), open(sys.argv[2]).read()
u64, u32 = ctypes.c_uint64, ctypes.c_uint32


class Setup(ctypes.Structure):
    _fields_ = [("cores", u64), ("frames", u64), ("calls", u64), ("log", u32)]


class Event(ctypes.Structure):
    _fields_ = [("kind", u32), ("core", u32), ("at", u64), ("len", u64), ("file", u64), ("off", u64), ("prot", u32), ("flags", u32), ("byte", u32)]


class Outcome(ctypes.Structure):
    _fields_ = [("kind", u32), ("value", u64)]


class Machine(ctypes.Structure):
    _fields_ = [("at", ctypes.c_void_p)]


class Done(ctypes.Structure):
    _fields_ = [("status", u32), ("count", u64)]


def constants():
    """The header's constants, by their names: each is given a number, or is one above the one before it."""
    found = {}
    for block in re.findall(r"enum \{(.*?)\};", re.sub(r"/\*.*?\*/", "", header, flags=re.S), re.S):
        last = -1
        for name, number in re.findall(r"(\w+)(?:\s*=\s*(\d+))?\s*(?:,|$)", block.strip()):
            last = int(number) if number else last + 1
            found[name.removeprefix("RADIXVM_")] = last
    return found


OF = constants()
library.radixvm_new.restype = library.radixvm_run.restype = library.radixvm_maps.restype = Done
library.radixvm_cores.restype = u64
assert library.radixvm_version() == int(re.search(r"#define RADIXVM_VERSION (\d+)", header)[1])

setup, machine, outcome = Setup(2, 4, 100, 1), Machine(), Outcome()
done = library.radixvm_new(ctypes.byref(setup), None, ctypes.c_size_t(0), None, ctypes.c_size_t(0), ctypes.byref(machine))
assert (done.status, library.radixvm_cores(ctypes.byref(machine))) == (OF["OK"], 2)


def call(**words):
    status = library.radixvm_call(ctypes.byref(machine), ctypes.byref(Event(**words)), ctypes.byref(outcome))
    return status, outcome.kind, outcome.value


flags = OF["MAP_PRIVATE"] | OF["MAP_FIXED"] | OF["MAP_ANONYMOUS"]
assert call(kind=OF["MMAP"], core=0, at=0x10000, len=4096, prot=OF["PROT_READ"] | OF["PROT_WRITE"], flags=flags) == (OF["OK"], OF["MAPPED"], 0x10000)
assert call(kind=OF["STORE"], core=0, at=0x10004, byte=41) == (OF["OK"], OF["DONE"], 0)
assert call(kind=OF["LOAD"], core=1, at=0x10004) == (OF["OK"], OF["BYTE"], 41)
assert call(kind=OF["LOAD"], core=1, at=0x20000) == (OF["OK"], OF["SEGV_MAPERR"], 0)
assert call(kind=OF["LOAD"], core=64, at=0x10004)[0] == OF["BAD_EVENT"]
assert library.radixvm_call(None, None, None) == OF["NULL"]
assert library.radixvm_maps(ctypes.byref(machine), None, ctypes.c_size_t(0)).count == 1
library.radixvm_free(ctypes.byref(machine))
assert library.radixvm_cores(ctypes.byref(machine)) == 0
print("ctypes: a machine was made, called and freed through the shared library")
