"""A bench in Python: checks a block, optimises it, runs both on the same globals, and takes the answers apart.

Usage: bench.py [LIBRARY], the path or the name of the shared library; that of VERSION if none is given.
ngulo.h says what the calls promise and what they ask of a caller.
"""
import ctypes
import sys

VERSION = "0.7"  # what this program is written for: major and minor number
MAX_RESULT = 10840  # bytes: has room for every result
ENDING_EXIT, ENDING_FAULT, ENDING_NO_RESULT = 1, 2, 3
ACCESS_STORE, ACCESS_REASON = 256, 65536  # report[2] after a fault: flags + 256 for a store + 65536 * reason
FAULT_REASONS = {0: "bounds", 1: "alignment"}

DECL, EXIT_TB, MOVI_I32, MOV_I32, ADD_I32 = 0x01, 0x04, 0x10, 0x11, 0x14
GLOBAL, TEMPORARY = 0, 2
I32, I64 = 0, 1

# Four globals, a temporary, five ops. FORMAT.md says what the bytes of each record are.
EXIT = bytes([EXIT_TB, 0])                    # leave with v0
BLOCK = bytes([
    DECL, GLOBAL, I64,                        # v0
    DECL, GLOBAL, I32,                        # v1
    DECL, GLOBAL, I32,                        # v2
    DECL, GLOBAL, I32,                        # v3
    DECL, TEMPORARY, I32,                     # v4
    MOVI_I32, 4, *(1).to_bytes(8, "little"),  # v4 = 1
    ADD_I32, 1, 2, 3,                         # v1 = v2 + v3
    ADD_I32, 1, 1, 4,                         # v1 = v1 + v4
    MOV_I32, 1, 4,                            # v1 = v4
]) + EXIT


class Refused(Exception):
    """An answer whose low byte is not 0: the number of the refusal, and the place above it."""

    def __init__(self, answer):
        self.number, self.place = answer & 255, answer >> 8
        super().__init__(f"refusal {self.number} at {self.place}")


class Ngulo:
    """The shared library. A call that is refused raises Refused."""

    def __init__(self, library):
        self.calls = ctypes.CDLL(library)
        block = [ctypes.c_char_p, ctypes.c_size_t]  # bytes may be lent as they are: no call writes its block
        numbers = ctypes.POINTER(ctypes.c_uint64)
        for name, arguments in (
            ("ngulo_version", []),
            ("ngulo_check", block),
            ("ngulo_pass", block + [ctypes.c_char_p, ctypes.c_size_t]),
            ("ngulo_run", block + [numbers, ctypes.c_size_t, ctypes.c_char_p, ctypes.c_size_t, numbers]),
        ):
            call = getattr(self.calls, name)
            call.argtypes, call.restype = arguments, ctypes.c_uint64

    def version(self):
        number = self.calls.ngulo_version()
        return f"{number >> 16}.{number >> 8 & 255}.{number & 255}"

    def check(self, block):
        self._taken(self.calls.ngulo_check(block, len(block)))

    def optimise(self, block):
        """The optimised block."""
        out = ctypes.create_string_buffer(MAX_RESULT)
        answer = self._taken(self.calls.ngulo_pass(block, len(block), out, len(out)))
        return out.raw[:answer >> 8]

    def run(self, block, values, memory=b""):
        """How the run ended (ending, detail, access, ops run), and the globals and the memory after it."""
        lent = (ctypes.c_uint64 * max(1, len(values)))(*values)  # no pointer may be NULL, even if nothing is lent
        bytes_lent = ctypes.create_string_buffer(memory, max(1, len(memory)))
        report = (ctypes.c_uint64 * 4)()
        self._taken(self.calls.ngulo_run(block, len(block), lent, len(values), bytes_lent, len(memory), report))
        return tuple(report), lent[:len(values)], bytes_lent.raw[:len(memory)]

    @staticmethod
    def _taken(answer):
        if answer & 255:
            raise Refused(answer)
        return answer


def show(name, report, values):
    ending, detail, access, count = report
    if ending == ENDING_EXIT:
        print(f"{name}: exit {detail} after {count} ops, global 1 is {values[1]}")
    elif ending == ENDING_FAULT:
        reason = FAULT_REASONS.get(access // ACCESS_REASON, "a reason of a later version")
        print(f"{name}: fault of a {'store' if access & ACCESS_STORE else 'load'} at {detail}: {reason}")
    elif ending == ENDING_NO_RESULT:
        print(f"{name}: op {detail} has no stated result")
    else:
        print(f"{name}: an ending of a later version")


def main():
    try:
        ngulo = Ngulo(sys.argv[1] if len(sys.argv) > 1 else "libngulo.so." + VERSION)
    except (OSError, AttributeError) as error:  # no such library, or it lacks the calls
        sys.exit(f"bench: {error}")
    if not ngulo.version().startswith(VERSION + "."):
        print(f"bench: written for ngulo {VERSION}, running with library {ngulo.version()}", file=sys.stderr)
    ngulo.check(BLOCK)
    result = ngulo.optimise(BLOCK)
    print(f"{len(BLOCK)} bytes became {len(result)}")
    for name, block in ("before", BLOCK), ("after", result):
        report, values, _ = ngulo.run(block, [42, 0, 2, 3])
        show(name, report, values)
    try:
        ngulo.check(BLOCK[:-len(EXIT)])
    except Refused as refusal:
        print(f"without its exit: refusal {refusal.number} at {refusal.place}")


if __name__ == "__main__":
    main()
