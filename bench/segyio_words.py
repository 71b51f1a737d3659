"""Times segyio's conversion of IBM floating point words, the nearest kin of 0048, in nanoseconds for a byte of input."""

import time

BYTES = 1 << 20
ROUNDS = 200


def words(np):
    """Left-justified hexadecimal words between 16^-4 and 16^3, either sign, as they lie on tape."""
    draws = np.random.default_rng(1).integers(0, 1 << 32, BYTES // 4, dtype=np.uint32)
    exponents = (np.uint32(0x3C) + (draws >> np.uint32(8)) % np.uint32(8)) << np.uint32(24)
    return ((draws & np.uint32(0x80FFFFFE)) | exponents | np.uint32(0x00100000)).byteswap()


def best(np, convert):
    """The conversion is in place, so each round has its own copy, made before the clock starts."""
    source = words(np)
    shortest = float("inf")
    for _ in range(ROUNDS):
        data = source.copy()
        began = time.thread_time_ns()
        convert(data)
        shortest = min(shortest, time.thread_time_ns() - began)
    return shortest / BYTES


def main():
    try:
        import numpy as np
        import segyio
        import segyio._segyio  # which segyio.tools needs and does not import
        from segyio.tools import native
    except ImportError:
        print("segyio: missing (Debian's python3-segyio)")
        return
    figure = best(np, lambda data: native(data, copy=False))
    print(f"segyio {segyio.__version__}, IBM floats to native ones in place: {figure:.2f} ns a byte")


main()
