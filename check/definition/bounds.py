"""The certified error bound (FORMAT, section 15)."""

from definition.blocks import block_size
from definition.planes import Reader, plane_code, read_planes


def plane_of_code(code, dims, width):
    """The least plane from which on the planes are in the code whole."""
    ranked = read_planes(Reader(code), block_size(dims), range(width))
    used = known = 0
    for plane in reversed(range(width)):
        more, known = plane_code([digits >> plane & 1 for digits in ranked], known)
        used += len(more)
        if used > len(code):
            return plane + 1
    return 0


def error(dims, plane):
    bound = 2**plane - 1
    for _ in range(dims):
        bound = 4 * bound + 4
    return bound


def bound_line(header, codes, most):
    """What is said of contents of magnitudes up to `most`."""
    dims = len(header.shape)
    plane = max(plane_of_code(code, dims, header.width) for code in codes)
    bound = error(dims, plane)
    if 8 * (most + bound + 17) < 2 ** (header.width - 1):
        return f"plane {plane} bound {bound}\n"
    return f"plane {plane} no bound\n"
