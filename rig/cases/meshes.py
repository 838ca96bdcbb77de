"""Small meshes as rows, flags and vertices, and their images, form 1, made without the library."""

import struct


def image(rows, flags=None, vertices=()):
    """The stored image of rows (four images for each dart), flags and vertices (a dart and its three coordinates)."""
    n = len(rows) // 4
    flags = bytes(flags) if flags is not None else bytes(n)
    head = (1, 28 + 17 * n + 28 * len(vertices), n, 28, 28 + 16 * n, len(vertices), 28 + 17 * n)
    records = b"".join(struct.pack("<I3d", dart, *point) for dart, point in vertices)
    return struct.pack("<7I", *head) + struct.pack(f"<{4 * n}I", *rows) + flags + records


def link(rows, i, a, b):
    """Links a and b by beta i."""
    rows[4 * a + i] = b
    rows[4 * b + (0, 0, 2, 3)[i]] = a


def loops(faces, n=None):
    """The rows of closed faces, each the list of its darts, with n darts in all."""
    rows = [0] * 4 * (n or 1 + max(dart for face in faces for dart in face))
    for face in faces:
        for k, dart in enumerate(face):
            link(rows, 1, dart, face[(k + 1) % len(face)])
    return rows


def mesh(cells):
    """Rows, flags and vertices of cells that are glued where they share a face. A cell is a list of faces, a face the list of its corners."""
    darts = {}
    faces = []
    for c, cell in enumerate(cells):
        for face in cell:
            own = []
            for k, corner in enumerate(face):
                own.append(len(darts) + 1)
                darts[c, corner, face[(k + 1) % len(face)], frozenset(face)] = own[-1]
            faces.append(own)
    rows = loops(faces)
    least = {}
    for (c, a, b, face), dart in darts.items():
        least.setdefault(a, dart)
        for (c2, a2, b2, face2), other in darts.items():
            if (a2, b2) == (b, a) and c2 == c and face2 != face:
                link(rows, 2, dart, other)
            if (a2, b2) == (b, a) and c2 != c and face2 == face:
                link(rows, 3, dart, other)
    vertices = sorted((dart, tuple(map(float, corner))) for corner, dart in least.items())
    return rows, None, vertices


def cube_mesh(x, y, z):
    """The faces of the unit cube at a place."""
    def at(*corners):
        return [(x + a, y + b, z + c) for a, b, c in corners]
    return [
        at((0, 0, 0), (0, 1, 0), (1, 1, 0), (1, 0, 0)),
        at((0, 0, 1), (1, 0, 1), (1, 1, 1), (0, 1, 1)),
        at((0, 0, 0), (1, 0, 0), (1, 0, 1), (0, 0, 1)),
        at((0, 1, 0), (0, 1, 1), (1, 1, 1), (1, 1, 0)),
        at((0, 0, 0), (0, 0, 1), (0, 1, 1), (0, 1, 0)),
        at((1, 0, 0), (1, 1, 0), (1, 1, 1), (1, 0, 1)),
    ]


def tetrahedron():
    """Rows, flags and vertices of a tetrahedron."""
    a, b, c, d = (0, 0, 0), (1, 0, 0), (0, 1, 0), (0, 0, 1)
    return mesh([[[a, c, b], [a, b, d], [b, c, d], [c, a, d]]])


def open_strip():
    """Rows of two darts, one behind the other, with open ends."""
    rows = [0] * 12
    link(rows, 1, 1, 2)
    return rows
