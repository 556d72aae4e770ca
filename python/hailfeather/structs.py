"""The structs of include/hailfeather.h, field by field; what each field means stands there."""

from ctypes import Structure, c_size_t, c_uint8, c_uint32, c_uint64


class Outcome(Structure):
    """hf_outcome"""

    _fields_ = [("runs", c_size_t), ("number", c_uint8)]


class SessionState(Structure):
    """hf_session"""

    _fields_ = [
        ("lanes", c_uint64 * 25),
        ("taken", c_size_t),
        ("given", c_size_t),
        ("limit", c_size_t),
        ("position", c_size_t),
        ("phase", c_uint8),
        ("suffix", c_uint8),
        ("kmac", c_uint8),
    ]


class Step(Structure):
    """hf_step"""

    _fields_ = [("session", SessionState), ("number", c_uint8)]


class GeneratorState(Structure):
    """hf_generator"""

    _fields_ = [("key", c_uint8 * 64), ("seeded", c_uint8)]


class Draw(Structure):
    """hf_draw"""

    _fields_ = [("generator", GeneratorState), ("runs", c_size_t), ("number", c_uint8)]


class KmacGeneratorState(Structure):
    """hf_kmac_generator"""

    _fields_ = GeneratorState._fields_


class KmacDraw(Structure):
    """hf_kmac_draw"""

    _fields_ = [("generator", KmacGeneratorState), ("runs", c_size_t), ("number", c_uint8)]


class Rows(Structure):
    """hf_rows"""

    _fields_ = [("place", c_size_t), ("rows", c_uint32), ("number", c_uint8)]


class Destination(Structure):
    """hf_destination"""

    _fields_ = [("place", c_size_t), ("destination", c_uint32), ("number", c_uint8)]


class RowLocation(Structure):
    """hf_row"""

    _fields_ = [
        ("start", c_size_t),
        ("length", c_size_t),
        ("place", c_size_t),
        ("source", c_uint8),
        ("malformed", c_uint8),
        ("number", c_uint8),
    ]


class Length(Structure):
    """hf_length"""

    _fields_ = [("length", c_size_t), ("place", c_size_t), ("number", c_uint8)]


class Written(Structure):
    """hf_written"""

    _fields_ = [("place", c_size_t), ("number", c_uint8)]


class Cursor(Structure):
    """hf_cursor"""

    _fields_ = [("at", c_size_t), ("place", c_size_t), ("number", c_uint8)]


class Walk(Structure):
    """hf_walk"""

    _fields_ = [("next", c_size_t), ("place", c_size_t), ("destination", c_uint32), ("number", c_uint8)]


class HallSummary(Structure):
    """hf_halls"""

    _fields_ = [("entries", c_size_t), ("place", c_size_t), ("outer", c_uint32), ("chutes", c_uint32), ("number", c_uint8)]
