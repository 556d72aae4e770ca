"""Loads the shared object and declares the functions of include/hailfeather.h."""

from ctypes import CDLL, POINTER, c_size_t, c_uint8, c_uint32, c_uint64

from . import shared_object, structs

BYTES = POINTER(c_uint8)
LENT = [BYTES, c_size_t]  # a pointer to bytes, followed by their number
DESTINATIONS = [POINTER(c_uint32), c_size_t]
HALLS = [*LENT, POINTER(c_uint32), c_size_t]  # kinds and values
VERSION = 300  # HF_VERSION of include/hailfeather.h, 0.3.0

FUNCTIONS = {
    "hf_version": (c_uint32, []),
    "hf_keccak_p": (None, [POINTER(c_uint64)]),
    "hf_cshake256": (structs.Outcome, LENT * 4),
    "hf_kmac256": (structs.Outcome, LENT * 4),
    "hf_kmacxof256": (structs.Outcome, LENT * 4),
    "hf_session_cshake256": (structs.Step, LENT * 2),
    "hf_session_kmacxof256": (structs.Step, LENT * 2),
    "hf_session_take": (structs.Step, [structs.SessionState, *LENT]),
    "hf_session_give": (structs.Step, [structs.SessionState, *LENT]),
    "hf_seal": (structs.Outcome, LENT * 6),
    "hf_open": (structs.Outcome, LENT * 6),
    "hf_generator_fresh": (structs.GeneratorState, []),
    "hf_generator_seed": (structs.Draw, [structs.GeneratorState, *LENT * 2]),
    "hf_generator_draw": (structs.Draw, [structs.GeneratorState, *LENT * 2]),
    "hf_kmac_generator_fresh": (structs.KmacGeneratorState, []),
    "hf_kmac_generator_seed": (structs.KmacDraw, [structs.KmacGeneratorState, *LENT * 2]),
    "hf_kmac_generator_draw": (structs.KmacDraw, [structs.KmacGeneratorState, *LENT * 2]),
    "hf_plan_read": (structs.Rows, LENT),
    "hf_plan_destination": (structs.Destination, [*LENT, c_uint64]),
    "hf_plan_row": (structs.RowLocation, [*LENT * 2, c_uint64]),
    "hf_plan_length": (structs.Length, DESTINATIONS),
    "hf_plan_write": (structs.Written, [*DESTINATIONS, *LENT]),
    "hf_plan_migrated_length": (structs.Length, LENT),
    "hf_plan_migrate": (structs.Written, LENT * 2),
    "hf_plan_start": (structs.Cursor, LENT),
    "hf_plan_step": (structs.Walk, [*LENT, structs.Cursor]),
    "hf_hall_read": (structs.HallSummary, LENT),
    "hf_hall_destination": (structs.Destination, [*LENT, c_uint64]),
    "hf_hall_read_into": (structs.HallSummary, [*LENT, *HALLS]),
    "hf_hall_length": (structs.Length, [c_uint64, *HALLS]),
    "hf_hall_write": (structs.Written, [c_uint64, *HALLS, *LENT]),
}


def loaded() -> CDLL:
    """The shared object with every function declared."""
    path = shared_object.found()
    try:
        functions = CDLL(str(path))
    except OSError as reason:
        raise ImportError(f"{path} is not a shared object that this Python can load ({reason}): {shared_object.ELSE}") from None
    for name, (result, arguments) in FUNCTIONS.items():
        try:
            function = getattr(functions, name)
        except AttributeError:
            raise ImportError(f"{path} has no function {name}, so it is not Hailfeather or not of this version: {shared_object.ELSE}") from None
        function.restype, function.argtypes = result, arguments
    if functions.hf_version() != VERSION:
        raise ImportError(f"{path} is of version {functions.hf_version()}, and this module of {VERSION}: {shared_object.ELSE}")
    return functions


functions = loaded()
