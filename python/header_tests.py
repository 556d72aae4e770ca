"""Tests that the module declares the functions and structs of include/hailfeather.h as they stand there."""

import re
import subprocess
import tempfile
import unittest
from ctypes import POINTER, Structure, c_size_t, c_uint8, c_uint32, c_uint64, sizeof
from pathlib import Path

from hailfeather import structs
from hailfeather.library import FUNCTIONS, functions

INCLUDE = Path(__file__).resolve().parent.parent / "include"
HEADER = re.sub(r"/\*.*?\*/", "", (INCLUDE / "hailfeather.h").read_text(encoding="utf-8"), flags=re.DOTALL)
STRUCTS = {made.__doc__: made for made in vars(structs).values() if isinstance(made, type) and issubclass(made, Structure) and made is not Structure}
TYPES = {"uint8_t": c_uint8, "uint32_t": c_uint32, "uint64_t": c_uint64, "size_t": c_size_t, "void": None, **STRUCTS}


def declared(parameter: str) -> object:
    """The ctypes type of a parameter in C."""
    kind, name = parameter.replace("const ", "").rsplit(" ", 1)
    return POINTER(TYPES[kind]) if "*" in name or "[" in name else TYPES[kind]


class Header(unittest.TestCase):
    def test_functions(self) -> None:
        found = {
            name: (TYPES[result], [declared(parameter.strip()) for parameter in parameters.split(",") if parameter != "void"])
            for result, name, parameters in re.findall(r"^(\w+) (hf_\w+)\(([^)]*)\)(?: HF_NONNULL)?;", HEADER, flags=re.MULTILINE)
        }
        self.assertEqual(len(found), 31)
        self.assertEqual({name: (result, list(arguments)) for name, (result, arguments) in FUNCTIONS.items()}, found)
        for name, (result, arguments) in found.items():
            function = getattr(functions, name)
            self.assertEqual((function.restype, list(function.argtypes)), (result, arguments), name)

    def test_structs(self) -> None:
        """Size, and each field's offset and size, as the C compiler has them."""
        self.assertEqual(set(STRUCTS), set(re.findall(r"^} (hf_\w+);", HEADER, flags=re.MULTILINE)))
        measures, expected = [], []
        for name, made in STRUCTS.items():
            measures.append(f"sizeof({name})")
            expected.append(sizeof(made))
            for field, _ in made._fields_:
                measures += [f"offsetof({name}, {field})", f"sizeof((({name} *)0)->{field})"]
                expected += [getattr(made, field).offset, getattr(made, field).size]
        self.assertEqual(self.measured(measures), expected)

    def measured(self, measures: list) -> list:
        """The values of C expressions."""
        lines = "".join(f'    printf("%zu\\n", (size_t)({measure}));\n' for measure in measures)
        source = f"#include <stdio.h>\n#include <hailfeather.h>\nint main(void)\n{{\n{lines}    return 0;\n}}\n"
        with tempfile.TemporaryDirectory() as folder:
            program = str(Path(folder) / "measures")
            subprocess.run(["cc", "-I", str(INCLUDE), "-x", "c", "-o", program, "-"], input=source.encode(), check=True)
            return [int(line) for line in subprocess.run([program], stdout=subprocess.PIPE, check=True).stdout.split()]
