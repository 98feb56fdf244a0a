"""What zar.h says, what the sources of the exports say, and the library as Python calls it by what zar.h says."""
import ctypes
import re

import source

HEADER = source.ROOT / "include" / "zar.h"
EXPORTS = source.ROOT / "crates" / "zar_c" / "src"
ENDS = [source.ROOT / "crates" / crate / "src" / "ends.rt" for crate in ("stream_runs", "stream_rolls")]

# The types of fields and of numbers, in the sources and in C.
NUMBERS = {"u8": "uint8_t", "u32": "uint32_t", "u64": "uint64_t", "i64": "int64_t", "bool": "bool"}
# The types of parameters in the sources, and those in C that stand for them. An array of lines is as long as its capacity.
PARAMETERS = {
    "u8": ["uint8_t {}"],
    "u32": ["uint32_t {}"],
    "u64": ["uint64_t {}"],
    "i64": ["int64_t {}"],
    "bool": ["bool {}"],
    "&mut u64": ["uint64_t *{}"],
    "&mut ZarFound": ["zar_found *{}"],
    "&mut ZarRan": ["zar_ran *{}"],
    "&ZarLimits": ["const zar_limits *{}"],
    "&ZarRollLimits": ["const zar_roll_limits *{}"],
    "&[u64]": ["const uint64_t *{}", "size_t {}_length"],
    "&mut [u64]": ["uint64_t *{}", "size_t {}_length"],
    "&[u8]": ["const uint8_t *{}", "size_t {}_length"],
    "&mut [u8]": ["uint8_t *{}", "size_t {}_length"],
    "&mut [i64]": ["int64_t *{}", "size_t {}_length"],
}
STRUCTURES = {"ZarSaid": "zar_said", "ZarLimits": "zar_limits", "ZarFound": "zar_found", "ZarRan": "zar_ran", "ZarRollLimits": "zar_roll_limits"}


def parts(text):
    return [" ".join(part.split()) for part in text.split(",") if part.strip()]


def of_header():
    """The functions with their parameters, the structures with their fields, and the constants, as zar.h has them."""
    text = re.sub(r"/\*.*?\*/", "", HEADER.read_text(encoding="utf-8"), flags=re.DOTALL)
    functions = {name: parts(parameters) for name, parameters in re.findall(r"^zar_said (zar_\w+)\(([^)]*)\);", text, re.MULTILINE)}
    structures = {}
    for fields, name in re.findall(r"^typedef struct \{([^}]*)\} (\w+);", text, re.MULTILINE):
        structures[name] = [" ".join(field.split()) for field in fields.split(";") if field.strip()]
    constants = {name: int(value) for name, value in re.findall(r"^ *ZAR_(\w+) = (\d+)", text, re.MULTILINE)}
    return functions, structures, constants


def of_sources():
    """The same, as the sources of the exports have them."""
    text = "".join(path.read_text(encoding="utf-8") for path in sorted(EXPORTS.glob("*.rt")))
    functions = {}
    for name, parameters in re.findall(r'^#\[unsafe\(no_mangle\)\]\npub extern "C" fn (\w+)\(([^)]*)\) -> ZarSaid$', text, re.MULTILINE):
        pairs = [part.split(": ") for part in parts(parameters)]
        told = [form.format(it) for it, kind in pairs if kind != "Global" for form in PARAMETERS[kind]]
        functions[name] = ["size_t capacity" if it == "size_t lines_length" else it for it in told]
    structures = {}
    for name, fields in re.findall(r"^#\[repr\(C\)\]\n(?:#[^\n]*\n)*pub struct (\w+) \{\n(.*?)^\}", text, re.MULTILINE | re.DOTALL):
        pairs = re.findall(r"pub (\w+): (\w+)", fields)
        structures[STRUCTURES[name]] = [f"{NUMBERS[kind]} {it}" for it, kind in pairs]
    numbered = "".join(path.read_text(encoding="utf-8") for path in (EXPORTS / "statuses.rt", *ENDS))
    constants = re.findall(r"^pub const (\w+): u8 = (\d+);", numbered, re.MULTILINE)
    return functions, structures, {name: int(value) for name, value in constants}


def differences():
    """How many functions, structures and constants there are, and which of them are not the same on both sides."""
    pairs = [(told, there) for told, there in zip(of_header(), of_sources())]
    names = [(told, there, name) for told, there in pairs for name in sorted(told.keys() | there.keys())]
    wrong = [f"{name}: zar.h has {told.get(name)}, the sources have {there.get(name)}" for told, there, name in names if told.get(name) != there.get(name)]
    return len(names), wrong


class Library:
    """The shared library, as an object with its functions."""

    def __init__(self, path):
        functions, structures, self.constants = of_header()
        numbers = {f"{kind}_t": getattr(ctypes, f"c_{kind}") for kind in ("uint8", "uint32", "uint64", "int64")} | {"bool": ctypes.c_bool}
        made = {
            name: type(name, (ctypes.Structure,), {"_fields_": [(field.split()[1], numbers[field.split()[0]]) for field in fields]})
            for name, fields in structures.items()
        }
        self.Said, self.Limits, self.Found, self.Ran, self.RollLimits = (made[name] for name in STRUCTURES.values())
        kinds = {
            "uint8_t ": ctypes.c_uint8, "uint32_t ": ctypes.c_uint32, "uint64_t ": ctypes.c_uint64, "bool ": ctypes.c_bool, "size_t ": ctypes.c_size_t, "const uint8_t *": ctypes.c_char_p, "uint8_t *": ctypes.c_void_p,
            "int64_t ": ctypes.c_int64, "int64_t *": ctypes.c_void_p, "const uint64_t *": ctypes.c_void_p, "uint64_t *": ctypes.c_void_p,
            "zar_found *": ctypes.POINTER(self.Found), "zar_ran *": ctypes.POINTER(self.Ran), "const zar_limits *": ctypes.POINTER(self.Limits), "const zar_roll_limits *": ctypes.POINTER(self.RollLimits),
        }
        library = ctypes.CDLL(str(path))
        for name, parameters in functions.items():
            function = getattr(library, name)
            function.restype = self.Said
            function.argtypes = [kinds[re.sub(r"\w+$", "", parameter)] for parameter in parameters]
            setattr(self, name, function)
