"""Whether the crates of which the libraries are made are as c/interface.toml has it: the calls that they export, with their parameters, the fields of their
structs, the numbers by which they refuse, and the drives by their definitions."""

import re
from collections.abc import Iterator
from dataclasses import dataclass
from pathlib import Path

from tools.make.interface_table import Call, Header, Interface, Named, Row, Struct

NUMBERS = {"uint8_t": "u8", "uint16_t": "u16", "uint32_t": "u32", "uint64_t": "u64", "int32_t": "i32", "size_t": "usize"}
# A pointer and a length are one parameter there, and so are a pointer and a length in a struct.
SLICES = {"const uint8_t *": "&[u8]", "uint8_t *": "&mut [u8]", "char *": "&mut [u8]", "const dasd_bytes *": "&[&[u8]]", "const size_t *": "&[usize]"}
# Parameters whose names say less for C than for the crate, or more.
NAMES = {"command": "code"}
EXPORT = re.compile(r'#\[unsafe\(no_mangle\)\]\s+pub extern "C" fn (\w+)\(([^)]*)\) -> (\w+)')
STRUCT = re.compile(r"#\[repr\(C\)\]\s+#\[derive\([^)]*\)\]\s+pub struct (\w+) \{(.*?)\n\}", re.DOTALL)
FIELD = re.compile(r"^    pub(?:\(crate\))? (\w+): (.*),$", re.MULTILINE)
CONSTANT = re.compile(r"const (\w+): i32 = (-\d+);")
ARM = re.compile(r"=> (-\d+),")
# The definitions of the drives, and a rule of one for a drive by its number.
MODELS = ("ckd_track/specs/Model.antt", "ckd_track/specs/Charges.antt", "ckd_image/specs/Header.antt")
RULE = re.compile(r"^(\w+ D\d+)(?: kl dl| kl)? = (.*)$", re.MULTILINE)


@dataclass(frozen=True)
class Side:
    """The crates behind a header: that which exports its calls, those which have its structs, and the files that have its numbers."""

    header: Header
    structs: dict[str, Struct]
    exports: Path
    numbers: list[Path]


def texts(*files: Path) -> str:
    """The code of these files, and of all files of these crates, without lifetimes."""
    every = [file for it in files for file in (sorted((it / "src").glob("*.rt")) if it.is_dir() else [it])]
    return re.sub(r"<'\w+(?:, '\w+)*>|(?<=&)'\w+ ", "", "\n".join(it.read_text(encoding="utf-8") for it in every))


def of_pointer(of: Named, structs: dict[str, Struct]) -> str:
    """A pointer to one value, as the crate has it."""
    found = re.fullmatch(r"(const )?(\w+) \*", of.type)
    if not found:
        return NUMBERS[of.type]
    struct = structs.get(found[2])
    is_shared = found[1] and not (struct and struct.is_handle)
    name = struct.rattle if struct else NUMBERS.get(found[2], found[2])
    return f"&{'' if is_shared else 'mut '}{name}"


def lowered(parameters: tuple[Named, ...], structs: dict[str, Struct]) -> list[tuple[str, str]]:
    """The names and types that a crate gives what C passes so; a handle, a struct and a slice are known by their types alone."""
    made, rest = [], list(parameters)
    while rest:
        of = rest.pop(0)
        if rest and rest[0].type == "size_t" and of.type in SLICES:
            rest.pop(0)
            made.append(("", SLICES[of.type]))
        else:
            kind = of_pointer(of, structs)
            made.append((of.name if kind in NUMBERS.values() else "", kind))
    return made


def exported(text: str) -> dict[str, tuple[list[tuple[str, str]], str]]:
    """What a crate exports: of each call its parameters, except for the allocator, which C does not see, and what it answers."""
    found = {}
    for name, inside, result in EXPORT.findall(text):
        pairs = [it.strip().split(": ") for it in inside.split(",") if it.strip()]
        some = [(NAMES.get(name, name), kind) for name, kind in pairs if kind != "Global"]
        found[name] = ([(name if kind in NUMBERS.values() else "", kind) for name, kind in some], result)
    return found


def wrong_calls(side: Side) -> Iterator[str]:
    """Calls that only one of the two has, or that both have in different ways."""
    there = exported(texts(side.exports))
    wanted: dict[str, Call] = {it.name: it for it in side.header.calls}
    for name in sorted(set(there) ^ set(wanted)):
        yield f"{name}: {'the table lacks it' if name in there else f'{side.exports.name} does not export it'}"
    for name in sorted(set(there) & set(wanted)):
        call = wanted[name]
        told = (lowered(call.parameters, side.structs), NUMBERS[call.result])
        if told != there[name]:
            yield f"{name}: {side.exports.name} has {there[name]}, and the table {told}"


def without_lengths(fields: list[tuple[str, str]]) -> list[tuple[str, str]]:
    """Fields of which a pointer, or a slice, is bytes, and the length after it is no field of its own."""
    made: list[tuple[str, str]] = []
    for name, kind in fields:
        if kind in ("usize", "size_t") and made and made[-1][1] == "bytes":
            made[-1] = (made[-1][0], "bytes and their length")
        else:
            made.append((name, "bytes" if kind.startswith(("*", "&")) or kind.endswith("*") else NUMBERS.get(kind, kind)))
    return [(name, "bytes and their length" if kind == "bytes" else kind) for name, kind in made]


def wrong_structs(side: Side, text: str) -> Iterator[str]:
    """Structs whose fields lie otherwise in the crates. One of which a field is a struct of theirs is left to what is compiled."""
    there = {name: FIELD.findall(inside) for name, inside in STRUCT.findall(text)}
    for struct in side.header.structs:
        if struct.is_handle or not struct.rattle:
            continue
        if struct.rattle not in there:
            yield f"{struct.name}: no struct {struct.rattle}"
            continue
        wanted = without_lengths([(it.name, f"[{NUMBERS[it.type]}; {it.count}]" if it.count else it.type) for it in struct.fields])
        found = without_lengths(there[struct.rattle])
        if found != wanted and not any(kind[0].isupper() for _, kind in found):
            yield f"{struct.name}: {struct.rattle} has {found}, and the table {wanted}"


def wrong_faults(side: Side, shared: Header) -> Iterator[str]:
    """Faults that the crates name otherwise, or that only one of the two has; those of `shared` may lack."""
    text = texts(*side.numbers)
    named = {value.name: value.number for header in (side.header, shared) for value in header.faults}
    for name, number in CONSTANT.findall(text):
        if named.get(f"DASD_{name}") != int(number):
            yield f"{name} = {number}: the table has {named.get(f'DASD_{name}', 'no such fault')}"
    answered = {int(number) for _, number in CONSTANT.findall(text)} | {int(it) for it in ARM.findall(text)}
    own, other = {it.number for it in side.header.faults}, {it.number for it in shared.faults}
    for number in sorted(own - answered):
        yield f"{number}: {side.exports.name} never answers it"
    for number in sorted(answered - own - other):
        yield f"{number}: {side.exports.name} answers it, and the table lacks it"


def rules_of(model: Row) -> dict[str, str]:
    """What the definitions have of a drive."""
    by, of = model["scale"]
    return {
        "model_number_of": f"{model['number']}",
        "device_type_of": f"{model['type']:#04x}",
        "heads_of": f"{model['heads']}",
        "capacity_of": f"{model['capacity']}",
        "slot_size_of": f"{model['slot']}",
        "key_overhead_of": f"if nat_lt 0 kl then {model['key_gap']} else 0",
        "charge_of": f"{model['gap']} + key_overhead_of D{model['number']} kl + (kl + dl) * {by} / {of}",
    }


def wrong_models(models: list[Row], text: str) -> Iterator[str]:
    """What of the drives is otherwise in the definitions, and drives that only one of the two has."""
    there = dict(RULE.findall(text))
    told = {f"{function} D{it['number']}": body for it in models for function, body in rules_of(it).items()}
    for name in sorted(set(there) | set(told)):
        if there.get(name) != told.get(name):
            yield f"{name}: the definitions have {there.get(name, 'none')}, and the table {told.get(name, 'none')}"


def differences(interface: Interface, crates: Path) -> list[str]:
    """All in which the crates differ from the table."""
    structs = {it.name: it for it in [*interface.library.structs, *interface.drive.structs]}
    calls = crates / "subsystem_calls"
    library = Side(interface.library, structs, crates / "dasd_c", [calls / "src/tell.rt", calls / "src/states.rt"])
    drive = Side(interface.drive, structs, crates / "lone_drive_c", [crates / "lone_drive_c/src/tell.rt"])
    files = crates / "dasd_files"
    of_library = texts(crates / "dasd_c", calls, crates / "dasd_subsystem", files)
    found = [*wrong_calls(library), *wrong_calls(drive)]
    found += [*wrong_structs(library, of_library), *wrong_structs(drive, texts(drive.exports, files))]
    found += [*wrong_faults(library, library.header), *wrong_faults(drive, library.header)]
    return found + [*wrong_models(interface.models, texts(*(crates / it for it in MODELS)))]
