"""Tests of tools/make/interface.py and what it is made of, over the table and the crates with one place changed: `tools/run gate/test_interface`."""

import shutil
import tempfile
import unittest
from pathlib import Path

from tools import TOP
from tools.make import interface_words as words
from tools.make.interface import TABLE, with_parts
from tools.make.interface_rattle import differences
from tools.make.interface_table import Interface, Struct, TableFault, read

CRATES = ("dasd_c", "lone_drive_c", "subsystem_calls", "dasd_subsystem", "dasd_files", "ckd_track", "ckd_image")


def changed(path: Path, old: str, new: str) -> None:
    """Has other words in a file, which has these once."""
    text = path.read_text(encoding="utf-8")
    assert text.count(old) == 1, f"{path} has {text.count(old)} times {old}"
    path.write_text(text.replace(old, new), encoding="utf-8")


class InFolder(unittest.TestCase):
    """A copy of the table and of the crates."""

    def setUp(self) -> None:
        folder = tempfile.TemporaryDirectory()
        self.addCleanup(folder.cleanup)
        self.top = Path(folder.name)
        self.table = self.top / "interface.toml"
        shutil.copy(TOP / TABLE, self.table)
        for it in CRATES:
            for part in ("src", "specs"):
                shutil.copytree(TOP / "crates" / it / part, self.top / it / part)

    def differs(self, *lines: str) -> None:
        """The crates differ from the table just so."""
        self.assertEqual(differences(read(self.table), self.top), list(lines))


class Crates(InFolder):
    """What is said where a crate is otherwise."""

    def test_as_they_are(self) -> None:
        self.differs()

    def test_a_call_that_one_lacks(self) -> None:
        changed(self.top / "dasd_c/src/instructions.rt", "fn dasd_tch(", "fn dasd_test(")
        self.differs("dasd_tch: dasd_c does not export it", "dasd_test: the table lacks it")

    def test_a_call_with_other_parameters(self) -> None:
        changed(self.top / "dasd_c/src/storing.rt", "fn dasd_set_key(handle: &mut Handle, alloc: Global, at: u32, key: u8)", "fn dasd_set_key(x: u8)")
        wanted = [("", "&mut Handle"), ("at", "u32"), ("key", "u8")]
        self.differs(f"dasd_set_key: dasd_c has {([('x', 'u8')], 'i32')}, and the table {(wanted, 'i32')}")

    def test_numbers_in_another_order(self) -> None:
        changed(self.table, "dasd_drive_alone *d, uint16_t model, uint16_t cylinders)", "dasd_drive_alone *d, uint16_t cylinders, uint16_t model)")
        self.assertEqual([it.split(":")[0] for it in differences(read(self.table), self.top)], ["dasd_drive_attach_new"])

    def test_fields_in_another_order(self) -> None:
        changed(self.top / "lone_drive_c/src/showing.rt", "    pub passed: usize,\n    pub left: usize,\n", "    pub left: usize,\n    pub passed: usize,\n")
        there, wanted = [("left", "usize"), ("passed", "usize")], [("passed", "usize"), ("left", "usize")]
        self.differs(f"dasd_drive_next_bytes: Next has {there}, and the table {wanted}")

    def test_another_number_of_a_fault(self) -> None:
        changed(self.top / "subsystem_calls/src/tell.rt", "BAD_UNTIL: i32 = -26", "BAD_UNTIL: i32 = -28")
        self.differs(
            "BAD_UNTIL = -28: the table has -26", "-26: dasd_c never answers it", "-28: dasd_c answers it, and the table lacks it"
        )

    def test_another_drive(self) -> None:
        changed(self.top / "ckd_track/specs/Model.antt", "capacity_of D2311 = 3625", "capacity_of D2311 = 3626")
        self.differs("capacity_of D2311: the definitions have 3626, and the table 3625")
        changed(self.table, "scale = [2137, 2048]", "scale = [2136, 2048]")
        rule = "101 + key_overhead_of D2314 kl + (kl + dl) * {} / 2048"
        both = f"the definitions have {rule.format(2137)}, and the table {rule.format(2136)}"
        self.differs("capacity_of D2311: the definitions have 3626, and the table 3625", f"charge_of D2314: {both}")

    def test_a_drive_that_the_table_lacks(self) -> None:
        changed(self.top / "ckd_image/specs/Header.antt", "device_type_of D2314 = 0x14\n", "device_type_of D2314 = 0x14\ndevice_type_of D2321 = 0x21\n")
        self.differs("device_type_of D2321: the definitions have 0x21, and the table none")


class Tables(InFolder):
    """What is refused of a table."""

    def refused(self, old: str, new: str, why: str) -> None:
        """With other words it is refused."""
        changed(self.table, old, new)
        with self.assertRaisesRegex(TableFault, why):
            read(self.table)

    def test_another_size(self) -> None:
        self.refused('["uint32_t units", "how many were done"]', '["uint64_t units", "how many were done"]', "dasd_run has 16 bytes, and not 8")

    def test_a_type_that_is_not_known(self) -> None:
        self.refused("dasd_tch(const dasd *d, uint16_t address)", "dasd_tch(const dasd *d, word address)", "no type .*: word address")

    def test_one_number_of_two_faults(self) -> None:
        self.refused('["DASD_NO_TRACK", -47,', '["DASD_NO_TRACK", -46,', "two faults have one number")

    def test_one_name_of_two(self) -> None:
        self.refused('call = "int32_t dasd_sio(', 'call = "int32_t dasd_tio(', "there twice: dasd_tio")

    def test_a_word_that_is_not_known(self) -> None:
        self.refused("faults = true\nvalues = [\n    [\"DASD_DONE\"", "fault = true\nvalues = [\n    [\"DASD_DONE\"", "does not have: fault")

    def test_a_call_of_which_nothing_is_said(self) -> None:
        self.refused('says = "Test I/O, over main storage that is lent."\n', "", "dasd_lent_tio says nothing")

    def test_a_call_that_is_not_plain(self) -> None:
        self.refused("uint32_t units, uint32_t *done)\"\n", "uint32_t units, uint32_t *done)\"\nplain = \"nothing\"\n", "dasd_step is not plain")

    def test_no_table(self) -> None:
        self.refused("interface = 1\n", "interface 1\n", "no table")


class Written(unittest.TestCase):
    """How the table is written."""

    def struct(self, name: str) -> Struct:
        table: Interface = read(TOP / TABLE)
        return next(it for it in table.library.structs if it.name == name)

    def test_where_fields_lie(self) -> None:
        layout = [(it.name, at) for it, at in self.struct("dasd_drive").layout]
        want = [("model", 0), ("cylinders", 2), ("cylinder", 4), ("head", 6), ("arm", 8), ("sense", 9), ("reserved", 15)]
        self.assertEqual(layout, want)

    def test_comments_begin_below_each_other_as_far_as_they_follow_each_other(self) -> None:
        rows = [("a;", "one"), ("longer;", "two"), ("b;", ""), ("c;", "three")]
        self.assertEqual(words.aligned(rows).splitlines(), ["    a;      /* one */", "    longer; /* two */", "    b;", "    c; /* three */"])

    def test_rust(self) -> None:
        memory = {it.name: words.rust_type(it) for it in self.struct("dasd_memory").fields}
        self.assertEqual(memory, {"bytes": "*mut u8", "size": "usize", "keys": "*const u8", "blocks": "usize"})
        doc = words.rust_doc({"dasd_sio"})("As dasd_sio, of enum dasd_arm:\n\n    dasd_sio(&d);")
        self.assertEqual(doc, "/// As [`dasd_sio`], of `enum dasd_arm`:\n///\n/// ```c\n/// dasd_sio(&d);\n/// ```")

    def test_python_keeps_the_bytes_that_a_call_is_given(self) -> None:
        fields = words.ctypes_fields(read(TOP / TABLE).library)
        self.assertIn("ctypes.c_char_p", fields(self.struct("dasd_bytes")))
        self.assertIn("ctypes.c_void_p", fields(self.struct("dasd_file")))

    def test_parts_of_a_file(self) -> None:
        text = f"by hand\n# {TABLE}: begin\nold\n# {TABLE}: end\nby hand\n"
        self.assertEqual(with_parts(text, ["new\n"], "x"), text.replace("old", "new"))
        self.assertEqual(with_parts(text + text, ["new\n", "newer\n"], "x"), text.replace("old", "new") + text.replace("old", "newer"))
        for wrong in (text.replace("begin", "end"), text.replace("end", ""), text + text, ""):
            with self.assertRaises(TableFault):
                with_parts(wrong, ["new\n"], "x")

    def test_what_methods_say(self) -> None:
        text = "Ends it, as dasd_hio\ndoes. DASD_NO_CHANNEL,\nDASD_NO_DRIVE."
        rust = "/// Ends it, as [`Subsystem::hio`] does.\n///\n/// # Errors\n///\n/// `NoChannel`, `NoDrive`."
        self.assertEqual(words.rust_method_doc(text, 0), rust)
        self.assertEqual(words.rust_method_doc("Ends it.", 0), "/// Ends it.")
        self.assertEqual(words.python_doc(text, 4), '    """Ends it, as `hio` does. NO_CHANNEL, NO_DRIVE."""')


if __name__ == "__main__":
    unittest.main()
