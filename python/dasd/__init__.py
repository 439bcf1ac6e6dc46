"""Selector channels with IBM 2311 and 2314 drives, by the library libdasd and ctypes.

    import dasd

    with dasd.Subsystem(65536, 1) as disks:
        disks.attach_new(0x190, 2314, cylinders=2)
        disks.storage[0x48:0x4C] = bytes.fromhex("00000100")             # the channel address word
        disks.storage[0x100:0x108] = bytes.fromhex("1600020020000010")   # Read R0 to 200
        assert disks.sio(0x190) == 0
        disks.run_on(1, 1000)
        assert disks.interrupt() == 0x190
        print(bytes(disks.storage[0x200:0x210]).hex())

The library is the file that DASD_LIBRARY names, or the one that is beside this module, as in a wheel, or what the system's loader
finds under its name. Each call is that of `dasd.h`, which says what it asks and leaves; where the library refuses, a Fault is raised, and
nothing has changed. An address is that of the System/360: 0x190 is drive 90 of channel 1. Several channels share main storage,
dasd.Subsystem(65536, 1, 2), and are reached by their addresses and numbers. A program that keeps main storage itself lends it to a
dasd.LentSubsystem.

No program in plain Python reaches memory that was freed, except for a finalizer, `__del__`, of a cycle that has a view of `storage`: Python
calls all finalizers of a cycle before it takes it apart. Any thread may call, and so may a forked process. A number out of range is
refused, never cut.
"""

from __future__ import annotations

from ._files import HeldFiles
from ._library import INTERFACE
from ._subsystem import ALL_CHANNELS, BytesLike, Channels, LentSubsystem, Subsystem, WritableBytes, channel_set, check, library_version
from ._trace import Trace, When
from ._until import Progress, Until
from ._words import (
    Area,
    Arm,
    AttachedDrive,
    Changed,
    ChangedTrack,
    ChannelState,
    Credit,
    DriveState,
    Fault,
    FaultCode,
    Phase,
    Program,
    Registers,
    Run,
    Subchannel,
    Track,
    Version,
    VolumeFile,
    fault_text,
)

__version__ = "1.2.0"
__all__ = [
    "ALL_CHANNELS",
    "INTERFACE",
    "Area",
    "Arm",
    "AttachedDrive",
    "BytesLike",
    "Changed",
    "ChangedTrack",
    "ChannelState",
    "Channels",
    "Credit",
    "DriveState",
    "Fault",
    "FaultCode",
    "HeldFiles",
    "LentSubsystem",
    "Phase",
    "Program",
    "Progress",
    "Registers",
    "Run",
    "Subchannel",
    "Subsystem",
    "Trace",
    "Track",
    "Until",
    "Version",
    "VolumeFile",
    "When",
    "WritableBytes",
    "channel_set",
    "check",
    "fault_text",
    "library_version",
]
