// Made by tools/run make/interface of c/interface.toml.

package dasd

// Interface is the number of the binary interface that these declarations are.
const Interface = 1

// Saved is how many bytes a saved state has.
const Saved = 538

// TraceRoom is room for the lines of any look.
const TraceRoom = 2048

// NothingHeld: the handle holds nothing: it was not made, or was freed.
const NothingHeld Fault = -1

// InUse: the handle holds something already.
const InUse Fault = -2

// NoMemory: memory was refused.
const NoMemory Fault = -3

// OutsideStorage: a byte lies outside main storage.
const OutsideStorage Fault = -4

// BadSize: storage has a multiple of 2,048 bytes, from 4,096 to 16,777,216.
const BadSize Fault = -5

// BadChannels: the set is not one of the channels 0 to 6.
const BadChannels Fault = -6

// BadKey: a storage key is 0 to 15.
const BadKey Fault = -7

// BadModel: a drive's model is 2311 or 2314.
const BadModel Fault = -8

// NoCylinders: a volume has 1 to 65,535 cylinders.
const NoCylinders Fault = -9

// NoChannel: there is no channel of this number.
const NoChannel Fault = -10

// NoDrive: no drive with this address is attached.
const NoDrive Fault = -11

// AddressTaken: a drive with this address is attached.
const AddressTaken Fault = -12

// Full: eight drives are attached to this channel.
const Full Fault = -13

// NoFiles: an image has at least one file.
const NoFiles Fault = -14

// TooManyFiles: an image has at most eight files.
const TooManyFiles Fault = -15

// NoFile: the drive's image has no such file.
const NoFile Fault = -16

// ProgramRuns: a channel program runs.
const ProgramRuns Fault = -17

// EndingPends: the channel status word of this drive's program is not yet stored.
const EndingPends Fault = -18

// DeviceEndOwed: this drive's arm moves, or has arrived and has not interrupted.
const DeviceEndOwed Fault = -19

// NoStorage: the handle owns no main storage: each call is lent it.
const NoStorage Fault = -20

// BadBlocks: main storage has one key for each block of 2,048 bytes.
const BadBlocks Fault = -21

// OtherSize: the channels are for main storage of another size.
const OtherSize Fault = -22

// NoProgram: no channel program runs on this channel.
const NoProgram Fault = -23

// NoRoom: what is to be written may have more bytes than there is room for.
const NoRoom Fault = -24

// BadMoment: there is no such moment, or its call answers no such thing.
const BadMoment Fault = -25

// BadUntil: nothing is waited for by such a bit.
const BadUntil Fault = -26

// NotOwed: a saved channel status word is no ending that its channel owes.
const NotOwed Fault = -27

// NotCkdP370: not a CKD_P370 image.
const NotCkdP370 Fault = -32

// Compressed: a compressed image, or a shadow file.
const Compressed Fault = -33

// DeviceType: neither a 2311 nor a 2314.
const DeviceType Fault = -34

// Heads: the number of heads is not the drive's.
const Heads Fault = -35

// TrackSize: a track of the drive may not fit the track size.
const TrackSize Fault = -36

// Split: the files are not those of one image, in order.
const Split Fault = -37

// Length: a file's length is not that of an image.
const Length Fault = -38

// Store: a file could not be read or written; no file in memory does so.
const Store Fault = -39

// NoSavedState: not a saved state.
const NoSavedState Fault = -40

// OtherVersion: a saved state of another version.
const OtherVersion Fault = -41

// SavedLength: a saved state that is cut short, or too long.
const SavedLength Fault = -42

// SavedSum: a saved state that was changed: its checksum does not fit.
const SavedSum Fault = -43

// NotSound: a field of a saved state has a value that none has.
const NotSound Fault = -44

// OtherChannels: a saved state of other channels.
const OtherChannels Fault = -45

// OtherDrives: a saved state of a channel with other drives.
const OtherDrives Fault = -46

// NoTrack: a drive was saved at a track that its volume does not have.
const NoTrack Fault = -47

// AtRest is of enum dasd_arm.
const AtRest = 0

// InMotion is of enum dasd_arm.
const InMotion = 1

// Arrived is of enum dasd_arm.
const Arrived = 2

// Available is of enum dasd_subchannel.
const Available = 0

// Working is of enum dasd_subchannel.
const Working = 1

// Ended is of enum dasd_subchannel.
const Ended = 2

// UntilAsked is of enum dasd_until: a word asks for an interruption (PCI), where none was asked for that is not yet taken.
const UntilAsked = 1

// UntilCylinder is of enum dasd_until: the arm is at another cylinder.
const UntilCylinder = 2

// UntilTrack is of enum dasd_until: the arm is at another cylinder, or another head is selected.
const UntilTrack = 4

// Fetches is of enum dasd_phase: it fetches a word that begins a command.
const Fetches = 0

// Looks is of enum dasd_phase: it looks for the area of the command at work.
const Looks = 1

// Moves is of enum dasd_phase: it moves bytes.
const Moves = 2

// Index is of enum dasd_area: none: none has passed since the index.
const Index = 0

// HomeAddress is of enum dasd_area.
const HomeAddress = 1

// Count is of enum dasd_area.
const Count = 2

// Key is of enum dasd_area.
const Key = 3

// Data is of enum dasd_area.
const Data = 4

// NoCredit is of enum dasd_credit.
const NoCredit = 0

// EqualHomeAddress is of enum dasd_credit: a search found the whole of it equal.
const EqualHomeAddress = 1

// EqualId is of enum dasd_credit.
const EqualId = 2

// EqualKey is of enum dasd_credit.
const EqualKey = 3

// WroteHomeAddress is of enum dasd_credit: it was written.
const WroteHomeAddress = 4

// WroteRecord is of enum dasd_credit.
const WroteRecord = 5

// BeforeSio is of enum dasd_when: dasd_sio is about to be called for this address.
const BeforeSio = 0

// BehindUnit is of enum dasd_when: the channel's program has done a unit.
const BehindUnit = 1

// BehindSio is of enum dasd_when: after dasd_sio, dasd_tio, dasd_hio, dasd_tch: the condition code.
const BehindSio = 2

// BehindTio is of enum dasd_when.
const BehindTio = 3

// BehindHio is of enum dasd_when.
const BehindHio = 4

// BehindTch is of enum dasd_when.
const BehindTch = 5

// BehindStep is of enum dasd_when: so many units were done, 65,535 at most, after the last of which it has looked.
const BehindStep = 6

// BehindRun is of enum dasd_when: the same, with another word and any number.
const BehindRun = 7

// BehindArrive is of enum dasd_when: after dasd_arrive: 1 or 0.
const BehindArrive = 8

// BehindInterrupt is of enum dasd_when: after dasd_interrupt: 1, from this address, or 0.
const BehindInterrupt = 9

// BehindReset is of enum dasd_when: after dasd_reset: 0; or 1, with the track that is lost.
const BehindReset = 10

// AtEnd is of enum dasd_when: the trace ends: a word that is still at work is reported.
const AtEnd = 11

var faults = []struct {
	fault      Fault
	name, text string
}{
	{NothingHeld, "DASD_NOTHING_HELD", "the handle holds nothing: it was not made, or was freed"},
	{InUse, "DASD_IN_USE", "the handle holds something already"},
	{NoMemory, "DASD_NO_MEMORY", "memory was refused"},
	{OutsideStorage, "DASD_OUTSIDE_STORAGE", "a byte lies outside main storage"},
	{BadSize, "DASD_BAD_SIZE", "storage has a multiple of 2,048 bytes, from 4,096 to 16,777,216"},
	{BadChannels, "DASD_BAD_CHANNELS", "the set is not one of the channels 0 to 6"},
	{BadKey, "DASD_BAD_KEY", "a storage key is 0 to 15"},
	{BadModel, "DASD_BAD_MODEL", "a drive's model is 2311 or 2314"},
	{NoCylinders, "DASD_NO_CYLINDERS", "a volume has 1 to 65,535 cylinders"},
	{NoChannel, "DASD_NO_CHANNEL", "there is no channel of this number"},
	{NoDrive, "DASD_NO_DRIVE", "no drive with this address is attached"},
	{AddressTaken, "DASD_ADDRESS_TAKEN", "a drive with this address is attached"},
	{Full, "DASD_FULL", "eight drives are attached to this channel"},
	{NoFiles, "DASD_NO_FILES", "an image has at least one file"},
	{TooManyFiles, "DASD_TOO_MANY_FILES", "an image has at most eight files"},
	{NoFile, "DASD_NO_FILE", "the drive's image has no such file"},
	{ProgramRuns, "DASD_PROGRAM_RUNS", "a channel program runs"},
	{EndingPends, "DASD_ENDING_PENDS", "the channel status word of this drive's program is not yet stored"},
	{DeviceEndOwed, "DASD_DEVICE_END_OWED", "this drive's arm moves, or has arrived and has not interrupted"},
	{NoStorage, "DASD_NO_STORAGE", "the handle owns no main storage: each call is lent it"},
	{BadBlocks, "DASD_BAD_BLOCKS", "main storage has one key for each block of 2,048 bytes"},
	{OtherSize, "DASD_OTHER_SIZE", "the channels are for main storage of another size"},
	{NoProgram, "DASD_NO_PROGRAM", "no channel program runs on this channel"},
	{NoRoom, "DASD_NO_ROOM", "what is to be written may have more bytes than there is room for"},
	{BadMoment, "DASD_BAD_MOMENT", "there is no such moment, or its call answers no such thing"},
	{BadUntil, "DASD_BAD_UNTIL", "nothing is waited for by such a bit"},
	{NotOwed, "DASD_NOT_OWED", "a saved channel status word is no ending that its channel owes"},
	{NotCkdP370, "DASD_NOT_CKD_P370", "not a CKD_P370 image"},
	{Compressed, "DASD_COMPRESSED", "a compressed image, or a shadow file"},
	{DeviceType, "DASD_DEVICE_TYPE", "neither a 2311 nor a 2314"},
	{Heads, "DASD_HEADS", "the number of heads is not the drive's"},
	{TrackSize, "DASD_TRACK_SIZE", "a track of the drive may not fit the track size"},
	{Split, "DASD_SPLIT", "the files are not those of one image, in order"},
	{Length, "DASD_LENGTH", "a file's length is not that of an image"},
	{Store, "DASD_STORE", "a file could not be read or written; no file in memory does so"},
	{NoSavedState, "DASD_NO_SAVED_STATE", "not a saved state"},
	{OtherVersion, "DASD_OTHER_VERSION", "a saved state of another version"},
	{SavedLength, "DASD_SAVED_LENGTH", "a saved state that is cut short, or too long"},
	{SavedSum, "DASD_SAVED_SUM", "a saved state that was changed: its checksum does not fit"},
	{NotSound, "DASD_NOT_SOUND", "a field of a saved state has a value that none has"},
	{OtherChannels, "DASD_OTHER_CHANNELS", "a saved state of other channels"},
	{OtherDrives, "DASD_OTHER_DRIVES", "a saved state of a channel with other drives"},
	{NoTrack, "DASD_NO_TRACK", "a drive was saved at a track that its volume does not have"},
}
