// Package dasd is selector channels with IBM 2311 and 2314 drives for emulators of the System/360, by the library libdasd.
//
//	disks, err := dasd.New(memory, keys, 1) // main storage is the program's: a slice, and a key for each 2,048 bytes of it
//	err = disks.AttachNew(0x190, 2314, 203)
//	code, err := disks.SIO(0x190)
//
// What a call does, dasd.h says. Main storage is lent to each call that needs it: no byte is copied, and between two calls it is the
// program's, which stores into it as the processor does. While a call runs nobody else reads or writes memory, or writes keys.
//
// A refused call returns a Fault, and has changed nothing. A Disks is used by one goroutine at a time.
package dasd

// #cgo LDFLAGS: -ldasd
// #include "lent.h"
import "C"

import "strconv"

// A Fault is why a call was refused, which has changed nothing.
type Fault int32

// Error returns the sentence that says what it means.
func (f Fault) Error() string {
	for _, it := range faults {
		if it.fault == f {
			return it.text
		}
	}
	return "no fault of this library: " + strconv.Itoa(int(f))
}

// Name returns its name in dasd.h; of a number that is none of its faults, no name.
func (f Fault) Name() string {
	for _, it := range faults {
		if it.fault == f {
			return it.name
		}
	}
	return ""
}

// done returns what a call answered, or the Fault by which it was refused.
func done(code C.int32_t) (int, error) {
	if code < 0 {
		return 0, Fault(code)
	}
	return int(code), nil
}

// Disks are channels with their drives and the volumes of these, over main storage that the program keeps.
type Disks struct {
	handle       C.dasd
	memory, keys []byte
}

// New makes channels of these numbers, 0 to 6, without drives, over this memory, with a key for each 2,048 bytes of it. A key is 0 to 15.
// BadChannels, BadSize, BadBlocks, NoMemory.
func New(memory, keys []byte, channels ...int) (*Disks, error) {
	set, err := Set(channels...)
	if err != nil {
		return nil, err
	}
	if len(keys) != len(memory)/2048 && len(memory)%2048 == 0 {
		return nil, BadBlocks
	}
	size := len(memory)
	if size > 1<<24 {
		size = 0 // which is refused by the same name
	}
	d := &Disks{memory: memory, keys: keys}
	_, err = done(C.dasd_new_lent(&d.handle, C.uint32_t(size), C.uint8_t(set)))
	if err != nil {
		return nil, err
	}
	return d, nil
}

// Set returns the set of these channels, 0 to 6, in the form of a system mask. BadChannels.
func Set(channels ...int) (uint8, error) {
	var set uint8
	for _, it := range channels {
		if it < 0 || it > 6 {
			return 0, BadChannels
		}
		set |= 0x80 >> it
	}
	return set, nil
}

// Close frees all of it, volumes too, whether they were saved or not. Every call then returns NothingHeld.
func (d *Disks) Close() {
	C.dasd_free(&d.handle)
}

// Lend lends other memory and keys of the same sizes from now on. OtherSize.
func (d *Disks) Lend(memory, keys []byte) error {
	if len(memory) != len(d.memory) || len(keys) != len(d.keys) {
		return OtherSize
	}
	d.memory, d.keys = memory, keys
	return nil
}

// Copy returns a second one that is as this one is, also in the middle of channel programs, over other memory of the same size, to which the
// program copies its bytes and keys. OtherSize, NoMemory.
func (d *Disks) Copy(memory, keys []byte) (*Disks, error) {
	second := &Disks{memory: d.memory, keys: d.keys}
	if err := second.Lend(memory, keys); err != nil {
		return nil, err
	}
	if _, err := done(C.dasd_copy(&d.handle, &second.handle)); err != nil {
		return nil, err
	}
	return second, nil
}

// Save returns what the channels are between two programs, as bytes for a file. ProgramRuns.
func (d *Disks) Save() ([]byte, error) {
	into := make([]byte, Saved)
	var written C.size_t
	if _, err := done(C.dasd_save(&d.handle, at(into), C.size_t(len(into)), &written)); err != nil {
		return nil, err
	}
	return into[:written], nil
}

// Restore restores what was saved, all or nothing, over the same channels and drives, where no program runs. NoSavedState, OtherVersion,
// SavedLength, SavedSum, NotSound; then, channel by channel, OtherChannels, ProgramRuns, OtherDrives, NoTrack, NotOwed.
func (d *Disks) Restore(saved []byte) error {
	_, err := done(C.dasd_restore(&d.handle, at(saved), C.size_t(len(saved))))
	return err
}

var none [1]byte

// at returns where bytes begin; where there are none, a byte that nobody looks at.
func at(bytes []byte) *C.uint8_t {
	if len(bytes) == 0 {
		return (*C.uint8_t)(&none[0])
	}
	return (*C.uint8_t)(&bytes[0])
}

// storage is main storage as it is passed to a call.
type storage struct {
	keys   *C.uint8_t
	blocks C.size_t
	bytes  *C.uint8_t
	size   C.size_t
}

func (d *Disks) lent() storage {
	return storage{at(d.keys), C.size_t(len(d.keys)), at(d.memory), C.size_t(len(d.memory))}
}
