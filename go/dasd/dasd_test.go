package dasd

import (
	"bytes"
	"os"
	"regexp"
	"strconv"
	"testing"
)

const size = 65536

// made returns channels 1 and 2 with a drive at 190, and their storage.
func made(t *testing.T) (*Disks, []byte) {
	t.Helper()
	memory := make([]byte, size)
	disks, err := New(memory, make([]byte, size/2048), 1, 2)
	is(t, err, nil)
	t.Cleanup(disks.Close)
	is(t, disks.AttachNew(0x190, 2314, 203), nil)
	return disks, memory
}

func is(t *testing.T, got, want any) {
	t.Helper()
	if got != want {
		t.Errorf("%v, not %v", got, want)
	}
}

// started starts the program that seeks to cylinder 100, head 3, and writes record 0 there.
func started(t *testing.T, disks *Disks, memory []byte) {
	t.Helper()
	copy(memory[0x48:], []byte{0, 0, 1, 0})
	copy(memory[0x100:], []byte{0x1F, 0, 2, 0x10, 0x40, 0, 0, 1, 0x07, 0, 2, 0, 0x40, 0, 0, 6, 0x39, 0, 2, 2, 0x40, 0, 0, 4})
	copy(memory[0x118:], []byte{0x08, 0, 1, 0x10, 0, 0, 0, 0, 0x15, 0, 3, 0, 0, 0, 0, 16})
	copy(memory[0x200:], []byte{0, 0, 0, 100, 0, 3})
	memory[0x210] = 0xC0 // the file mask that allows Write Record Zero
	copy(memory[0x300:], []byte{0, 100, 0, 3, 0, 0, 0, 8, 1, 2, 3, 4, 5, 6, 7, 8})
	code, err := disks.SIO(0x190)
	is(t, err, nil)
	is(t, code, 0)
}

func TestRun(t *testing.T) {
	disks, memory := made(t)
	before, err := disks.File(0x190, 0)
	is(t, err, nil)
	started(t, disks, memory)
	ran, err := disks.RunUntil(1, 1000, UntilCylinder)
	is(t, err, nil)
	is(t, ran.Stopped, uint8(UntilCylinder))
	is(t, ran.Cylinders, uint64(100))
	_, err = disks.File(0x190, 0)
	is(t, err, ProgramRuns)
	_, err = disks.Save()
	is(t, err, ProgramRuns)
	run, err := disks.RunOn(1, 1000)
	is(t, err, nil)
	is(t, run.Subchannel, uint8(Ended))
	address, taken, err := disks.Interrupt(0xFE)
	is(t, err, nil)
	is(t, taken && address == 0x190 && memory[68] == 0x0C, true)
	tracks, changes, err := disks.Changed(0x190, 0, before.Changes)
	is(t, err, nil)
	if len(tracks) != 1 || tracks[0].Track != 100*20+3 || changes <= before.Changes {
		t.Fatalf("%d tracks and %d changes", len(tracks), changes)
	}
	copy(before.Bytes[tracks[0].At:], tracks[0].Bytes)
	after, err := disks.File(0x190, 0)
	is(t, err, nil)
	is(t, bytes.Equal(after.Bytes, before.Bytes), true)
}

func TestVolumesGoAndCome(t *testing.T) {
	disks, _ := made(t)
	file, err := disks.File(0x190, 0)
	is(t, err, nil)
	files, err := disks.DetachFiles(0x190)
	is(t, err, nil)
	is(t, len(files) == 1 && bytes.Equal(files[0], file.Bytes), true)
	is(t, disks.Attach(0x291, files...), nil)
	drive, err := disks.Drive(0x291)
	is(t, err, nil)
	is(t, drive.Model == 2314 && drive.Cylinders == 203 && drive.Arm == AtRest, true)
	channel, err := disks.Channel(2)
	is(t, err, nil)
	is(t, len(channel.Drives) == 1 && channel.Drives[0].Device == 0x91, true)
	is(t, disks.Attach(0x192, make([]byte, 1024)), NotCkdP370)
	is(t, disks.Attach(0x192), NoFiles)
	is(t, disks.Attach(0x192, make([][]byte, 9)...), TooManyFiles)
	is(t, disks.Detach(0x291), nil)
	is(t, disks.Detach(0x291), NoDrive)
}

func TestSavedStates(t *testing.T) {
	disks, memory := made(t)
	started(t, disks, memory)
	_, err := disks.RunOn(1, 1000)
	is(t, err, nil)
	saved, err := disks.Save()
	is(t, err, nil)
	is(t, len(saved), Saved)
	_, err = disks.Reset(1)
	is(t, err, nil)
	is(t, disks.Restore(saved), nil)
	pends, err := disks.IsPending(0x40)
	is(t, err, nil)
	is(t, pends, true)
	saved[100] ^= 1
	is(t, disks.Restore(saved), SavedSum)
	is(t, disks.Restore(nil), NoSavedState)
}

func TestRefusals(t *testing.T) {
	_, err := New(make([]byte, size), make([]byte, 31), 1)
	is(t, err, BadBlocks)
	for _, it := range []int{0, 2048, 4097, 1<<24 + 2048} {
		_, err = New(make([]byte, it), make([]byte, it/2048), 1)
		is(t, err, BadSize)
	}
	_, err = New(make([]byte, size), make([]byte, size/2048), 7)
	is(t, err, BadChannels)
	disks, memory := made(t)
	is(t, disks.Lend(memory[:4096], make([]byte, 2)), OtherSize)
	disks.Close()
	_, err = disks.SIO(0x190)
	is(t, err, NothingHeld)
}

// Each fault has the number, the name and the sentence of dasd.h.
func TestFaultsAreThoseOfTheHeader(t *testing.T) {
	header, err := os.ReadFile("../../c/dasd.h")
	is(t, err, nil)
	found := regexp.MustCompile(`(DASD_\w+) = (-\d+),? +/\* (.*) \*/`).FindAllStringSubmatch(string(header), -1)
	is(t, len(found), len(faults))
	for _, it := range found {
		code, _ := strconv.Atoi(it[2])
		is(t, Fault(code).Name(), it[1])
		is(t, Fault(code).Error(), it[3])
	}
	is(t, Fault(-99).Error(), "no fault of this library: -99")
}
