package dasd

// #include "lent.h"
import "C"

// A Run is what came of RunOn: how many units were done, and what the channel does after them: Available, Working or Ended; the low byte of the
// address whose program that is; and whether a word of it asked for an interruption that is not yet taken.
type Run struct {
	Units              uint32
	Subchannel, Device uint8
	Asked              bool
}

// A Progress is what came of RunUntil: a Run; what of the wanted bits happened in the last unit; and counts of what the units came to, with the
// lowest and the highest address that was stored into.
type Progress struct {
	Run
	Stopped                           uint8
	Cylinders                         uint64
	Bytes, Indexes, Stored, Low, High uint32
}

// A Track is one that was written and could not be saved.
type Track struct {
	Address, Cylinder, Head uint16
}

// An Attached is a drive of a channel: the low byte of its address, and what its arm does.
type Attached struct {
	Device, Arm uint8
}

// A Channel is what a channel does, and its drives in the order of attachment.
type Channel struct {
	Subchannel, Device uint8
	Asked              bool
	Drives             []Attached
}

// SIO is Start I/O: the condition code, 0 to 3, which is 3 where there is no such channel. This and TIO, HIO, Step, RunOn, RunUntil and
// Interrupt are lent main storage: BadSize, BadBlocks and OtherSize are refused before all else.
func (d *Disks) SIO(address uint16) (int, error) {
	m := d.lent()
	return done(C.lent_sio(&d.handle, m.keys, m.blocks, m.bytes, m.size, C.uint16_t(address)))
}

// TIO is Test I/O: the condition code.
func (d *Disks) TIO(address uint16) (int, error) {
	m := d.lent()
	return done(C.lent_tio(&d.handle, m.keys, m.blocks, m.bytes, m.size, C.uint16_t(address)))
}

// HIO is Halt I/O: the condition code.
func (d *Disks) HIO(address uint16) (int, error) {
	m := d.lent()
	return done(C.lent_hio(&d.handle, m.keys, m.blocks, m.bytes, m.size, C.uint16_t(address)))
}

// TCH is Test Channel, of the channel of an address: the condition code.
func (d *Disks) TCH(address uint16) (int, error) {
	return done(C.dasd_tch(&d.handle, C.uint16_t(address)))
}

// Step lets the program that runs on a channel do units until it ends, but so many at most: how many it did. NoChannel.
func (d *Disks) Step(channel uint8, units uint32) (uint32, error) {
	m, did := d.lent(), C.uint32_t(units)
	if _, err := done(C.lent_step(&d.handle, m.keys, m.blocks, m.bytes, m.size, C.uint8_t(channel), &did)); err != nil {
		return 0, err
	}
	return uint32(did), nil
}

// RunOn does the same, and says what the channel does after them. NoChannel.
func (d *Disks) RunOn(channel uint8, units uint32) (Run, error) {
	m, ran := d.lent(), C.dasd_run{units: C.uint32_t(units)}
	if _, err := done(C.lent_run_on(&d.handle, m.keys, m.blocks, m.bytes, m.size, C.uint8_t(channel), &ran)); err != nil {
		return Run{}, err
	}
	return Run{uint32(ran.units), uint8(ran.subchannel), uint8(ran.device), ran.asked == 1}, nil
}

// RunUntil does the same, and ends also after the first unit that brings what is waited for, bits of UntilAsked, UntilCylinder and UntilTrack.
// BadUntil, NoChannel.
func (d *Disks) RunUntil(channel uint8, units uint32, until uint8) (Progress, error) {
	m, wanted := d.lent(), C.dasd_wanted{units: C.uint32_t(units), channel: C.uint8_t(channel), until: C.uint8_t(until)}
	var ran C.dasd_progress
	if _, err := done(C.lent_run_until(&d.handle, m.keys, m.blocks, m.bytes, m.size, &wanted, &ran)); err != nil {
		return Progress{}, err
	}
	return Progress{
		Run:     Run{uint32(ran.units), uint8(ran.subchannel), uint8(ran.device), ran.asked == 1},
		Stopped: uint8(ran.stopped), Cylinders: uint64(ran.cylinders), Bytes: uint32(ran.bytes), Indexes: uint32(ran.indexes),
		Stored: uint32(ran.stored), Low: uint32(ran.low), High: uint32(ran.high),
	}, nil
}

// Arrive says that the arm of the drive at an address has arrived: whether it moved, so that its device end is to be stored.
func (d *Disks) Arrive(address uint16) (bool, error) {
	code, err := done(C.dasd_arrive(&d.handle, C.uint16_t(address)))
	return code == 1, err
}

// IsPending returns whether Interrupt would take an interruption from one of the channels of a set now.
func (d *Disks) IsPending(channels uint8) (bool, error) {
	code, err := done(C.dasd_is_pending(&d.handle, C.uint8_t(channels)))
	return code == 1, err
}

// Interrupt takes an interruption from the channel with the lowest number, of a set, that has one: its address, and whether there is one.
func (d *Disks) Interrupt(channels uint8) (uint16, bool, error) {
	var address C.uint16_t
	m := d.lent()
	code, err := done(C.lent_interrupt(&d.handle, m.keys, m.blocks, m.bytes, m.size, C.uint8_t(channels), &address))
	return uint16(address), code == 1, err
}

// Reset resets a channel and its drives, and no other channel: a track that was written and could not be saved, or nil. NoChannel.
func (d *Disks) Reset(channel uint8) (*Track, error) {
	var track C.dasd_track
	code, err := done(C.dasd_reset(&d.handle, C.uint8_t(channel), &track))
	if err != nil || code == 0 {
		return nil, err
	}
	return &Track{uint16(track.address), uint16(track.cylinder), uint16(track.head)}, nil
}

// Channel returns what a channel does, and its drives. NoChannel.
func (d *Disks) Channel(number uint8) (Channel, error) {
	var state C.dasd_state
	if _, err := done(C.dasd_show_channel(&d.handle, C.uint8_t(number), &state)); err != nil {
		return Channel{}, err
	}
	shown := Channel{uint8(state.subchannel), uint8(state.device), state.asked == 1, nil}
	for place := 0; place < int(state.drives); place++ {
		shown.Drives = append(shown.Drives, Attached{uint8(state.units[place]), uint8(state.arms[place])})
	}
	return shown, nil
}
