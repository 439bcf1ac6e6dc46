package dasd

// #include <dasd.h>
import "C"

import "unsafe"

// A File is a copy of a file of a volume. Changes is another number after each write to it.
type File struct {
	Bytes   []byte
	Changes uint64
}

// A Changed is a track of a file that was written: its number, where its slot begins in the file, and a copy of the slot.
type Changed struct {
	Track, At int
	Bytes     []byte
}

// A Drive is what is known of a drive without a channel program. Arm is AtRest, InMotion or Arrived.
type Drive struct {
	Model, Cylinders, Cylinder, Head uint16
	Arm                              uint8
	Sense                            [6]byte
}

// Attach attaches a drive under an address, with the volume that these files, one to eight in their order, hold. They are copied. NoChannel,
// NoFiles, TooManyFiles, NoMemory, NotCkdP370 to Length, AddressTaken, Full.
func (d *Disks) Attach(address uint16, files ...[]byte) error {
	held, err := hold(files)
	if err != nil {
		return err
	}
	defer C.dasd_files_free(&held) // which holds nothing where the drive has taken the files over
	_, err = done(C.dasd_attach_files(&d.handle, C.uint16_t(address), &held))
	return err
}

// hold returns a handle that holds these files.
func hold(files [][]byte) (C.dasd_files, error) {
	var held C.dasd_files
	lengths := []C.size_t{0}
	for place, file := range files {
		lengths = append(lengths[:place], C.size_t(len(file)), 0)
	}
	if _, err := done(C.dasd_files_new(&held, &lengths[0], C.size_t(len(files)))); err != nil {
		return held, err
	}
	for place, file := range files {
		bytes, err := shown(&held, place)
		if err != nil {
			C.dasd_files_free(&held)
			return held, err
		}
		copy(bytes, file)
	}
	return held, nil
}

// shown returns the bytes of a file where they lie, which are C's.
func shown(held *C.dasd_files, place int) ([]byte, error) {
	var space C.dasd_space
	if _, err := done(C.dasd_files_show(held, C.uint8_t(place), &space)); err != nil {
		return nil, err
	}
	return unsafe.Slice((*byte)(space.at), int(space.len)), nil
}

// AttachNew attaches a drive with a new volume: so many cylinders of this model, 2311 or 2314. BadModel, NoChannel, NoCylinders, NoMemory,
// AddressTaken, Full.
func (d *Disks) AttachNew(address, model, cylinders uint16) error {
	_, err := done(C.dasd_attach_new(&d.handle, C.uint16_t(address), C.uint16_t(model), C.uint16_t(cylinders)))
	return err
}

// Detach takes a drive off its channel, and frees its volume, so save it first. NoChannel, NoDrive, ProgramRuns, EndingPends, DeviceEndOwed.
func (d *Disks) Detach(address uint16) error {
	_, err := done(C.dasd_detach(&d.handle, C.uint16_t(address)))
	return err
}

// DetachFiles takes a drive off its channel, and returns copies of the files of its volume, with all that was written. NoMemory, and the faults
// of Detach.
func (d *Disks) DetachFiles(address uint16) ([][]byte, error) {
	var held C.dasd_files
	if _, err := done(C.dasd_detach_files(&d.handle, C.uint16_t(address), &held)); err != nil {
		return nil, err
	}
	defer C.dasd_files_free(&held)
	var files [][]byte
	for {
		bytes, err := shown(&held, len(files))
		if err == NoFile {
			return files, nil
		}
		if err != nil {
			return nil, err
		}
		files = append(files, append([]byte(nil), bytes...))
	}
}

// File returns a copy of a file of a drive's volume, 0 for its first, where the drive's program does not run. NoChannel, ProgramRuns, NoDrive,
// NoFile.
func (d *Disks) File(address uint16, place uint8) (File, error) {
	bytes, changes, err := d.file(address, place)
	return File{append([]byte(nil), bytes...), changes}, err
}

// file returns the bytes of such a file where they lie, until the next call.
func (d *Disks) file(address uint16, place uint8) ([]byte, uint64, error) {
	var file C.dasd_file
	if _, err := done(C.dasd_show_file(&d.handle, C.uint16_t(address), C.uint8_t(place), &file)); err != nil {
		return nil, 0, err
	}
	return unsafe.Slice((*byte)(file.at), int(file.len)), uint64(file.changes), nil
}

// Changed returns the tracks of such a file that were written since its changes were this number, and the number now. The faults of File.
func (d *Disks) Changed(address uint16, place uint8, since uint64) ([]Changed, uint64, error) {
	bytes, changes, err := d.file(address, place)
	if err != nil {
		return nil, 0, err
	}
	var next C.dasd_changed
	var tracks []Changed
	for {
		code, err := done(C.dasd_next_changed(&d.handle, C.uint16_t(address), C.uint8_t(place), C.uint64_t(since), &next))
		if err != nil || code == 0 {
			return tracks, changes, err
		}
		slot := bytes[next.at : next.at+next.len]
		tracks = append(tracks, Changed{int(next.track), int(next.at), append([]byte(nil), slot...)})
	}
}

// Drive returns what is known of a drive. NoChannel, NoDrive.
func (d *Disks) Drive(address uint16) (Drive, error) {
	var shown C.dasd_drive
	if _, err := done(C.dasd_show_drive(&d.handle, C.uint16_t(address), &shown)); err != nil {
		return Drive{}, err
	}
	drive := Drive{uint16(shown.model), uint16(shown.cylinders), uint16(shown.cylinder), uint16(shown.head), uint8(shown.arm), [6]byte{}}
	for place, it := range shown.sense {
		drive.Sense[place] = byte(it)
	}
	return drive, nil
}
