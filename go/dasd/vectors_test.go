package dasd

import (
	"crypto/sha256"
	"encoding/hex"
	"fmt"
	"os"
	"path/filepath"
	"strconv"
	"strings"
	"testing"
)

const folder = "../../conformance/vectors"

// A vector is a deck over volumes, with its answers and the digests of the volumes that it leaves (conformance/FORMAT.md).
type vector struct {
	name          string
	channel       uint8
	storage       int
	volumes       [][]string
	deck, answers []string
	images        [][]string
	readsDecks    bool
}

// vectorsOf returns the vectors of a file.
func vectorsOf(t *testing.T, path string) []*vector {
	text, err := os.ReadFile(path)
	if err != nil {
		t.Fatal(err)
	}
	var all []*vector
	for _, line := range strings.Split(string(text), "\n") {
		word, rest, _ := strings.Cut(strings.TrimPrefix(line, "  "), " ")
		if word == "vector" {
			all = append(all, &vector{name: rest})
		} else if len(all) > 0 && strings.HasPrefix(line, "  ") {
			all[len(all)-1].add(word, rest)
		}
	}
	return all
}

func (v *vector) add(word, rest string) {
	switch word {
	case "channel":
		v.channel = uint8(number(rest, 10))
	case "storage":
		v.storage = int(number(rest, 10))
	case "volume":
		v.volumes = append(v.volumes, strings.Fields(rest))
	case "image":
		v.images = append(v.images, strings.Fields(rest))
	case "needs":
		v.readsDecks = v.readsDecks || strings.TrimSpace(rest) == "decks"
	case ">":
		v.deck = append(v.deck, rest)
	case "<":
		v.answers = append(v.answers, rest)
	}
}

// number returns what digits of a vector are; those of the suite are.
func number(digits string, base int) uint64 {
	value, err := strconv.ParseUint(digits, base, 64)
	if err != nil {
		panic(err)
	}
	return value
}

// A machine is channels of one number over a storage.
type machine struct {
	*Disks
	channel uint8
}

func (m machine) address(unit string) uint16 {
	return uint16(m.channel)<<8 | uint16(number(unit, 16))
}

func (m machine) attach(volume []string) error {
	address, source := m.address(volume[0]), volume[1:]
	if source[0] == "new" {
		return m.AttachNew(address, uint16(number(source[1], 10)), uint16(number(source[2], 10)))
	}
	var files [][]byte
	for _, name := range source {
		file, err := os.ReadFile(filepath.Join(folder, name))
		if err != nil {
			return err
		}
		files = append(files, file)
	}
	return m.Attach(address, files...)
}

// status returns the channel status word that stands in storage, or its status bytes alone.
func (m machine) status(whole bool) string {
	if whole {
		return fmt.Sprintf("%X %X", m.memory[64:68], m.memory[68:72])
	}
	return fmt.Sprintf("%X", m.memory[68:70])
}

// play returns the answer to an event.
func (m machine) play(words []string) (string, error) {
	operand := ""
	if len(words) > 1 {
		operand = words[1]
	}
	switch words[0] {
	case "SIO", "TIO", "HIO", "TCH":
		return m.instruct(words[0], operand)
	case "STEP":
		did, err := m.Step(m.channel, uint32(number(operand, 10)))
		return fmt.Sprint("STEP ", did), err
	case "RUN":
		units := uint64(1 << 24)
		if operand != "" {
			units = number(operand, 10)
		}
		ran, err := m.RunOn(m.channel, uint32(units))
		return fmt.Sprint("RUN ", ran.Units), err
	case "ARRIVE":
		arrived, err := m.Arrive(uint16(number(operand, 16)))
		return fmt.Sprintf("ARRIVE %s %s", operand, map[bool]string{true: "YES", false: "NO"}[arrived]), err
	case "INT":
		address, taken, err := m.Interrupt(0xFE)
		if !taken {
			return "INT NONE", err
		}
		return fmt.Sprintf("INT %03X %s", address, m.status(true)), err
	case "RESET":
		track, err := m.Reset(m.channel)
		return map[bool]string{true: "RESET CLEAN", false: "RESET UNSAVED"}[track == nil], err
	}
	return m.store(words), nil
}

func (m machine) instruct(name, operand string) (string, error) {
	if name == "TCH" {
		code, err := m.TCH(uint16(m.channel) << 8)
		return fmt.Sprint("TCH CC ", code), err
	}
	call := map[string]func(uint16) (int, error){"SIO": m.SIO, "TIO": m.TIO, "HIO": m.HIO}[name]
	address := uint16(number(operand, 16))
	code, err := call(address)
	answer := fmt.Sprintf("%s %03X CC %d", name, address, code)
	if code == 1 {
		answer += " " + m.status(name == "TIO")
	}
	return answer, err
}

// store stores bytes, sets a key, or shows bytes.
func (m machine) store(words []string) string {
	at, outside := number(words[1], 16), words[0]+" OUTSIDE"
	size := uint64(len(m.memory))
	switch words[0] {
	case "STORE":
		bytes, err := hex.DecodeString(strings.Join(words[2:], ""))
		if err != nil || at+uint64(len(bytes)) > size {
			return outside
		}
		copy(m.memory[at:], bytes)
	case "KEY":
		if at >= size {
			return outside
		}
		m.keys[at/2048] = byte(number(words[2], 16))
	default:
		count := number(words[2], 10)
		if at+count > size {
			return outside
		}
		return fmt.Sprintf("SHOW %06X %X", at, m.memory[at:at+count])
	}
	return words[0] + " OK"
}

// image returns the digest of all files of a volume, one after the other.
func (m machine) image(address uint16) string {
	digest := sha256.New()
	for place := uint8(0); ; place++ {
		file, err := m.File(address, place)
		if err != nil {
			return hex.EncodeToString(digest.Sum(nil))
		}
		digest.Write(file.Bytes)
	}
}

// differs returns in what the vector comes out otherwise; after each event what `goesOn` makes of the channels goes on.
func (v *vector) differs(goesOn func(*Disks) (*Disks, error)) error {
	disks, err := New(make([]byte, v.storage), make([]byte, v.storage/2048), int(v.channel))
	if err != nil {
		return err
	}
	m := machine{disks, v.channel}
	defer func() { m.Close() }()
	for _, volume := range v.volumes {
		if err := m.attach(volume); err != nil {
			return err
		}
	}
	answers := v.answers
	for _, line := range v.deck {
		words := strings.Fields(strings.ToUpper(line))
		if len(words) == 0 || strings.HasPrefix(words[0], "*") {
			continue
		}
		answer, err := m.play(words)
		if err != nil || len(answers) == 0 || answer != answers[0] {
			return fmt.Errorf("%s: %s (%v), not %q", line, answer, err, answers)
		}
		answers = answers[1:]
		if m.Disks, err = goesOn(m.Disks); err != nil {
			return err
		}
	}
	if _, err := m.Reset(v.channel); err != nil {
		return err
	}
	for _, image := range v.images {
		if m.image(m.address(image[0])) != image[2] {
			return fmt.Errorf("image %s differs", image[0])
		}
	}
	return nil
}

// played plays all vectors that do not ask how a deck's text is read.
func played(t *testing.T, goesOn func(*Disks) (*Disks, error)) {
	paths, _ := filepath.Glob(folder + "/*.vectors")
	all, right := 0, 0
	for _, path := range paths {
		for _, v := range vectorsOf(t, path) {
			if v.readsDecks {
				continue
			}
			all++
			if err := v.differs(goesOn); err != nil {
				t.Errorf("%s: %v", v.name, err)
				continue
			}
			right++
		}
	}
	t.Logf("%d of %d vectors come out as they must", right, all)
	if all < 400 {
		t.Errorf("%d vectors, which is too few", all)
	}
}

func TestVectors(t *testing.T) {
	played(t, func(d *Disks) (*Disks, error) { return d, nil })
}

// A copy goes on over memory of its own, and what was copied is freed.
func TestVectorsWithCopies(t *testing.T) {
	played(t, func(d *Disks) (*Disks, error) {
		defer d.Close()
		return d.Copy(append([]byte(nil), d.memory...), append([]byte(nil), d.keys...))
	})
}
