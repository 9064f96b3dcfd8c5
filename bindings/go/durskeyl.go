// Package durskeyl validates WebAssembly core modules, by a validator that is proved right.
//
//	if err := durskeyl.Validate(module); err != nil {
//		var fault *durskeyl.Error
//		if errors.As(err, &fault) && fault.IsVerdict() {
//			reject(fault.Offset, fault.Message)
//		}
//	}
//
// A module that comes in pieces is written into a Validator, which is an io.Writer.
//
// Operators on vectors (SIMD) are judged only if you ask for them: settings.Features |= durskeyl.Vectors.
//
// It calls the library that link.go names: in a release the one that lies in this folder, in the repository the one that ./install-library
// installs, which pkg-config finds (PKG_CONFIG_PATH). What is proved is that library, and only if IsProved. Calls may come from any number of
// goroutines; nobody may write the bytes meanwhile. A program that is started with a library of another version than that of this package
// panics at its start: structures may have another size there.
package durskeyl

/*
#include <durskeyl.h>
#if DURSKEYL_VERSION >> 8 != 2
#error "the package durskeyl needs durskeyl.h of its own version, 0.2"
#endif
*/
import "C"

import (
	"fmt"
	"strings"
	"unsafe"
)

// Version is that of this package.
const Version = "0.2.0"

func init() {
	if major, minor, patch := LibraryVersion(); uint32(major)<<8|uint32(minor) != C.DURSKEYL_VERSION>>8 {
		panic(fmt.Sprintf("the package durskeyl %s needs a library of its own version, and %d.%d.%d is loaded", Version, major, minor, patch))
	}
}

// Kind is what kind of fault was found.
type Kind uint32

// The kinds of faults.
const (
	EndOfData      Kind = 1 // the bytes end too early; Detail: at least so many more would be asked for
	MissingFeature Kind = 2 // invalid under these features; Detail: the bits of a feature that would allow what is there
	OutOfMemory    Kind = 3 // no verdict: memory was refused
	Invalid        Kind = 5 // any other fault of the bytes
	BadSettings    Kind = 6 // no verdict: a feature or a limit that the library does not know, or a limit above its ceiling
	TooLong        Kind = 7 // no verdict: more bytes would have to be held than a module in pieces may hold
)

// String is the kind in words.
func (kind Kind) String() string {
	switch kind {
	case 0:
		return "valid"
	case EndOfData:
		return "end of data"
	case MissingFeature:
		return "missing feature"
	case OutOfMemory:
		return "out of memory"
	case Invalid:
		return "invalid"
	case BadSettings:
		return "bad settings"
	case TooLong:
		return "too long"
	}
	return fmt.Sprintf("kind %d", uint32(kind))
}

// Error is why there is no valid module.
type Error struct {
	Kind   Kind
	Offset uint64 // in the bytes
	Detail uint64 // see the kinds; else 0
	// Message is what is wrong, for people, in no stable wording. It may hold a name of the module, with any characters (see Shown).
	Message string
	limit   uint32
}

// Limit is the limit that refused the bytes, if one did. In pieces a limit of one table or one memory is not told.
func (err *Error) Limit() (limit Limit, isKnown bool) {
	if 1 <= err.limit && err.limit <= uint32(LimitTypeSize)+1 {
		return Limit(err.limit - 1), true
	}
	return 0, false
}

// IsVerdict says whether the bytes were found invalid. If not, nothing is known of them.
func (err *Error) IsVerdict() bool {
	return err.Kind == EndOfData || err.Kind == MissingFeature || err.Kind == Invalid
}

// Error is the fault in a line.
func (err *Error) Error() string {
	switch {
	case err.IsVerdict():
		if hint := err.Hint(); hint != "" {
			return fmt.Sprintf("%s (%s)", err.Line(), hint)
		}
		return err.Line()
	case err.Kind == OutOfMemory:
		return "out of memory"
	case err.Kind == BadSettings && err.Message != "":
		return "bad settings: " + err.Message
	case err.Kind == BadSettings:
		return "bad settings"
	case err.Kind == TooLong:
		return "an item is longer than may be held"
	}
	return fmt.Sprintf("no verdict: unknown kind %d", uint32(err.Kind))
}

// Line is a refusal as wasm-check writes it behind the name of a file.
func (err *Error) Line() string {
	return fmt.Sprintf("invalid at %#x: %s", err.Offset, Shown(err.Message))
}

// Hint is what a caller can do about it, if something is known: an operator on vectors is refused unless Vectors is set.
func (err *Error) Hint() string {
	if err.Kind == Invalid && err.Message == "unexpected SIMD opcode: 0xfd" {
		return "durskeyl.Vectors judges operators on vectors"
	}
	return ""
}

// LibraryVersion is that of the library: three numbers.
func LibraryVersion() (first, second, third uint8) {
	version := uint32(C.durskeyl_version())
	return uint8(version >> 16), uint8(version >> 8), uint8(version)
}

// VersionText is the library's version, whether it is proved, by which logic and from which commit: a line for people.
func VersionText() string {
	return C.GoString(C.durskeyl_version_text())
}

// IsProved says whether the library says of itself that it was built by the toolchain from what it proved. The file PROVED, installed beside
// it, says from which commit, or why not.
func IsProved() bool {
	return C.durskeyl_version()&C.DURSKEYL_NOT_PROVED == 0
}

// first is the first byte of a slice, or nil: cgo lends it for the call.
func first(bytes []byte) *C.uint8_t {
	if len(bytes) == 0 {
		return nil
	}
	return (*C.uint8_t)(unsafe.Pointer(&bytes[0]))
}

// Validate gives nil if the bytes are a valid module by the settings by default; else an *Error.
func Validate(module []byte) error {
	return DefaultSettings().Validate(module)
}

// IsValid says whether the bytes are a valid module by the settings by default. It is false also if there was no memory to tell.
func IsValid(module []byte) bool {
	return C.durskeyl_is_valid(first(module), C.size_t(len(module))) == 1
}

// Validate gives nil if the bytes are a valid module by these settings; else an *Error.
func (settings *Settings) Validate(module []byte) error {
	var fault C.durskeyl_fault
	kind := C.durskeyl_validate(settings.held(), first(module), C.size_t(len(module)), &fault)
	return settings.told(errorOf(kind, &fault))
}

// told is the error of a call by these settings; of bad ones its message tells what is bad: features that the library does not know, or the
// first limit that it refuses alone.
func (settings *Settings) told(err error) error {
	bad, is := err.(*Error)
	if !is || bad.Kind != BadSettings || bad.Message != "" {
		return err
	}
	if unknown := settings.Features &^ (All.Features() | Vectors); unknown != 0 {
		bad.Message = fmt.Sprintf("unknown features %#x", uint64(unknown))
		return bad
	}
	for place, most := range settings.Limits {
		one := DefaultSettings()
		one.Limits[place] = most
		var fault C.durskeyl_fault
		module := []byte("\x00asm\x01\x00\x00\x00")
		if C.durskeyl_validate(one.held(), first(module), C.size_t(len(module)), &fault) == C.DURSKEYL_BAD_SETTINGS {
			bad.Message = fmt.Sprintf("%v=%d is above its ceiling", Limit(place), most)
			if place > int(LimitTypeSize) {
				bad.Message = fmt.Sprintf("the limit %d is not known", place)
			}
			return bad
		}
	}
	return bad
}

// errorOf is what a call answered, and nil if that is a yes.
func errorOf(kind C.uint32_t, fault *C.durskeyl_fault) error {
	if kind == C.DURSKEYL_VALID {
		return nil
	}
	err := &Error{Kind: Kind(kind), Offset: uint64(fault.offset), Detail: uint64(fault.detail), limit: uint32(fault.limit)}
	if err.IsVerdict() {
		err.Message = C.GoStringN(&fault.text[0], C.int(fault.text_length))
	}
	return err
}

// Shown is a text of others, written so that it stays within its line: as wasm-check does, control characters, those that end a line for
// some readers and those that turn its order are written as \u{N}.
func Shown(text string) string {
	var out strings.Builder
	for _, c := range text {
		turns := c == 0x61c || c == 0x200e || c == 0x200f || 0x202a <= c && c <= 0x202e || 0x2066 <= c && c <= 0x2069
		if c < 0x20 || 0x7f <= c && c < 0xa0 || c == 0x2028 || c == 0x2029 || turns {
			fmt.Fprintf(&out, "\\u{%x}", c)
		} else {
			out.WriteRune(c)
		}
	}
	return out.String()
}
