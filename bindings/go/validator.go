package durskeyl

/*
#include <durskeyl.h>
*/
import "C"

import (
	"errors"
	"runtime"
	"sync"
)

// MostHeld is how many bytes a Validator usually may hold between two pieces: 16 MiB, more than a function's body may have.
const MostHeld = 16 << 20

// ErrClosed is the answer of a Validator that was finished or closed.
var ErrClosed = errors.New("durskeyl: the validator is finished or closed")

// Validator validates a module that is written into it, in pieces of any length:
//
//	validator, err := durskeyl.NewValidator(durskeyl.DefaultSettings(), durskeyl.MostHeld)
//	if err != nil {
//		return err
//	}
//	defer validator.Close()
//	if _, err := io.Copy(validator, upload); err != nil {
//		return err
//	}
//	return validator.Finish()
//
// Only Finish gives a yes. Each section, and each body, is judged as soon as it is whole; a part of one is held. A refusal stays: each later
// call answers the same. Goroutines that call at once wait for each other.
type Validator struct {
	lock   sync.Mutex
	pieces C.durskeyl_pieces
	err    error // what was refused, or ErrClosed
}

// NewValidator begins a module by these settings. Between two pieces at most so many bytes are held: if more would have to be, there is no verdict.
// An error is an *Error of the kind BadSettings or OutOfMemory.
func NewValidator(settings *Settings, most uint64) (*Validator, error) {
	validator := &Validator{}
	var fault C.durskeyl_fault
	kind := C.durskeyl_begin(settings.held(), C.uint64_t(most), &validator.pieces, &fault)
	if err := settings.told(errorOf(kind, &fault)); err != nil {
		return nil, err
	}
	runtime.SetFinalizer(validator, (*Validator).Close)
	return validator, nil
}

// Write takes the next bytes of the module, all of them. An *Error says that no module which begins with the bytes so far is valid, or that
// there is no verdict (IsVerdict). Nil says nothing of the bytes to come.
func (validator *Validator) Write(piece []byte) (int, error) {
	validator.lock.Lock()
	defer validator.lock.Unlock()
	if validator.err != nil {
		return 0, validator.err
	}
	var fault C.durskeyl_fault
	kind := C.durskeyl_take(&validator.pieces, first(piece), C.size_t(len(piece)), &fault)
	if validator.err = errorOf(kind, &fault); validator.err != nil {
		return 0, validator.err
	}
	return len(piece), nil
}

// Finish gives nil if all that was written is a valid module; else an error as Write does. Nothing is held afterwards.
func (validator *Validator) Finish() error {
	validator.lock.Lock()
	defer validator.lock.Unlock()
	if validator.err != nil {
		return validator.err
	}
	var fault C.durskeyl_fault
	kind := C.durskeyl_end(&validator.pieces, &fault)
	validator.err = ErrClosed
	if err := errorOf(kind, &fault); err != nil {
		validator.err = err
		return err
	}
	return nil
}

// Close gives back what is held, without a verdict, and answers nil. It may be called at any time, and more than once.
func (validator *Validator) Close() error {
	validator.lock.Lock()
	defer validator.lock.Unlock()
	C.durskeyl_drop(&validator.pieces)
	if validator.err == nil {
		validator.err = ErrClosed
	}
	return nil
}
