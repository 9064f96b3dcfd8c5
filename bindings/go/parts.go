package durskeyl

/*
#include <durskeyl.h>
*/
import "C"

import "sync"

// ValidateOn says what Validate says, by so many goroutines, at least one: each reads all sections, and judges one body in so many. If several
// bodies are not valid, the error is that of the first.
func (settings *Settings) ValidateOn(workers int, module []byte) error {
	if workers < 1 {
		workers = 1
	}
	errs := make([]error, workers)
	var all sync.WaitGroup
	for part := range errs {
		all.Add(1)
		go func(part int) {
			defer all.Done()
			errs[part] = settings.validatePart(module, part, workers)
		}(part)
	}
	all.Wait()
	var first *Error
	for _, err := range errs {
		if err, ok := err.(*Error); ok && (first == nil || err.before(first)) {
			first = err
		}
	}
	if first == nil {
		return nil
	}
	return first
}

// before says whether this error is told rather than another: a verdict, and the one that comes first in the bytes.
func (err *Error) before(other *Error) bool {
	if err.IsVerdict() != other.IsVerdict() {
		return err.IsVerdict()
	}
	return err.Offset < other.Offset
}

func (settings *Settings) validatePart(module []byte, part, parts int) error {
	var fault C.durskeyl_fault
	kind := C.durskeyl_validate_part(settings.held(), first(module), C.size_t(len(module)), C.uint32_t(part), C.uint32_t(parts), &fault)
	return settings.told(errorOf(kind, &fault))
}
