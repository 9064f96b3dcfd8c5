package durskeyl

/*
#include <durskeyl.h>
*/
import "C"

import "errors"

// External is what is imported or exported.
type External uint32

// The kinds of imports and exports.
const (
	Function External = 0
	Table    External = 1
	Memory   External = 2
	Global   External = 3
	Tag      External = 4
)

// Import is what a module imports.
type Import struct {
	Module string
	Name   string
	Kind   External
	Index  uint32 // that it gets among those of its kind: imports come before what the module defines
}

// Export is what a module exports.
type Export struct {
	Name  string
	Kind  External
	Index uint32 // among those of its kind
}

// errBroken is never given as long as the library keeps its promise.
var errBroken = errors.New("durskeyl breaks its promise on a module that it accepted")

// name is what lies there, if it lies in the bytes.
func name(module []byte, offset C.uint64_t, length C.uint32_t) (string, bool) {
	if uint64(offset) > uint64(len(module)) || uint64(length) > uint64(len(module))-uint64(offset) {
		return "", false
	}
	return string(module[offset:][:length]), true
}

// Imports are what a module imports, in its order. It is validated first, by the settings by default: of bytes that are not accepted, the
// error of Validate.
func Imports(module []byte) ([]Import, error) {
	return DefaultSettings().Imports(module)
}

// Exports are what a module exports, in its order, as Imports.
func Exports(module []byte) ([]Export, error) {
	return DefaultSettings().Exports(module)
}

// Imports are what a module imports that is valid by these settings, in its order.
func (settings *Settings) Imports(module []byte) ([]Import, error) {
	if err := settings.Validate(module); err != nil {
		return nil, err
	}
	count := C.durskeyl_imports(first(module), C.size_t(len(module)), nil, 0)
	if uint64(count) > uint64(len(module)) {
		return nil, errBroken
	}
	rows := make([]C.durskeyl_import, count+1)
	C.durskeyl_imports(first(module), C.size_t(len(module)), &rows[0], C.size_t(count))
	found := make([]Import, 0, count)
	for _, row := range rows[:count] {
		from, isThere := name(module, row.module_offset, row.module_length)
		its, isHere := name(module, row.name_offset, row.name_length)
		if !isThere || !isHere {
			return nil, errBroken
		}
		found = append(found, Import{Module: from, Name: its, Kind: External(row.kind), Index: uint32(row.index)})
	}
	return found, nil
}

// Exports are what a module exports that is valid by these settings, in its order.
func (settings *Settings) Exports(module []byte) ([]Export, error) {
	if err := settings.Validate(module); err != nil {
		return nil, err
	}
	count := C.durskeyl_exports(first(module), C.size_t(len(module)), nil, 0)
	if uint64(count) > uint64(len(module)) {
		return nil, errBroken
	}
	rows := make([]C.durskeyl_export, count+1)
	C.durskeyl_exports(first(module), C.size_t(len(module)), &rows[0], C.size_t(count))
	found := make([]Export, 0, count)
	for _, row := range rows[:count] {
		its, isHere := name(module, row.name_offset, row.name_length)
		if !isHere {
			return nil, errBroken
		}
		found = append(found, Export{Name: its, Kind: External(row.kind), Index: uint32(row.index)})
	}
	return found, nil
}
