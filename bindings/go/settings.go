package durskeyl

/*
#include <durskeyl.h>
#include <stdlib.h>
*/
import "C"

import (
	"fmt"
	"strings"
	"unsafe"
)

// Features is a set of features, with the names of wasmparser's WasmFeatures. The order of the bits is ours.
type Features uint64

// The features.
const (
	FeatureMutableGlobal           Features = 1 << 0
	FeatureSaturatingFloatToInt    Features = 1 << 1
	FeatureSignExtension           Features = 1 << 2
	FeatureReferenceTypes          Features = 1<<3 | 1<<25
	FeatureMultiValue              Features = 1 << 4
	FeatureBulkMemory              Features = 1<<5 | 1<<26
	FeatureSIMD                    Features = 1 << 6
	FeatureRelaxedSIMD             Features = 1 << 7
	FeatureThreads                 Features = 1 << 8
	FeatureSharedEverythingThreads Features = 1 << 9
	FeatureTailCall                Features = 1 << 10
	FeatureFloats                  Features = 1 << 11
	FeatureMultiMemory             Features = 1 << 12
	FeatureExceptions              Features = 1 << 13
	FeatureMemory64                Features = 1 << 14
	FeatureExtendedConst           Features = 1 << 15
	FeatureComponentModel          Features = 1 << 16
	FeatureFunctionReferences      Features = 1 << 17
	FeatureMemoryControl           Features = 1 << 18
	FeatureGC                      Features = 1 << 19
	FeatureCustomPageSizes         Features = 1 << 20
	FeatureLegacyExceptions        Features = 1 << 21
	FeatureGCTypes                 Features = 1 << 22
	FeatureStackSwitching          Features = 1 << 23
	FeatureWideArithmetic          Features = 1 << 24
	FeatureCallIndirectOverlong    Features = 1 << 25
	FeatureBulkMemoryOpt           Features = 1 << 26
	FeatureCustomDescriptors       Features = 1 << 27
)

// Vectors is no feature, and in no set but Engines: operators on vectors are judged like all others. Without it each of them is refused.
const Vectors Features = 1 << 28

// features are the words of wasm-check --features, in the order of the bits.
var features = []struct {
	name string
	bits Features
}{
	{"mutable-global", FeatureMutableGlobal},
	{"saturating-float-to-int", FeatureSaturatingFloatToInt},
	{"sign-extension", FeatureSignExtension},
	{"reference-types", FeatureReferenceTypes},
	{"multi-value", FeatureMultiValue},
	{"bulk-memory", FeatureBulkMemory},
	{"simd", FeatureSIMD},
	{"relaxed-simd", FeatureRelaxedSIMD},
	{"threads", FeatureThreads},
	{"shared-everything-threads", FeatureSharedEverythingThreads},
	{"tail-call", FeatureTailCall},
	{"floats", FeatureFloats},
	{"multi-memory", FeatureMultiMemory},
	{"exceptions", FeatureExceptions},
	{"memory64", FeatureMemory64},
	{"extended-const", FeatureExtendedConst},
	{"component-model", FeatureComponentModel},
	{"function-references", FeatureFunctionReferences},
	{"memory-control", FeatureMemoryControl},
	{"gc", FeatureGC},
	{"custom-page-sizes", FeatureCustomPageSizes},
	{"legacy-exceptions", FeatureLegacyExceptions},
	{"gc-types", FeatureGCTypes},
	{"stack-switching", FeatureStackSwitching},
	{"wide-arithmetic", FeatureWideArithmetic},
	{"call-indirect-overlong", FeatureCallIndirectOverlong},
	{"bulk-memory-opt", FeatureBulkMemoryOpt},
	{"custom-descriptors", FeatureCustomDescriptors},
	{"vectors", Vectors},
}

// String is a list of words as in wasm-check --features; what has no name is a number.
func (set Features) String() string {
	var words []string
	left := set
	for _, it := range features {
		if set&it.bits == it.bits && left&it.bits != 0 {
			words = append(words, it.name)
			left &^= it.bits
		}
	}
	if left != 0 {
		words = append(words, fmt.Sprintf("%#x", uint64(left)))
	}
	return strings.Join(words, ",")
}

// Set is the name of a set of features.
type Set uint32

// The sets of features.
const (
	All     Set = 0 // all that the library knows, those of proposals too
	MVP     Set = 1
	Wasm1   Set = 2
	Wasm2   Set = 3
	Wasm3   Set = 4
	Lime1   Set = 5
	Default Set = 6 // WebAssembly 3.0 with threads, and the component model's
	// Engines is what browsers' engines take by default today: WebAssembly 3.0 with threads, and operators on vectors. A later version may have more.
	Engines Set = 1 << 31
)

// Features are those of the set. Those of an unknown set are refused by every call.
func (set Set) Features() Features {
	if set == Engines {
		return Wasm3.Features() | Vectors
	}
	return Features(C.durskeyl_features(C.uint32_t(set)))
}

// ParseFeatures reads a list as wasm-check --features does: words with a comma between them, applied in order to the set by default, as
// "wasm2,threads,no-simd". Two more words are "vectors", which a set leaves as it was, and the set "engines".
func ParseFeatures(list string) (Features, error) {
	if strings.ContainsRune(list, 0) {
		return 0, fmt.Errorf("durskeyl: unknown feature or set of features: %q", list)
	}
	words := C.CString(list)
	defer C.free(unsafe.Pointer(words))
	var found C.uint64_t
	if wrong := C.durskeyl_read_features(words, &found); wrong != nil {
		return 0, fmt.Errorf("durskeyl: unknown feature or set of features: %q", strings.SplitN(C.GoString(wrong), ",", 2)[0])
	}
	return Features(found), nil
}

// Limit is what may be limited: the most that a module may have of it.
type Limit int

// The limits.
const (
	LimitTypes Limit = iota
	LimitParams
	LimitResults
	LimitFields
	LimitStringBytes
	LimitImports
	LimitExports
	LimitFunctions
	LimitGlobals
	LimitTags
	LimitTables
	LimitMemories
	LimitElementSegments
	LimitDataSegments
	LimitSegmentItems
	LimitBodyBytes
	LimitSelectTypes
	LimitLocals
	LimitCatches
	LimitSubtypingDepth
	LimitTypeSize
)

var limits = strings.Fields("types params results fields string-bytes imports exports functions globals tags tables memories element-segments data-segments segment-items body-bytes select-types locals catches subtyping-depth type-size")

// String is the word of wasm-check --limits.
func (limit Limit) String() string {
	if 0 <= limit && int(limit) < len(limits) {
		return limits[limit]
	}
	return fmt.Sprintf("limit %d", int(limit))
}

// Limits has a number for each limit; the last three are kept for later, and 0.
type Limits [24]uint32

// Settings are what a module is judged by. DefaultSettings are those by default; the zero value allows nothing.
type Settings struct {
	Features Features
	Limits   Limits
}

// DefaultSettings are those that hold if none are chosen.
func DefaultSettings() *Settings {
	var held C.durskeyl_settings
	C.durskeyl_settings_default(&held)
	settings := &Settings{Features: Features(held.features)}
	for i := range settings.Limits {
		settings.Limits[i] = uint32(held.limits[i])
	}
	return settings
}

// held are the settings as C takes them.
func (settings *Settings) held() *C.durskeyl_settings {
	held := &C.durskeyl_settings{features: C.uint64_t(settings.Features)}
	for i, most := range settings.Limits {
		held.limits[i] = C.uint32_t(most)
	}
	return held
}
