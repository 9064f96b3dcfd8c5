package durskeyl

import (
	"bytes"
	"errors"
	"fmt"
	"io"
	"reflect"
	"runtime"
	"strings"
	"sync"
	"testing"
)

var header = []byte("\x00asm\x01\x00\x00\x00")

// Two functions from "a" and a memory between them; an export of each name's length from 0 to 2.
var module = append(append([]byte{}, header...), "\x01\x04\x01\x60\x00\x00"+
	"\x02\x14\x03\x01a\x01f\x00\x00\x01a\x01m\x02\x00\x00\x01a\x01g\x00\x00"+
	"\x07\x0d\x03\x00\x00\x01\x01x\x00\x00\x02yz\x02\x00"...)

var memories = append(append([]byte{}, header...), 5, 5, 2, 0, 0, 0, 0)

func withLocals(count byte) []byte {
	return append(append([]byte{}, header...), 1, 4, 1, 0x60, 0, 0, 3, 2, 1, 0, 0x0a, 6, 1, 4, 1, count, 0x7f, 0x0b)
}

// kind is that of a fault, or 0.
func kind(err error) Kind {
	var fault *Error
	if errors.As(err, &fault) {
		return fault.Kind
	}
	return 0
}

func want(t *testing.T, what string, got, wanted any) {
	t.Helper()
	if got != wanted {
		t.Errorf("%s: %v in the place of %v", what, got, wanted)
	}
}

func TestVerdicts(t *testing.T) {
	want(t, "header", Validate(header), nil)
	want(t, "header is valid", IsValid(header), true)
	want(t, "nothing", kind(Validate(nil)), EndOfData)
	want(t, "nothing is valid", IsValid(nil), false)
	want(t, "cut off", kind(Validate(header[:7])), EndOfData)
	var fault *Error
	err := fmt.Errorf("wrapped: %w", Validate(append(append([]byte{}, header...), 0x0f, 0)))
	want(t, "as", errors.As(err, &fault), true)
	want(t, "kind", fault.Kind, Invalid)
	want(t, "offset", fault.Offset, uint64(10))
	want(t, "verdict", fault.IsVerdict(), true)
	want(t, "line", strings.HasPrefix(fault.Error(), "invalid at 0xa: "), true)
}

func TestEntries(t *testing.T) {
	imports, err := Imports(module)
	want(t, "imports", err, nil)
	want(t, "imports", fmt.Sprint(imports), "[{a f 0 0} {a m 2 0} {a g 0 1}]")
	exports, err := Exports(module)
	want(t, "exports", err, nil)
	want(t, "exports", len(exports), 3)
	want(t, "last", exports[2], Export{Name: "yz", Kind: Memory})
	imports, err = Imports(header)
	want(t, "no imports", len(imports) == 0 && err == nil, true)
	for i := 0; i < len(module); i++ {
		_, err = Imports(module[:i])
		_, same := Exports(module[:i])
		if (err == nil) != IsValid(module[:i]) || (same == nil) != (err == nil) {
			t.Errorf("the first %d bytes: %v, %v", i, err, same)
		}
	}
}

func TestSettings(t *testing.T) {
	settings := DefaultSettings()
	settings.Limits[LimitLocals] = 10
	want(t, "ten locals", settings.Validate(withLocals(10)), nil)
	want(t, "eleven locals", kind(settings.Validate(withLocals(11))), Invalid)
	limit, isKnown := settings.Validate(withLocals(11)).(*Error).Limit()
	want(t, "the limit", limit == LimitLocals && isKnown, true)
	_, isKnown = Validate(nil).(*Error).Limit()
	want(t, "no limit", isKnown, false)
	want(t, "eleven locals by default", Validate(withLocals(11)), nil)
	settings = DefaultSettings()
	settings.Features = Wasm2.Features()
	want(t, "two memories in 2.0", IsValid(memories) && settings.Validate(memories) != nil, true)
	settings.Features |= FeatureMultiMemory
	want(t, "and with the feature", settings.Validate(memories), nil)
}

func TestBadSettings(t *testing.T) {
	for _, change := range []func(*Settings){
		func(it *Settings) { it.Features = 1 << 40 },
		func(it *Settings) { it.Features = Set(99).Features() },
		func(it *Settings) { it.Limits[LimitLocals] = 1000001 },
		func(it *Settings) { it.Limits[23] = 1 },
	} {
		settings := DefaultSettings()
		change(settings)
		err := settings.Validate(header)
		want(t, "bad settings", kind(err), BadSettings)
		want(t, "a verdict", err.(*Error).IsVerdict(), false)
	}
}

func TestValidateOn(t *testing.T) {
	settings := DefaultSettings()
	bad := DefaultSettings()
	bad.Limits[LimitLocals] = 1000001
	for _, workers := range []int{1, 2, 5} {
		want(t, "valid by parts", settings.ValidateOn(workers, module) == nil, true)
		err := settings.ValidateOn(workers, module[:len(module)-1])
		want(t, "the same refusal by parts", *err.(*Error), *settings.Validate(module[:len(module)-1]).(*Error))
		want(t, "bad settings by parts", kind(bad.ValidateOn(workers, header)), BadSettings)
	}
}

func inPieces(validator *Validator, module []byte, piece int) error {
	for len(module) > piece {
		if _, err := validator.Write(module[:piece]); err != nil {
			return err
		}
		module = module[piece:]
	}
	if _, err := validator.Write(module); err != nil {
		return err
	}
	return validator.Finish()
}

func begin(t *testing.T, settings *Settings, most uint64) *Validator {
	t.Helper()
	validator, err := NewValidator(settings, most)
	if err != nil {
		t.Fatal(err)
	}
	return validator
}

func TestPieces(t *testing.T) {
	for _, piece := range []int{1, 3, 1000} {
		for end := 0; end <= len(module); end++ {
			err := inPieces(begin(t, DefaultSettings(), MostHeld), module[:end], piece)
			if (err == nil) != IsValid(module[:end]) || err != nil && !err.(*Error).IsVerdict() {
				t.Errorf("the first %d bytes in pieces of %d: %v", end, piece, err)
			}
		}
	}
	settings := DefaultSettings()
	settings.Limits[LimitLocals] = 10
	want(t, "ten locals", inPieces(begin(t, settings, MostHeld), withLocals(10), 5), nil)
	want(t, "eleven locals", kind(inPieces(begin(t, settings, MostHeld), withLocals(11), 5)), Invalid)
	settings.Limits[LimitLocals] = 1000001
	_, err := NewValidator(settings, MostHeld)
	want(t, "bad settings", kind(err), BadSettings)
}

func TestWriter(t *testing.T) {
	validator := begin(t, DefaultSettings(), MostHeld)
	count, err := io.Copy(validator, bytes.NewReader(module))
	want(t, "copied", count, int64(len(module)))
	want(t, "copied", err, nil)
	want(t, "finished", validator.Finish(), nil)
	want(t, "finished again", validator.Finish(), ErrClosed)
	_, err = validator.Write(header)
	want(t, "written after the end", err, ErrClosed)
	want(t, "closed", validator.Close(), nil)
	validator = begin(t, DefaultSettings(), MostHeld)
	want(t, "closed", validator.Close(), nil)
	want(t, "closed again", validator.Close(), nil)
	want(t, "finished after it", validator.Finish(), ErrClosed)
	// a refusal stays
	validator = begin(t, DefaultSettings(), MostHeld)
	_, err = validator.Write([]byte("\x00asm\x02\x00\x00\x00"))
	want(t, "refused", kind(err), Invalid)
	_, again := validator.Write(header)
	want(t, "refused again", again, err)
	want(t, "refused at the end", validator.Finish(), err)
	want(t, "closed", validator.Close(), nil)
	want(t, "refused after it", validator.Finish(), err)
}

// A body of 2,000 operators, cut in the middle, of which no more than 16 bytes may be held.
func TestMostHeld(t *testing.T) {
	long := append(append([]byte{}, header...), 1, 4, 1, 0x60, 0, 0, 3, 2, 1, 0, 10, 0xd5, 0x0f, 1, 0xd2, 0x0f, 0)
	long = append(append(long, bytes.Repeat([]byte{1}, 2000)...), 0x0b)
	want(t, "held", inPieces(begin(t, DefaultSettings(), MostHeld), long, 1000), nil)
	err := inPieces(begin(t, DefaultSettings(), 16), long, 1000)
	want(t, "a verdict", err == nil || err.(*Error).IsVerdict(), false)
}

// Validators that go from goroutine to goroutine, and such that nobody closes.
func TestValidatorsMove(t *testing.T) {
	begun, written := make(chan *Validator), make(chan *Validator)
	go func() {
		for i := 0; i < 100; i++ {
			runtime.LockOSThread()
			forgotten := begin(t, DefaultSettings(), MostHeld)
			forgotten.Write(module[:i%len(module)])
			begun <- begin(t, DefaultSettings(), MostHeld)
			runtime.UnlockOSThread()
		}
		close(begun)
	}()
	go func() {
		runtime.LockOSThread()
		for validator := range begun {
			validator.Write(module)
			written <- validator
		}
		close(written)
	}()
	for validator := range written {
		want(t, "moved", validator.Finish(), nil)
	}
	runtime.GC()
	runtime.GC()
}

func TestVersion(t *testing.T) {
	first, second, third := LibraryVersion()
	want(t, "version", fmt.Sprintf("%d.%d.%d", first, second, third), Version)
	want(t, "all features", All.Features(), Features(1<<28-1))
	want(t, "default", Default.Features(), DefaultSettings().Features)
}

func TestShown(t *testing.T) {
	want(t, "shown", Shown("a\x1b[0m\u202e\u0085é\\"), `a\u{1b}[0m\u{202e}\u{85}é\`)
}

func TestGoroutines(t *testing.T) {
	var all sync.WaitGroup
	for i := 0; i < 4; i++ {
		all.Add(1)
		go func() {
			defer all.Done()
			for i := 0; i < 300; i++ {
				if !IsValid(module) || IsValid(module[:len(module)-1]) {
					t.Error("a wrong verdict")
				}
			}
		}()
	}
	all.Wait()
}

func TestWords(t *testing.T) {
	for got, want := range map[string]string{
		(FeatureReferenceTypes | FeatureSIMD | Vectors).String(): "reference-types,simd,vectors",
		(Features(1) | 1<<40).String():                           "mutable-global,0x10000000000",
		LimitStringBytes.String():                                "string-bytes",
		EndOfData.String():                                       "end of data",
	} {
		if got != want {
			t.Errorf("%s in the place of %s", got, want)
		}
	}
	if isProved := strings.Contains(VersionText(), " (proved, "); isProved != IsProved() {
		t.Error(VersionText())
	}
}

// Operators on vectors are refused until they are asked for, and the error says how.
func TestVectors(t *testing.T) {
	module := append([]byte("\x00asm\x01\x00\x00\x00\x01\x04\x01\x60\x00\x00\x03\x02\x01\x00\x0a\x17\x01\x15\x00\xfd\x0c"), make([]byte, 16)...)
	module = append(module, 0x1a, 0x0b)
	err := Validate(module)
	if err == nil || err.Error() != "invalid at 0x17: unexpected SIMD opcode: 0xfd (durskeyl.Vectors judges operators on vectors)" {
		t.Error(err)
	}
	for _, set := range []Features{Engines.Features(), Default.Features() | Vectors} {
		settings := DefaultSettings()
		settings.Features = set
		if err := settings.Validate(module); err != nil {
			t.Error(err)
		}
	}
}

func TestLists(t *testing.T) {
	for list, want := range map[string]Features{
		"wasm2":                           Wasm2.Features(),
		"wasm1,threads,vectors,no-floats": Wasm1.Features()&^FeatureFloats | FeatureThreads | Vectors,
		"vectors,wasm1":                   Wasm1.Features() | Vectors,
		"engines":                         Wasm3.Features() | Vectors,
	} {
		if got, err := ParseFeatures(list); err != nil || got != want {
			t.Errorf("%s is %v, %v in the place of %v", list, got, err, want)
		}
	}
	for list, said := range map[string]string{"": `""`, "wasm2,,threads": `""`, "gc,SIMD,x": `"SIMD"`, "simd\x00": `"simd\x00"`} {
		if _, err := ParseFeatures(list); err == nil || !strings.HasSuffix(err.Error(), ": "+said) {
			t.Errorf("%q: %v", list, err)
		}
	}
}

func TestBadSettingsAreNamed(t *testing.T) {
	high, unknown := DefaultSettings(), DefaultSettings()
	high.Limits[LimitStringBytes] = 1<<32 - 1
	unknown.Features |= 1 << 40
	for settings, said := range map[*Settings]string{
		high:    "bad settings: string-bytes=4294967295 is above its ceiling",
		unknown: "bad settings: unknown features 0x10000000000",
	} {
		_, err := NewValidator(settings, MostHeld)
		for _, err := range []error{err, settings.Validate(header), settings.ValidateOn(3, header)} {
			if err == nil || err.Error() != said {
				t.Errorf("%v in the place of %s", err, said)
			}
		}
	}
}

// A struct and an array in one group, a function type twice, and one of nothing; an imported function, and one of its own, which starts; a table, a
// memory, a tag and a global.
const typed = "\x00asm\x01\x00\x00\x00\x01\x1f\x04\x4e\x02\x5f\x02\x78\x01\x63\x01\x00\x5e\x64\x00\x00" +
	"\x60\x02\x7f\x64\x00\x01\x7c\x60\x02\x7f\x64\x00\x01\x7c\x60\x00\x00" +
	"\x02\x07\x01\x01a\x01f\x00\x03\x03\x02\x01\x04\x04\x05\x01\x70\x01\x01\x02\x05\x03\x01\x00\x01" +
	"\x0d\x03\x01\x00\x04\x06\x06\x01\x7e\x01\x42\x00\x0b\x08\x01\x01\x0a\x04\x01\x02\x00\x0b"

func TestTypes(t *testing.T) {
	types, err := ModuleTypes([]byte(typed))
	if err != nil || types.Start != 1 || !reflect.DeepEqual(types.IDs, []uint32{0, 1, 2, 2, 3}) {
		t.Fatal(types, err)
	}
	fields := []Value{{Kind: I8, ID: NoType, Mutable: true}, {Kind: Reference, Heap: Defined, ID: 1, Nullable: true}}
	if it := types.Types[0]; it.Kind != StructType || !reflect.DeepEqual(it.Fields, fields) || it.GroupFirst != 0 || it.GroupCount != 2 {
		t.Error(it)
	}
	params := []Value{{Kind: I32, ID: NoType}, {Kind: Reference, Heap: Defined, ID: 0}}
	if it := types.Types[2]; !reflect.DeepEqual(it.Params, params) || len(it.Results) != 1 || it.Results[0].Kind != F64 || it.Supertype != NoType {
		t.Error(it)
	}
	if types.Functions[0].ID != 2 || types.Functions[1].ID != 3 || types.Of(Tag, 0).ID != 3 {
		t.Error(types.Functions, types.Tags)
	}
	if it := types.Tables[0]; it.Minimum != 1 || !it.HasMaximum || it.Maximum != 2 || it.Value.Heap != HeapFunc || !it.Value.Nullable {
		t.Error(it)
	}
	if types.Memories[0].HasMaximum || !types.Globals[0].Mutable || types.Globals[0].Value.Kind != I64 {
		t.Error(types.Memories, types.Globals)
	}
	none, err := ModuleTypes(header)
	if err != nil || none.Start != -1 || len(none.Types) != 0 || none.IDs != nil {
		t.Error(none, err)
	}
	_, told := ModuleTypes([]byte(typed[:60]))
	if wanted := Validate([]byte(typed[:60])); told == nil || told.Error() != wanted.Error() {
		t.Error(told, wanted)
	}
}
