package durskeyl

/*
#include <durskeyl.h>
*/
import "C"

// NoType is the number of no id.
const NoType = ^uint32(0)

// Value is the type of a value, or of what a field stores.
type Value struct {
	Kind                             ValueKind
	Heap                             Heap   // of a reference
	ID                               uint32 // of a reference to a defined type, else NoType
	Nullable, Shared, Exact, Mutable bool
}

// ValueKind is what the type of a value is.
type ValueKind uint32

// The kinds of values. I8 and I16 are those of fields alone.
const (
	I32 ValueKind = iota
	I64
	F32
	F64
	V128
	Reference
	I8
	I16
)

// Heap is what a reference refers to.
type Heap uint32

// The heap types. Defined is the type of the id.
const (
	HeapFunc Heap = iota
	HeapExtern
	HeapAny
	HeapNone
	HeapNoExtern
	HeapNoFunc
	HeapEq
	HeapStruct
	HeapArray
	HeapI31
	HeapExn
	HeapNoExn
	HeapCont
	HeapNoCont
	Defined
)

// TypeKind is what a defined type is.
type TypeKind uint32

// The kinds of types.
const (
	FunctionType TypeKind = iota
	StructType
	ArrayType
	ContinuationType
)

// Type is a defined type: a function with Params and Results, a struct with Fields, an array with one field, or a continuation.
type Type struct {
	Kind                             TypeKind
	Params, Results, Fields          []Value
	Final, Shared                    bool
	Supertype, Descriptor, Describes uint32 // ids, or NoType
	Function                         uint32 // of a continuation
	GroupFirst, GroupCount           uint32
}

// Entity is the type of a function or a tag, by the id of its type; of a table or a memory, with its limits; or of a global.
type Entity struct {
	Kind                          External
	ID                            uint32
	Value                         Value
	Minimum, Maximum              uint64
	HasMaximum, Is64, HasPageSize bool
	Mutable, Shared, Exact        bool
	PageSizeLog2                  uint32
}

// Types are those of an accepted module. Equal ids are equal types; equal types have equal ids if the features have function references or garbage
// collection.
type Types struct {
	Types                                      []Type   // those that differ, by their ids
	IDs                                        []uint32 // of the module's types, by their indices
	Functions, Tables, Memories, Globals, Tags []Entity // imports first
	Start                                      int64    // the index of the start function, or -1
}

// Of is the type of an import or an export, by its kind and index.
func (types *Types) Of(kind External, index uint32) Entity {
	return [][]Entity{types.Functions, types.Tables, types.Memories, types.Globals, types.Tags}[kind][index]
}

// ModuleTypes are the types of a module that is valid by the settings by default; of other bytes, the error of Validate.
func ModuleTypes(module []byte) (*Types, error) {
	return DefaultSettings().Types(module)
}

// Types are those of a module that is valid by these settings; of other bytes, the error of Validate.
func (settings *Settings) Types(module []byte) (*Types, error) {
	var handle C.durskeyl_module
	defer C.durskeyl_release(&handle)
	var fault C.durskeyl_fault
	kind := C.durskeyl_validate_types(settings.held(), first(module), C.size_t(len(module)), &handle, &fault)
	if err := settings.told(errorOf(kind, &fault)); err != nil {
		return nil, err
	}
	found := &Types{Start: -1}
	// one row more than there are, so that there is a first
	rows := make([]C.durskeyl_type, C.durskeyl_types(&handle, 0, nil, 0)+1)
	for id, row := range rows[:C.durskeyl_types(&handle, 0, &rows[0], C.size_t(len(rows)))] {
		values := make([]C.durskeyl_value, row.values+1)
		C.durskeyl_type_values(&handle, C.uint32_t(id), &values[0], C.size_t(len(values)))
		found.Types = append(found.Types, typeOf(row, values[:row.values]))
	}
	ids := make([]C.uint32_t, C.durskeyl_type_ids(&handle, 0, nil, 0)+1)
	for _, id := range ids[:C.durskeyl_type_ids(&handle, 0, &ids[0], C.size_t(len(ids)))] {
		found.IDs = append(found.IDs, uint32(id))
	}
	for kind, space := range []*[]Entity{&found.Functions, &found.Tables, &found.Memories, &found.Globals, &found.Tags} {
		rows := make([]C.durskeyl_entity, C.durskeyl_entities(&handle, C.uint32_t(kind), 0, nil, 0)+1)
		for _, row := range rows[:C.durskeyl_entities(&handle, C.uint32_t(kind), 0, &rows[0], C.size_t(len(rows)))] {
			*space = append(*space, entityOf(row))
		}
	}
	if start := C.durskeyl_start(first(module), C.size_t(len(module))); start != C.DURSKEYL_NO_MODULE {
		found.Start = int64(start)
	}
	return found, nil
}

func valueOf(row C.durskeyl_value) Value {
	has := func(bit C.uint32_t) bool { return row.flags&bit != 0 }
	return Value{ValueKind(row.kind), Heap(row.heap), uint32(row.id), has(C.DURSKEYL_NULLABLE), has(C.DURSKEYL_SHARED), has(C.DURSKEYL_EXACT), has(C.DURSKEYL_MUTABLE)}
}

func valuesOf(rows []C.durskeyl_value) []Value {
	found := make([]Value, 0, len(rows))
	for _, row := range rows {
		found = append(found, valueOf(row))
	}
	return found
}

func typeOf(row C.durskeyl_type, values []C.durskeyl_value) Type {
	found := Type{
		Kind: TypeKind(row.kind), Final: row.flags&C.DURSKEYL_FINAL != 0, Shared: row.flags&C.DURSKEYL_SHARED != 0, Supertype: uint32(row.supertype),
		Descriptor: uint32(row.descriptor), Describes: uint32(row.describes), Function: uint32(row.function), GroupFirst: uint32(row.group_first),
		GroupCount: uint32(row.group_count),
	}
	if row.kind == C.DURSKEYL_TYPE_FUNCTION {
		found.Params, found.Results = valuesOf(values[:row.params]), valuesOf(values[row.params:])
	} else {
		found.Fields = valuesOf(values)
	}
	return found
}

func entityOf(row C.durskeyl_entity) Entity {
	has := func(bit C.uint32_t) bool { return row.flags&bit != 0 }
	return Entity{
		Kind: External(row.kind), ID: uint32(row.id), Value: valueOf(row.value), Minimum: uint64(row.minimum), Maximum: uint64(row.maximum),
		HasMaximum: has(C.DURSKEYL_HAS_MAXIMUM), Is64: has(C.DURSKEYL_BITS_64), HasPageSize: has(C.DURSKEYL_HAS_PAGE_SIZE),
		Mutable: has(C.DURSKEYL_MUTABLE), Shared: has(C.DURSKEYL_SHARED), Exact: has(C.DURSKEYL_EXACT), PageSizeLog2: uint32(row.page_size_log2),
	}
}
