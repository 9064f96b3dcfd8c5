//! What a module that was accepted is made of: the types of its functions, tables, memories, globals and tags.
//!
//! The names are those of wasmparser. All is read at once, so that nothing of the library is kept.

use crate::{Error, External, Module, Result, Settings, sys};
use std::ops::Index;
use std::ptr;

// What the library keeps of a module, which is given back when this is dropped.
struct Handle(sys::Module);

impl Drop for Handle {
    fn drop(&mut self) {
        // SAFETY: the handle is the library's, or empty.
        unsafe { sys::durskeyl_release(&mut self.0) }
    }
}

impl Settings {
    /// The module that these bytes are, and its types, if they are a valid one by these settings.
    ///
    /// # Errors
    ///
    /// As [`Settings::validate`].
    pub fn types<'a>(&self, bytes: &'a [u8]) -> Result<(Module<'a>, Types), Error> {
        let mut handle = Handle(sys::Module::none());
        let mut fault = sys::Fault::none();
        // SAFETY: a slice is never null, and has the length that it says; all are lent for the call, and apart; the handle is all 0.
        let kind = unsafe { sys::durskeyl_validate_types(&self.0, bytes.as_ptr(), bytes.len(), &mut handle.0, &mut fault) };
        match kind {
            0 => Ok((Module::new(bytes), Types::of(&mut handle.0))),
            kind => Err(Error::by(kind, fault, &self.0)),
        }
    }
}

/// The identity of a type among those of one module. Equal ids are equal types; types that differ have different ids, and equal ones too
/// if the features have neither function references nor garbage collection nor what rests on them.
#[derive(Clone, Copy, Debug, PartialEq, Eq, PartialOrd, Ord, Hash)]
pub struct CoreTypeId(u32);

impl CoreTypeId {
    /// Its number, from 0 on.
    pub fn index(self) -> usize {
        self.0 as usize
    }
}

/// An abstract heap type.
#[derive(Clone, Copy, Debug, PartialEq, Eq, Hash)]
pub enum AbstractHeapType {
    Func,
    Extern,
    Any,
    None,
    NoExtern,
    NoFunc,
    Eq,
    Struct,
    Array,
    I31,
    Exn,
    NoExn,
    Cont,
    NoCont,
}

/// What a reference refers to.
#[derive(Clone, Copy, Debug, PartialEq, Eq, Hash)]
pub enum HeapType {
    Abstract { shared: bool, ty: AbstractHeapType },
    Concrete(CoreTypeId),
    Exact(CoreTypeId),
}

/// A reference type.
#[derive(Clone, Copy, Debug, PartialEq, Eq, Hash)]
pub struct RefType {
    nullable: bool,
    heap_type: HeapType,
}

impl RefType {
    /// Whether it may be null.
    pub fn is_nullable(&self) -> bool {
        self.nullable
    }

    /// What it refers to.
    pub fn heap_type(&self) -> HeapType {
        self.heap_type
    }
}

/// A value type.
#[derive(Clone, Copy, Debug, PartialEq, Eq, Hash)]
pub enum ValType {
    I32,
    I64,
    F32,
    F64,
    V128,
    Ref(RefType),
}

/// What a field stores.
#[derive(Clone, Copy, Debug, PartialEq, Eq, Hash)]
pub enum StorageType {
    I8,
    I16,
    Val(ValType),
}

/// A field of a struct, or the element of an array.
#[derive(Clone, Copy, Debug, PartialEq, Eq, Hash)]
pub struct FieldType {
    pub element_type: StorageType,
    pub mutable: bool,
}

/// A function type.
#[derive(Clone, Debug, PartialEq, Eq, Hash)]
pub struct FuncType {
    values: Box<[ValType]>,
    params: usize,
}

impl FuncType {
    /// The types of its parameters.
    pub fn params(&self) -> &[ValType] {
        &self.values[..self.params]
    }

    /// The types of its results.
    pub fn results(&self) -> &[ValType] {
        &self.values[self.params..]
    }
}

/// An array, by its element.
#[derive(Clone, Copy, Debug, PartialEq, Eq, Hash)]
pub struct ArrayType(pub FieldType);

/// A struct, by its fields.
#[derive(Clone, Debug, PartialEq, Eq, Hash)]
pub struct StructType {
    pub fields: Box<[FieldType]>,
}

/// A continuation, by the id of its function type.
#[derive(Clone, Copy, Debug, PartialEq, Eq, Hash)]
pub struct ContType(pub CoreTypeId);

/// A composite type by its constructor.
#[derive(Clone, Debug, PartialEq, Eq, Hash)]
pub enum CompositeInnerType {
    Func(FuncType),
    Array(ArrayType),
    Struct(StructType),
    Cont(ContType),
}

/// A composite type.
#[derive(Clone, Debug, PartialEq, Eq, Hash)]
pub struct CompositeType {
    pub inner: CompositeInnerType,
    pub shared: bool,
    pub descriptor_idx: Option<CoreTypeId>,
    pub describes_idx: Option<CoreTypeId>,
}

/// A defined type.
#[derive(Clone, Debug, PartialEq, Eq, Hash)]
pub struct SubType {
    pub is_final: bool,
    pub supertype_idx: Option<CoreTypeId>,
    pub composite_type: CompositeType,
    group: (u32, u32),
}

impl SubType {
    /// The function type that it is.
    ///
    /// # Panics
    ///
    /// If it is none, as in wasmparser.
    pub fn unwrap_func(&self) -> &FuncType {
        match &self.composite_type.inner {
            CompositeInnerType::Func(ty) => ty,
            _ => panic!("not a func"),
        }
    }
}

/// A table.
#[derive(Clone, Copy, Debug, PartialEq, Eq, Hash)]
pub struct TableType {
    pub element_type: RefType,
    pub table64: bool,
    pub initial: u64,
    pub maximum: Option<u64>,
    pub shared: bool,
}

/// A memory.
#[derive(Clone, Copy, Debug, PartialEq, Eq, Hash)]
pub struct MemoryType {
    pub memory64: bool,
    pub shared: bool,
    pub initial: u64,
    pub maximum: Option<u64>,
    pub page_size_log2: Option<u32>,
}

/// A global.
#[derive(Clone, Copy, Debug, PartialEq, Eq, Hash)]
pub struct GlobalType {
    pub content_type: ValType,
    pub mutable: bool,
    pub shared: bool,
}

/// What an import or an export is.
#[derive(Clone, Copy, Debug, PartialEq, Eq, Hash)]
pub enum EntityType {
    Func(CoreTypeId),
    Table(TableType),
    Memory(MemoryType),
    Global(GlobalType),
    Tag(CoreTypeId),
    FuncExact(CoreTypeId),
}

/// The types of a module that was accepted. `types[id]` is the type of an id.
#[derive(Clone, Debug)]
pub struct Types {
    types: Vec<SubType>,
    ids: Vec<CoreTypeId>,
    entities: [Vec<EntityType>; 5],
}

impl Index<CoreTypeId> for Types {
    type Output = SubType;

    fn index(&self, id: CoreTypeId) -> &SubType {
        &self.types[id.index()]
    }
}

impl Types {
    pub(crate) fn of(module: &mut sys::Module) -> Types {
        // SAFETY, of each call: the module and the rows are lent for it, and apart, and there are as many rows as it is told.
        let types = rows(|rows, count| unsafe { sys::durskeyl_types(module, 0, rows, count) });
        let types = (0..).zip(&types).map(|(id, row)| sub_type(module, id, row)).collect();
        let ids = rows(|rows, count| unsafe { sys::durskeyl_type_ids(module, 0, rows, count) });
        let ids = ids.into_iter().map(CoreTypeId).collect();
        let entities = [0, 1, 2, 3, 4].map(|kind| {
            let rows = rows(|rows, count| unsafe { sys::durskeyl_entities(module, kind, 0, rows, count) });
            rows.iter().map(entity).collect()
        });
        Types { types, ids, entities }
    }

    /// How many different types the module has.
    pub fn type_count(&self) -> usize {
        self.types.len()
    }

    /// The id of the type at an index of the module.
    ///
    /// # Panics
    ///
    /// If there is none, as all calls by an index.
    pub fn core_type_at_in_module(&self, index: u32) -> CoreTypeId {
        self.ids[index as usize]
    }

    /// How many types the module has by their indices.
    pub fn core_type_count_in_module(&self) -> u32 {
        self.ids.len() as u32
    }

    /// How many functions the module has, imported ones too.
    pub fn core_function_count(&self) -> u32 {
        self.entities[0].len() as u32
    }

    /// The id of a function's type.
    pub fn core_function_at(&self, index: u32) -> CoreTypeId {
        match self.entities[0][index as usize] {
            EntityType::Func(id) | EntityType::FuncExact(id) => id,
            _ => unreachable!(),
        }
    }

    /// How many tables the module has, imported ones too.
    pub fn table_count(&self) -> u32 {
        self.entities[1].len() as u32
    }

    /// A table, by its index.
    pub fn table_at(&self, index: u32) -> TableType {
        match self.entities[1][index as usize] {
            EntityType::Table(ty) => ty,
            _ => unreachable!(),
        }
    }

    /// How many memories the module has, imported ones too.
    pub fn memory_count(&self) -> u32 {
        self.entities[2].len() as u32
    }

    /// A memory, by its index.
    pub fn memory_at(&self, index: u32) -> MemoryType {
        match self.entities[2][index as usize] {
            EntityType::Memory(ty) => ty,
            _ => unreachable!(),
        }
    }

    /// How many globals the module has, imported ones too.
    pub fn global_count(&self) -> u32 {
        self.entities[3].len() as u32
    }

    /// A global, by its index.
    pub fn global_at(&self, index: u32) -> GlobalType {
        match self.entities[3][index as usize] {
            EntityType::Global(ty) => ty,
            _ => unreachable!(),
        }
    }

    /// How many tags the module has, imported ones too.
    pub fn tag_count(&self) -> u32 {
        self.entities[4].len() as u32
    }

    /// The id of a tag's type.
    pub fn tag_at(&self, index: u32) -> CoreTypeId {
        match self.entities[4][index as usize] {
            EntityType::Tag(id) => id,
            _ => unreachable!(),
        }
    }

    /// What is imported or exported, by its kind and index.
    pub fn entity_at(&self, kind: External, index: u32) -> Option<EntityType> {
        let kind = match kind {
            External::Function => 0,
            External::Table => 1,
            External::Memory => 2,
            External::Global => 3,
            External::Tag => 4,
            External::Unknown(_) => return None,
        };
        self.entities[kind].get(index as usize).copied()
    }

    /// The ids of the types of a type's recursion group, in their order.
    pub fn rec_group_elements(&self, id: CoreTypeId) -> impl ExactSizeIterator<Item = CoreTypeId> + use<> {
        let (first, count) = self[id].group;
        (0..count).map(move |it| CoreTypeId(first + it))
    }

    /// The supertype that a type declares.
    pub fn supertype_of(&self, id: CoreTypeId) -> Option<CoreTypeId> {
        self[id].supertype_idx
    }
}

// All rows of a call, which answers how many there are.
fn rows<R: Clone + Default>(mut call: impl FnMut(*mut R, usize) -> u64) -> Vec<R> {
    let count = usize::try_from(call(ptr::null_mut(), 0)).expect("a count");
    let mut rows = vec![R::default(); count];
    call(rows.as_mut_ptr(), count);
    rows
}

fn some_id(id: u32) -> Option<CoreTypeId> {
    (id != sys::NO_TYPE).then_some(CoreTypeId(id))
}

fn maximum(row: &sys::EntityRow) -> Option<u64> {
    (row.flags & sys::HAS_MAXIMUM != 0).then_some(row.maximum)
}

fn heap(row: &sys::ValueRow) -> HeapType {
    use AbstractHeapType::*;
    let all = [Func, Extern, Any, None, NoExtern, NoFunc, Eq, Struct, Array, I31, Exn, NoExn, Cont, NoCont];
    match all.get(row.heap as usize) {
        Some(&ty) => HeapType::Abstract { shared: row.flags & sys::SHARED != 0, ty },
        Option::None if row.flags & sys::EXACT != 0 => HeapType::Exact(CoreTypeId(row.id)),
        Option::None => HeapType::Concrete(CoreTypeId(row.id)),
    }
}

fn reference(row: &sys::ValueRow) -> RefType {
    RefType { nullable: row.flags & sys::NULLABLE != 0, heap_type: heap(row) }
}

fn value(row: &sys::ValueRow) -> ValType {
    match row.kind {
        0 => ValType::I32,
        1 => ValType::I64,
        2 => ValType::F32,
        3 => ValType::F64,
        4 => ValType::V128,
        5 => ValType::Ref(reference(row)),
        kind => panic!("a kind of value of a later library: {kind}"),
    }
}

fn field(row: &sys::ValueRow) -> FieldType {
    let element_type = match row.kind {
        6 => StorageType::I8,
        7 => StorageType::I16,
        _ => StorageType::Val(value(row)),
    };
    FieldType { element_type, mutable: row.flags & sys::MUTABLE != 0 }
}

fn entity(row: &sys::EntityRow) -> EntityType {
    let (shared, wide) = (row.flags & sys::SHARED != 0, row.flags & sys::BITS_64 != 0);
    match row.kind {
        0 if row.flags & sys::EXACT != 0 => EntityType::FuncExact(CoreTypeId(row.id)),
        0 => EntityType::Func(CoreTypeId(row.id)),
        1 => EntityType::Table(TableType {
            element_type: reference(&row.value),
            table64: wide,
            initial: row.minimum,
            maximum: maximum(row),
            shared,
        }),
        2 => EntityType::Memory(MemoryType {
            memory64: wide,
            shared,
            initial: row.minimum,
            maximum: maximum(row),
            page_size_log2: (row.flags & sys::HAS_PAGE_SIZE != 0).then_some(row.page_size_log2),
        }),
        3 => EntityType::Global(GlobalType { content_type: value(&row.value), mutable: row.flags & sys::MUTABLE != 0, shared }),
        _ => EntityType::Tag(CoreTypeId(row.id)),
    }
}

fn sub_type(module: &mut sys::Module, id: u32, row: &sys::TypeRow) -> SubType {
    let mut values = vec![sys::ValueRow::default(); row.values as usize];
    // SAFETY: the module and the rows are lent for the call, and apart, and there are as many rows as it is told.
    unsafe { sys::durskeyl_type_values(module, id, values.as_mut_ptr(), values.len()) };
    let inner = match row.kind {
        0 => CompositeInnerType::Func(FuncType { values: values.iter().map(value).collect(), params: row.params as usize }),
        1 => CompositeInnerType::Struct(StructType { fields: values.iter().map(field).collect() }),
        2 => CompositeInnerType::Array(ArrayType(field(&values[0]))),
        _ => CompositeInnerType::Cont(ContType(CoreTypeId(row.function))),
    };
    SubType {
        is_final: row.flags & sys::FINAL != 0,
        supertype_idx: some_id(row.supertype),
        composite_type: CompositeType {
            inner,
            shared: row.flags & sys::SHARED != 0,
            descriptor_idx: some_id(row.descriptor),
            describes_idx: some_id(row.describes),
        },
        group: (row.group_first, row.group_count),
    }
}
