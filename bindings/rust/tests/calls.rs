//! What the calls answer, over small modules.

use durskeyl::{
    AbstractHeapType, CompositeInnerType, EntityType, Error, ErrorKind, Export, External, Features, HeapType, Import, Limit, Settings, Shown,
    StorageType, ValType, Validator, WasmFeatures, is_valid, validate,
};
use std::io::{self, Write};
use std::thread;

const HEADER: &[u8] = b"\0asm\x01\0\0\0";

// Two functions from "a" and a memory between them; an export of each name's length from 0 to 2.
const MODULE: &[u8] = b"\0asm\x01\0\0\0\x01\x04\x01\x60\0\0\
    \x02\x14\x03\x01a\x01f\0\0\x01a\x01m\x02\0\0\x01a\x01g\0\0\
    \x07\x0d\x03\0\0\x01\x01x\0\0\x02yz\x02\0";

// One function with so many locals.
fn with_locals(count: u8) -> Vec<u8> {
    [HEADER, &[1, 4, 1, 0x60, 0, 0, 3, 2, 1, 0, 10, 6, 1, 4, 1, count, 0x7f, 0x0b]].concat()
}

// A struct and an array in one group, a function type twice, and one of nothing; an imported function, and one of its own, which starts; a table, a
// memory, a tag and a global.
const TYPED: &[u8] = b"\0asm\x01\0\0\0\x01\x1f\x04\x4e\x02\x5f\x02\x78\x01\x63\x01\0\x5e\x64\0\0\
    \x60\x02\x7f\x64\0\x01\x7c\x60\x02\x7f\x64\0\x01\x7c\x60\0\0\
    \x02\x07\x01\x01a\x01f\0\x03\x03\x02\x01\x04\x04\x05\x01\x70\x01\x01\x02\x05\x03\x01\0\x01\
    \x0d\x03\x01\0\x04\x06\x06\x01\x7e\x01\x42\0\x0b\x08\x01\x01\x0a\x04\x01\x02\0\x0b";

// Two memories.
const MEMORIES: &[u8] = b"\0asm\x01\0\0\0\x05\x05\x02\0\0\0\0";

fn kind(bytes: &[u8], settings: &Settings) -> Option<ErrorKind> {
    settings.validate(bytes).err().map(|it| it.kind())
}

#[test]
fn verdicts() {
    assert!(validate(HEADER).is_ok() && is_valid(HEADER));
    assert!(validate(b"").is_err() && !is_valid(b""));
    let error = validate(&HEADER[..7]).unwrap_err();
    assert!(matches!(error.kind(), ErrorKind::EndOfData { .. }) && error.is_verdict());
    let error = validate(b"\0asm\x01\0\0\0\x0f\0").unwrap_err();
    assert_eq!((error.kind(), error.offset()), (ErrorKind::Invalid, 10));
    assert!(error.to_string().starts_with("invalid at 0xa: "));
}

#[test]
fn question_mark() {
    fn count(bytes: &[u8]) -> Result<usize, Box<dyn std::error::Error>> {
        Ok(validate(bytes)?.imports().len())
    }
    assert_eq!(count(MODULE).unwrap(), 3);
    assert!(count(b"").unwrap_err().downcast_ref::<Error>().is_some());
}

#[test]
fn types() {
    let (module, types) = Settings::new().types(TYPED).unwrap();
    assert_eq!(module.start(), Some(1));
    let ids: Vec<_> = (0..types.core_type_count_in_module()).map(|it| types.core_type_at_in_module(it)).collect();
    assert_eq!(ids.iter().map(|it| it.index()).collect::<Vec<_>>(), [0, 1, 2, 2, 3]);
    assert_eq!(types.type_count(), 4);
    assert!(types.rec_group_elements(ids[1]).eq(ids[..2].iter().copied()) && types.rec_group_elements(ids[2]).len() == 1);
    let CompositeInnerType::Struct(fields) = &types[ids[0]].composite_type.inner else { panic!("a struct") };
    assert!(fields.fields[0].mutable && fields.fields[0].element_type == StorageType::I8 && !fields.fields[1].mutable);
    let StorageType::Val(ValType::Ref(array)) = fields.fields[1].element_type else { panic!("a reference") };
    assert!(array.is_nullable() && array.heap_type() == HeapType::Concrete(ids[1]));
    let function = types[types.core_function_at(0)].unwrap_func();
    assert_eq!((function.params().len(), function.results()), (2, &[ValType::F64][..]));
    assert!(types[ids[3]].is_final && types.supertype_of(ids[3]).is_none() && types.core_function_at(1) == ids[4]);
    let table = types.table_at(0);
    assert_eq!((table.initial, table.maximum, types.memory_at(0).maximum), (1, Some(2), None));
    assert_eq!(table.element_type.heap_type(), HeapType::Abstract { shared: false, ty: AbstractHeapType::Func });
    assert_eq!(types.global_at(0).content_type, ValType::I64);
    assert_eq!(types.entity_at(External::Tag, 0), Some(EntityType::Tag(ids[4])));
    assert_eq!((types.tag_at(0), types.entity_at(External::Tag, 1)), (ids[4], None));
    assert_eq!((types.core_function_count(), types.table_count(), types.memory_count()), (2, 1, 1));
    assert_eq!((types.global_count(), types.tag_count(), validate(HEADER).unwrap().start()), (1, 1, None));
    // a refusal is that of `validate`
    let (told, wanted) = (Settings::new().types(&TYPED[..60]).unwrap_err(), validate(&TYPED[..60]).unwrap_err());
    assert_eq!((told.kind(), told.offset(), told.to_string()), (wanted.kind(), wanted.offset(), wanted.to_string()));
}

#[test]
fn entries() {
    let module = validate(MODULE).unwrap();
    let import = |name, kind, index| Import { module: "a", name, kind, index };
    let wanted = [import("f", External::Function, 0), import("m", External::Memory, 0), import("g", External::Function, 1)];
    assert!(module.imports().eq(wanted));
    let export = |name, kind| Export { name, kind, index: 0 };
    let mut wanted = [export("", External::Function), export("x", External::Function), export("yz", External::Memory)];
    wanted[0].index = module.exports().next().unwrap().index;
    assert_eq!(module.exports().collect::<Vec<_>>().len(), 3);
    assert_eq!(module.exports().last(), Some(wanted[2]));
    assert_eq!(validate(HEADER).unwrap().exports().count(), 0);
}

#[test]
fn settings() {
    let ten = Settings::new().with_limit(Limit::Locals, 10);
    assert_eq!(kind(&with_locals(10), &ten), None);
    assert_eq!(kind(&with_locals(11), &ten), Some(ErrorKind::Invalid));
    assert_eq!(ten.validate(&with_locals(11)).unwrap_err().limit(), Some(Limit::Locals));
    assert_eq!(validate(b"").unwrap_err().limit(), None);
    assert_eq!(kind(&with_locals(11), &Settings::new()), None);
    assert_eq!(ten.limit(Limit::Locals), 10);
    assert_eq!(kind(MEMORIES, &Settings::new()), None);
    let second = Settings::new().with_features(Features::wasm2());
    assert!(second.validate(MEMORIES).is_err_and(|it| it.is_verdict()));
    let more = Settings::new().with_features(Features::wasm2() | Features::MULTI_MEMORY);
    assert_eq!(kind(MEMORIES, &more), None);
    assert!(more.features().contains(Features::SIMD) && !more.features().without(Features::SIMD).contains(Features::SIMD));
}

#[test]
fn on_threads() {
    let ten = Settings::new().with_limit(Limit::Locals, 10);
    for threads in [1, 2, 5].map(|it| std::num::NonZeroU32::new(it).unwrap()) {
        assert!(ten.validate_on(threads, &with_locals(10)).is_ok());
        let alone = ten.validate(&with_locals(11)).unwrap_err();
        assert_eq!(ten.validate_on(threads, &with_locals(11)).unwrap_err(), alone);
        assert!(ten.validate_on(threads, &HEADER[..7]).is_err_and(|it| it.is_verdict()));
        let above = Settings::new().with_limit(Limit::Locals, 1_000_001);
        assert!(above.validate_on(threads, HEADER).is_err_and(|it| !it.is_verdict()));
    }
}

#[test]
fn bad_settings() {
    let unknown = Settings::new().with_features(Features::from_bits_retain(1 << 40));
    let above = Settings::new().with_limit(Limit::Locals, 1_000_001);
    for settings in [unknown, above] {
        let error = settings.validate(HEADER).unwrap_err();
        assert_eq!(error.kind(), ErrorKind::BadSettings);
        assert!(!error.is_verdict());
    }
}

#[test]
fn version() {
    assert_eq!(durskeyl::version(), (0, 2, 0));
    let _ = durskeyl::is_proved();
    assert!(Features::all().contains(Features::default()) && Features::default().contains(Features::wasm1()));
    assert_eq!(Features::all(), (0..28).fold(Features::NONE, |all, bit| all | Features::from_bits_retain(1 << bit)));
}

#[test]
fn shown() {
    assert_eq!(Shown("a\u{1b}[0m\u{202e}\u{85}é\\").to_string(), r"a\u{1b}[0m\u{202e}\u{85}é\");
}

// A function with `v128.const` and `drop`.
fn with_vector() -> Vec<u8> {
    let body = [&[0, 0xfd, 12][..], &[0; 16], &[0x1a, 0x0b]].concat();
    [HEADER, &[1, 4, 1, 0x60, 0, 0, 3, 2, 1, 0, 10, 23, 1, 21], &body].concat()
}

#[test]
fn named_sets() {
    let by_name = [Features::MVP, Features::WASM1, Features::WASM2, Features::WASM3, Features::LIME1];
    let told = [Features::mvp(), Features::wasm1(), Features::wasm2(), Features::wasm3(), Features::lime1()];
    assert_eq!(by_name, told);
}

// The calls of somebody who used wasmparser for verdicts.
#[test]
fn names_of_wasmparser() {
    let mut features = WasmFeatures::default();
    features.set(WasmFeatures::MULTI_MEMORY, false);
    features.insert(WasmFeatures::EXCEPTIONS | WasmFeatures::SIMD);
    features.remove(WasmFeatures::RELAXED_SIMD);
    assert!(features.contains(WasmFeatures::SIMD) && !features.intersects(WasmFeatures::MULTI_MEMORY));
    let mut validator = Validator::new_with_features(features);
    assert!(validator.validate_all(HEADER).is_ok());
    let error: durskeyl::BinaryReaderError = validator.validate_all(MEMORIES).unwrap_err();
    assert!(error.is_verdict() && !error.message().is_empty());
    assert!(Validator::new_with_features(WasmFeatures::all()).validate_all(MODULE).is_ok());
}

// One default for all calls: operators on vectors are refused until they are asked for, and the error says how.
#[test]
fn vectors() {
    let vector = with_vector();
    let refused = [
        validate(&vector).unwrap_err(),
        Validator::new().validate_all(&vector).unwrap_err(),
        Validator::new_with_features(WasmFeatures::all()).validate_all(&vector).unwrap_err(),
        in_pieces(Validator::default(), &vector, 7).unwrap_err(),
    ];
    for error in refused {
        assert_eq!(error.to_string(), "invalid at 0x17: unexpected SIMD opcode: 0xfd (Features::VECTORS judges operators on vectors)");
        assert_eq!((error.message(), error.hint().is_some()), ("unexpected SIMD opcode: 0xfd", true));
    }
    for features in [Features::ENGINES, Features::default() | Features::VECTORS] {
        assert!(Settings::new().with_features(features).validate(&vector).is_ok());
        assert!(Validator::new_with_features(features).validate_all(&vector).is_ok());
        assert_eq!(in_pieces(Validator::new_with_features(features), &vector, 7), Ok(()));
    }
    let error = Validator::new_with_features(Features::ENGINES - Features::SIMD).validate_all(&vector).unwrap_err();
    assert_eq!((error.kind(), error.hint()), (ErrorKind::MissingFeature(Features::SIMD), None));
    assert_eq!(Features::ENGINES, Features::wasm3() | Features::VECTORS);
}

// The verdict on bytes that are written in pieces of so many.
fn in_pieces(mut validator: Validator, bytes: &[u8], piece: usize) -> Result<(), Error> {
    for it in bytes.chunks(piece) {
        validator.feed(it)?;
    }
    validator.finish()
}

#[test]
fn pieces() {
    for piece in [1, 3, 1000] {
        assert_eq!(in_pieces(Validator::new(), MODULE, piece), Ok(()));
        for end in 0..MODULE.len() {
            let whole = is_valid(&MODULE[..end]);
            assert_eq!(in_pieces(Validator::new(), &MODULE[..end], piece).is_ok(), whole, "the first {end} bytes");
        }
    }
    let ten = Settings::new().with_limit(Limit::Locals, 10);
    assert_eq!(in_pieces(Validator::new_with_settings(ten.clone()), &with_locals(10), 5), Ok(()));
    let refused = in_pieces(Validator::new_with_settings(ten), &with_locals(11), 5).unwrap_err();
    assert_eq!(refused.kind(), ErrorKind::Invalid);
    assert_eq!(in_pieces(Validator::new_with_settings(Settings::new()), &with_vector(), 7).unwrap_err().kind(), ErrorKind::Invalid);
    let above = Settings::new().with_limit(Limit::Locals, 1_000_001);
    assert_eq!(in_pieces(Validator::new_with_settings(above), HEADER, 5).unwrap_err().kind(), ErrorKind::BadSettings);
}

#[test]
fn written() {
    let mut validator = Validator::new();
    assert_eq!(io::copy(&mut &MODULE[..], &mut validator).unwrap(), MODULE.len() as u64);
    validator.flush().unwrap();
    assert_eq!(validator.finish(), Ok(()));
    // a refusal stays, in each way in which it is told
    let mut validator = Validator::new();
    let error = validator.write_all(b"\0asm\x02\0\0\0").unwrap_err();
    assert_eq!(error.kind(), io::ErrorKind::InvalidData);
    let told = error.get_ref().and_then(|it| it.downcast_ref::<Error>()).unwrap().clone();
    assert_eq!(validator.feed(MODULE), Err(told.clone()));
    assert_eq!(validator.finish(), Err(told));
    // begun anew
    let mut validator = Validator::new();
    assert!(validator.write_all(b"\0asn").is_err() || validator.write_all(b"\x01\0\0\0").is_err());
    validator.reset();
    validator.write_all(HEADER).unwrap();
    assert_eq!(validator.finish(), Ok(()));
}

// A body of 2,000 operators, cut in the middle, of which no more than 16 bytes may be held.
#[test]
fn too_long() {
    let body = [&[0][..], &[1; 2000], &[0x0b]].concat();
    let module = [HEADER, &[1, 4, 1, 0x60, 0, 0, 3, 2, 1, 0, 10, 0xd5, 0x0f, 1, 0xd2, 0x0f], &body].concat();
    assert!(is_valid(&module));
    assert_eq!(in_pieces(Validator::new(), &module, 1000), Ok(()));
    let error = in_pieces(Validator::new().with_most_held(16), &module, 1000).unwrap_err();
    assert!(!error.is_verdict());
}

// A validator may be begun, written and ended on different threads, and dropped on another one.
#[test]
fn moves_between_threads() {
    fn sends<T: Send + Sync>() {}
    sends::<Validator>();
    for _ in 0..20 {
        let mut validator = Validator::new();
        validator.feed(&MODULE[..20]).unwrap();
        let mut dropped = Validator::new();
        dropped.feed(&MODULE[..30]).unwrap();
        let validator = thread::spawn(move || {
            drop(dropped);
            validator.feed(&MODULE[20..]).unwrap();
            validator
        });
        let validator = validator.join().unwrap();
        assert_eq!(thread::spawn(move || validator.finish()).join().unwrap(), Ok(()));
    }
}

#[test]
fn features_as_sets() {
    assert_eq!(Features::from_bits(1 << 40), None);
    assert_eq!(Features::from_bits(3), Some(Features::MUTABLE_GLOBAL | Features::SATURATING_FLOAT_TO_INT));
    assert_eq!(Features::from_bits_truncate(1 << 40 | 1), Features::MUTABLE_GLOBAL);
    assert_eq!(Features::from_name("SIMD"), Some(Features::SIMD));
    assert_eq!(Features::from_name("simd"), None);
    let mut some = Features::WASM1;
    assert_eq!(some.iter_names().map(|it| it.0).collect::<Vec<_>>(), ["MUTABLE_GLOBAL", "FLOATS", "GC_TYPES"]);
    assert_eq!(some.iter().collect::<Features>(), some);
    assert_eq!(format!("{:?} {:?}", Features::REFERENCE_TYPES, Features::NONE), "Features(REFERENCE_TYPES) Features(0x0)");
    assert_eq!(Features::from_bits_retain(1 << 40 | 1).to_string(), "MUTABLE_GLOBAL | 0x10000000000");
    assert_eq!(!Features::all(), Features::VECTORS);
    assert_eq!(Features::WASM2 ^ Features::WASM1, Features::WASM2 - Features::WASM1);
    some.toggle(Features::FLOATS | Features::SIMD);
    assert!(some.simd() && !some.floats() && some.gc_types() && !some.is_all());
    assert!(durskeyl::version_text().starts_with("0.2.0 ("));
}

#[test]
fn lists_of_features() {
    let read = |list: &str| list.parse::<Features>();
    assert_eq!(read("wasm1,threads,vectors,no-floats"), Ok(Features::WASM1 - Features::FLOATS | Features::THREADS | Features::VECTORS));
    assert_eq!(read("vectors,wasm1"), Ok(Features::WASM1 | Features::VECTORS));
    assert_eq!(read("engines"), Ok(Features::ENGINES));
    assert_eq!(read("no-simd"), Ok(Features::default() - Features::SIMD));
    for (list, wrong) in [("", ""), ("wasm2,,gc", ""), ("gc,SIMD,x", "SIMD"), ("simd\0", "simd\0")] {
        assert_eq!(read(list).unwrap_err().0.as_ref(), wrong);
    }
}

#[test]
fn bad_settings_are_named() {
    let threads = std::num::NonZeroU32::new(3).unwrap();
    let said = |settings: Settings| [settings.validate(HEADER), settings.validate_on(threads, HEADER)].map(|it| it.unwrap_err().to_string());
    assert_eq!(said(Settings::new().with_limit(Limit::StringBytes, u32::MAX)), ["bad settings: string-bytes=4294967295 is above its ceiling"; 2]);
    assert_eq!(said(Settings::new().with_features(Features::from_bits_retain(1 << 40))), ["bad settings: unknown features 0x10000000000"; 2]);
    let mut validator = Validator::new_with_settings(Settings::new().with_limit(Limit::TypeSize, u32::MAX));
    assert!(validator.write_all(HEADER).unwrap_err().to_string().contains("type-size=4294967295"));
}
