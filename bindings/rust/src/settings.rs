//! What a module is judged by.

use crate::sys;
use std::ffi::{CStr, CString};
use std::fmt;
use std::ops::{BitAnd, BitAndAssign, BitOr, BitOrAssign, BitXor, BitXorAssign, Not, Sub, SubAssign};
use std::str::FromStr;
use std::sync::OnceLock;

// The first two numbers of the version, 8 bits each.
const WANTED: u32 = 2;

/// The name that wasmparser gives to [`Features`].
pub type WasmFeatures = Features;

/// A set of features, with the names of wasmparser's `WasmFeatures`. The order of the bits is ours.
#[derive(Clone, Copy, PartialEq, Eq, PartialOrd, Ord, Hash)]
pub struct Features(u64);

impl Features {
    pub const MUTABLE_GLOBAL: Features = Features(1 << 0);
    pub const SATURATING_FLOAT_TO_INT: Features = Features(1 << 1);
    pub const SIGN_EXTENSION: Features = Features(1 << 2);
    /// And `CALL_INDIRECT_OVERLONG`.
    pub const REFERENCE_TYPES: Features = Features(1 << 3 | 1 << 25);
    pub const MULTI_VALUE: Features = Features(1 << 4);
    /// And `BULK_MEMORY_OPT`.
    pub const BULK_MEMORY: Features = Features(1 << 5 | 1 << 26);
    pub const SIMD: Features = Features(1 << 6);
    pub const RELAXED_SIMD: Features = Features(1 << 7);
    pub const THREADS: Features = Features(1 << 8);
    pub const SHARED_EVERYTHING_THREADS: Features = Features(1 << 9);
    pub const TAIL_CALL: Features = Features(1 << 10);
    pub const FLOATS: Features = Features(1 << 11);
    pub const MULTI_MEMORY: Features = Features(1 << 12);
    pub const EXCEPTIONS: Features = Features(1 << 13);
    pub const MEMORY64: Features = Features(1 << 14);
    pub const EXTENDED_CONST: Features = Features(1 << 15);
    pub const COMPONENT_MODEL: Features = Features(1 << 16);
    pub const FUNCTION_REFERENCES: Features = Features(1 << 17);
    pub const MEMORY_CONTROL: Features = Features(1 << 18);
    pub const GC: Features = Features(1 << 19);
    pub const CUSTOM_PAGE_SIZES: Features = Features(1 << 20);
    pub const LEGACY_EXCEPTIONS: Features = Features(1 << 21);
    pub const GC_TYPES: Features = Features(1 << 22);
    pub const STACK_SWITCHING: Features = Features(1 << 23);
    pub const WIDE_ARITHMETIC: Features = Features(1 << 24);
    pub const CALL_INDIRECT_OVERLONG: Features = Features(1 << 25);
    pub const BULK_MEMORY_OPT: Features = Features(1 << 26);
    pub const CUSTOM_DESCRIPTORS: Features = Features(1 << 27);

    /// No feature, and in no named set but `ENGINES`: operators on vectors are judged like all others. Without it each of them is refused.
    pub const VECTORS: Features = Features(1 << 28);

    /// The first release of WebAssembly, without mutable globals in imports and exports.
    pub const MVP: Features = Features(Features::FLOATS.0 | Features::GC_TYPES.0);
    /// WebAssembly 1.0.
    pub const WASM1: Features = Features(Features::MVP.0 | Features::MUTABLE_GLOBAL.0);
    /// WebAssembly 2.0.
    pub const WASM2: Features = Features(
        Features::WASM1.0
            | Features::SATURATING_FLOAT_TO_INT.0
            | Features::SIGN_EXTENSION.0
            | Features::REFERENCE_TYPES.0
            | Features::MULTI_VALUE.0
            | Features::BULK_MEMORY.0
            | Features::SIMD.0,
    );
    /// WebAssembly 3.0, with threads.
    pub const WASM3: Features = Features(
        Features::WASM2.0
            | Features::RELAXED_SIMD.0
            | Features::THREADS.0
            | Features::TAIL_CALL.0
            | Features::MULTI_MEMORY.0
            | Features::EXCEPTIONS.0
            | Features::MEMORY64.0
            | Features::EXTENDED_CONST.0
            | Features::FUNCTION_REFERENCES.0
            | Features::GC.0,
    );
    /// Lime1.
    pub const LIME1: Features = Features(
        Features::WASM1.0
            | Features::SATURATING_FLOAT_TO_INT.0
            | Features::SIGN_EXTENSION.0
            | Features::MULTI_VALUE.0
            | Features::EXTENDED_CONST.0
            | Features::CALL_INDIRECT_OVERLONG.0
            | Features::BULK_MEMORY_OPT.0,
    );

    /// What browsers' engines take by default today: WebAssembly 3.0 with threads, and operators on vectors. A later version may have more.
    pub const ENGINES: Features = Features(Features::WASM3.0 | Features::VECTORS.0);

    /// No features.
    pub const NONE: Features = Features(0);

    /// No features.
    pub const fn empty() -> Features {
        Features::NONE
    }

    /// All features that the library knows, those of proposals too.
    pub fn all() -> Features {
        Features(sys::durskeyl_features(0))
    }

    /// The first release of WebAssembly.
    pub fn mvp() -> Features {
        Features(sys::durskeyl_features(1))
    }

    /// WebAssembly 1.0.
    pub fn wasm1() -> Features {
        Features(sys::durskeyl_features(2))
    }

    /// WebAssembly 2.0.
    pub fn wasm2() -> Features {
        Features(sys::durskeyl_features(3))
    }

    /// WebAssembly 3.0, with threads.
    pub fn wasm3() -> Features {
        Features(sys::durskeyl_features(4))
    }

    /// Lime1.
    pub fn lime1() -> Features {
        Features(sys::durskeyl_features(5))
    }

    /// Each feature by its name, in the order of the bits. A name that stands for two bits comes where both are there.
    const NAMES: [(&'static str, Features); 29] = [
        ("MUTABLE_GLOBAL", Features::MUTABLE_GLOBAL),
        ("SATURATING_FLOAT_TO_INT", Features::SATURATING_FLOAT_TO_INT),
        ("SIGN_EXTENSION", Features::SIGN_EXTENSION),
        ("REFERENCE_TYPES", Features::REFERENCE_TYPES),
        ("MULTI_VALUE", Features::MULTI_VALUE),
        ("BULK_MEMORY", Features::BULK_MEMORY),
        ("SIMD", Features::SIMD),
        ("RELAXED_SIMD", Features::RELAXED_SIMD),
        ("THREADS", Features::THREADS),
        ("SHARED_EVERYTHING_THREADS", Features::SHARED_EVERYTHING_THREADS),
        ("TAIL_CALL", Features::TAIL_CALL),
        ("FLOATS", Features::FLOATS),
        ("MULTI_MEMORY", Features::MULTI_MEMORY),
        ("EXCEPTIONS", Features::EXCEPTIONS),
        ("MEMORY64", Features::MEMORY64),
        ("EXTENDED_CONST", Features::EXTENDED_CONST),
        ("COMPONENT_MODEL", Features::COMPONENT_MODEL),
        ("FUNCTION_REFERENCES", Features::FUNCTION_REFERENCES),
        ("MEMORY_CONTROL", Features::MEMORY_CONTROL),
        ("GC", Features::GC),
        ("CUSTOM_PAGE_SIZES", Features::CUSTOM_PAGE_SIZES),
        ("LEGACY_EXCEPTIONS", Features::LEGACY_EXCEPTIONS),
        ("GC_TYPES", Features::GC_TYPES),
        ("STACK_SWITCHING", Features::STACK_SWITCHING),
        ("WIDE_ARITHMETIC", Features::WIDE_ARITHMETIC),
        ("CALL_INDIRECT_OVERLONG", Features::CALL_INDIRECT_OVERLONG),
        ("BULK_MEMORY_OPT", Features::BULK_MEMORY_OPT),
        ("CUSTOM_DESCRIPTORS", Features::CUSTOM_DESCRIPTORS),
        ("VECTORS", Features::VECTORS),
    ];

    /// The features of these bits; nothing, if this crate has no name for one of them.
    pub const fn from_bits(bits: u64) -> Option<Features> {
        if bits & !Features::NAMED == 0 { Some(Features(bits)) } else { None }
    }

    /// The features of these bits, without those for which this crate has no name.
    pub const fn from_bits_truncate(bits: u64) -> Features {
        Features(bits & Features::NAMED)
    }

    /// The features of these bits, whether or not anybody knows them. The library refuses those that it does not know.
    pub const fn from_bits_retain(bits: u64) -> Features {
        Features(bits)
    }

    // The bits of 28 features and of vectors.
    const NAMED: u64 = (1 << 29) - 1;

    /// The feature of this name, as `"SIMD"`.
    pub fn from_name(name: &str) -> Option<Features> {
        Features::NAMES.iter().find(|it| it.0 == name).map(|it| it.1)
    }

    /// The features of this set, one after the other.
    pub fn iter(self) -> impl Iterator<Item = Features> {
        self.iter_names().map(|it| it.1)
    }

    /// The features of this set by their names. A bit that is in two of them is told once.
    pub fn iter_names(self) -> impl Iterator<Item = (&'static str, Features)> {
        let mut left = self.0;
        Features::NAMES.into_iter().filter(move |it| {
            let is_told = self.contains(it.1) && left & it.1.0 != 0;
            left &= if is_told { !it.1.0 } else { u64::MAX };
            is_told
        })
    }

    /// The other features that this crate knows.
    #[must_use]
    pub const fn complement(self) -> Features {
        Features::from_bits_truncate(!self.0)
    }

    /// The features that are in one of the two sets alone.
    #[must_use]
    pub const fn symmetric_difference(self, others: Features) -> Features {
        Features(self.0 ^ others.0)
    }

    /// Adds those features that are not there, and takes away those that are.
    pub fn toggle(&mut self, others: Features) {
        *self = self.symmetric_difference(others);
    }

    /// Whether this set has all features that the library knows.
    pub fn is_all(self) -> bool {
        self.contains(Features::all())
    }

    /// The bits.
    pub const fn bits(self) -> u64 {
        self.0
    }

    /// Whether all those features are in this set.
    pub const fn contains(self, others: Features) -> bool {
        self.0 & others.0 == others.0
    }

    /// This set with those features.
    #[must_use]
    pub const fn with(self, others: Features) -> Features {
        Features(self.0 | others.0)
    }

    /// This set without those features.
    #[must_use]
    pub const fn without(self, others: Features) -> Features {
        Features(self.0 & !others.0)
    }

    /// Whether no feature is in this set.
    pub const fn is_empty(self) -> bool {
        self.0 == 0
    }

    /// Whether one of those features is in this set.
    pub const fn intersects(self, others: Features) -> bool {
        self.0 & others.0 != 0
    }

    /// The features of both sets.
    #[must_use]
    pub const fn union(self, others: Features) -> Features {
        self.with(others)
    }

    /// The features that are in each of the two sets.
    #[must_use]
    pub const fn intersection(self, others: Features) -> Features {
        Features(self.0 & others.0)
    }

    /// The features of this set that are not in the other.
    #[must_use]
    pub const fn difference(self, others: Features) -> Features {
        self.without(others)
    }

    /// Adds those features.
    pub fn insert(&mut self, others: Features) {
        *self = self.with(others);
    }

    /// Takes those features away.
    pub fn remove(&mut self, others: Features) {
        *self = self.without(others);
    }

    /// Adds those features, or takes them away.
    pub fn set(&mut self, others: Features, are_there: bool) {
        *self = if are_there { self.with(others) } else { self.without(others) };
    }
}

// A method for each feature, which says whether it is in the set.
macro_rules! asks {
    ($($feature:ident $method:ident,)*) => {
        impl Features {
            $(
                #[doc = concat!("Whether `", stringify!($feature), "` is in this set.")]
                pub const fn $method(&self) -> bool {
                    self.contains(Features::$feature)
                }
            )*
        }
    };
}

asks! {
    MUTABLE_GLOBAL mutable_global,
    SATURATING_FLOAT_TO_INT saturating_float_to_int,
    SIGN_EXTENSION sign_extension,
    REFERENCE_TYPES reference_types,
    MULTI_VALUE multi_value,
    BULK_MEMORY bulk_memory,
    SIMD simd,
    RELAXED_SIMD relaxed_simd,
    THREADS threads,
    SHARED_EVERYTHING_THREADS shared_everything_threads,
    TAIL_CALL tail_call,
    FLOATS floats,
    MULTI_MEMORY multi_memory,
    EXCEPTIONS exceptions,
    MEMORY64 memory64,
    EXTENDED_CONST extended_const,
    COMPONENT_MODEL component_model,
    FUNCTION_REFERENCES function_references,
    MEMORY_CONTROL memory_control,
    GC gc,
    CUSTOM_PAGE_SIZES custom_page_sizes,
    LEGACY_EXCEPTIONS legacy_exceptions,
    GC_TYPES gc_types,
    STACK_SWITCHING stack_switching,
    WIDE_ARITHMETIC wide_arithmetic,
    CALL_INDIRECT_OVERLONG call_indirect_overlong,
    BULK_MEMORY_OPT bulk_memory_opt,
    CUSTOM_DESCRIPTORS custom_descriptors,
    VECTORS vectors,
}

impl fmt::Debug for Features {
    fn fmt(&self, f: &mut fmt::Formatter<'_>) -> fmt::Result {
        if self.is_empty() {
            return f.write_str("Features(0x0)");
        }
        write!(f, "Features({self})")
    }
}

/// The names with ` | ` between them; what has no name is a number.
impl fmt::Display for Features {
    fn fmt(&self, f: &mut fmt::Formatter<'_>) -> fmt::Result {
        let mut left = self.0;
        let mut between = "";
        for (name, feature) in self.iter_names() {
            write!(f, "{between}{name}")?;
            left &= !feature.0;
            between = " | ";
        }
        if left != 0 {
            write!(f, "{between}{left:#x}")?;
        }
        Ok(())
    }
}

/// Reads a list as `wasm-check --features` does: words with a comma between them, applied in order to the set by default, as
/// `wasm2,threads,no-simd`. Two more words are `vectors`, which a set leaves as it was, and the set `engines`.
impl FromStr for Features {
    type Err = UnknownWord;

    fn from_str(list: &str) -> Result<Features, UnknownWord> {
        let Ok(words) = CString::new(list) else {
            return Err(UnknownWord(list.into()));
        };
        let mut bits = 0;
        // SAFETY: the text ends in a 0; it and the set are lent for the call.
        let wrong = unsafe { sys::durskeyl_read_features(words.as_ptr(), &mut bits) };
        if wrong.is_null() {
            return Ok(Features(bits));
        }
        // SAFETY: what is answered lies in the text.
        let rest = unsafe { CStr::from_ptr(wrong) }.to_string_lossy();
        Err(UnknownWord(rest.split(',').next().unwrap_or_default().into()))
    }
}

/// A word of a list that is no feature and no set.
#[derive(Clone, Debug, PartialEq, Eq)]
pub struct UnknownWord(pub Box<str>);

impl fmt::Display for UnknownWord {
    fn fmt(&self, f: &mut fmt::Formatter<'_>) -> fmt::Result {
        write!(f, "unknown feature or set of features: `{}`", crate::Shown(&self.0))
    }
}

impl std::error::Error for UnknownWord {}

impl Not for Features {
    type Output = Features;

    fn not(self) -> Features {
        self.complement()
    }
}

impl BitXor for Features {
    type Output = Features;

    fn bitxor(self, others: Features) -> Features {
        self.symmetric_difference(others)
    }
}

impl BitXorAssign for Features {
    fn bitxor_assign(&mut self, others: Features) {
        self.toggle(others);
    }
}

impl FromIterator<Features> for Features {
    fn from_iter<I: IntoIterator<Item = Features>>(sets: I) -> Features {
        sets.into_iter().fold(Features::NONE, Features::with)
    }
}

impl Extend<Features> for Features {
    fn extend<I: IntoIterator<Item = Features>>(&mut self, sets: I) {
        self.insert(sets.into_iter().collect());
    }
}

impl Default for Features {
    fn default() -> Features {
        Features(sys::durskeyl_features(6))
    }
}

impl BitOr for Features {
    type Output = Features;

    fn bitor(self, others: Features) -> Features {
        self.with(others)
    }
}

impl BitOrAssign for Features {
    fn bitor_assign(&mut self, others: Features) {
        self.insert(others);
    }
}

impl BitAnd for Features {
    type Output = Features;

    fn bitand(self, others: Features) -> Features {
        self.intersection(others)
    }
}

impl BitAndAssign for Features {
    fn bitand_assign(&mut self, others: Features) {
        *self = self.intersection(others);
    }
}

impl Sub for Features {
    type Output = Features;

    fn sub(self, others: Features) -> Features {
        self.without(others)
    }
}

impl SubAssign for Features {
    fn sub_assign(&mut self, others: Features) {
        self.remove(others);
    }
}

/// What may be limited: the most that a module may have of each.
#[derive(Clone, Copy, Debug, PartialEq, Eq, Hash)]
#[non_exhaustive]
#[repr(usize)]
pub enum Limit {
    Types = 0,
    Params,
    Results,
    Fields,
    StringBytes,
    Imports,
    Exports,
    Functions,
    Globals,
    Tags,
    Tables,
    Memories,
    ElementSegments,
    DataSegments,
    SegmentItems,
    BodyBytes,
    SelectTypes,
    Locals,
    Catches,
    SubtypingDepth,
    TypeSize,
}

impl Limit {
    const ALL: [Limit; 21] = [
        Limit::Types,
        Limit::Params,
        Limit::Results,
        Limit::Fields,
        Limit::StringBytes,
        Limit::Imports,
        Limit::Exports,
        Limit::Functions,
        Limit::Globals,
        Limit::Tags,
        Limit::Tables,
        Limit::Memories,
        Limit::ElementSegments,
        Limit::DataSegments,
        Limit::SegmentItems,
        Limit::BodyBytes,
        Limit::SelectTypes,
        Limit::Locals,
        Limit::Catches,
        Limit::SubtypingDepth,
        Limit::TypeSize,
    ];

    const WORDS: &'static str = "types params results fields string-bytes imports exports functions globals tags tables memories element-segments \
        data-segments segment-items body-bytes select-types locals catches subtyping-depth type-size";

    // The limit at this place of the settings, if this crate knows it.
    pub(crate) fn at(place: u32) -> Option<Limit> {
        Limit::ALL.get(place as usize).copied()
    }
}

/// The word of `wasm-check --limits`.
impl fmt::Display for Limit {
    fn fmt(&self, f: &mut fmt::Formatter<'_>) -> fmt::Result {
        f.write_str(Limit::WORDS.split_whitespace().nth(*self as usize).unwrap_or_default())
    }
}

/// Features and limits. By default those of the library: WebAssembly 3.0 with threads, and the component model's.
#[derive(Clone, Debug)]
pub struct Settings(pub(crate) sys::Settings);

impl Settings {
    /// Those by default.
    ///
    /// # Panics
    ///
    /// If the library that the program was started with has another version than this crate, whose structures may have another size: the
    /// first two numbers have to be the same.
    pub fn new() -> Settings {
        check_version();
        let mut settings = sys::Settings { features: 0, limits: [0; sys::LIMITS] };
        // SAFETY: the settings are lent for the call.
        unsafe { sys::durskeyl_settings_default(&mut settings) };
        Settings(settings)
    }

    /// These with other features.
    #[must_use]
    pub fn with_features(mut self, features: Features) -> Settings {
        self.0.features = features.bits();
        self
    }

    /// These with another limit. Above its ceiling it is refused by the calls ([`crate::ErrorKind::BadSettings`]).
    #[must_use]
    pub fn with_limit(mut self, limit: Limit, most: u32) -> Settings {
        self.0.limits[limit as usize] = most;
        self
    }

    /// The features.
    pub fn features(&self) -> Features {
        Features(self.0.features)
    }

    /// A limit.
    pub fn limit(&self, limit: Limit) -> u32 {
        self.0.limits[limit as usize]
    }
}

/// What the library refuses of these settings, in words: features that it does not know, or the first limit that it refuses alone, which is told by
/// a call for each over a module of nothing.
pub(crate) fn refused(settings: &sys::Settings) -> String {
    let unknown = settings.features & !(Features::all() | Features::VECTORS).bits();
    if unknown != 0 {
        return format!("unknown features {unknown:#x}");
    }
    for (place, most) in settings.limits.iter().enumerate() {
        let mut one = Settings::new();
        one.0.limits[place] = *most;
        let module = b"\0asm\x01\0\0\0";
        // SAFETY: as in `validate`.
        if unsafe { sys::durskeyl_validate(&one.0, module.as_ptr(), module.len(), &mut sys::Fault::none()) } == 6 {
            return match Limit::at(place as u32) {
                Some(limit) => format!("{limit}={most} is above its ceiling"),
                None => format!("the limit {place} is not known"),
            };
        }
    }
    String::new()
}

// Asks the library once for its version.
fn check_version() {
    static IS_RIGHT: OnceLock<bool> = OnceLock::new();
    let is_right = *IS_RIGHT.get_or_init(|| (sys::durskeyl_version() & 0x00ff_ffff) >> 8 == WANTED);
    assert!(is_right, "the crate durskeyl needs a library of its own version, and {:?} is loaded", crate::version());
}

impl Default for Settings {
    fn default() -> Settings {
        Settings::new()
    }
}
