//! The proved library over its C boundary.

#[cfg(feature = "library-validate")]
use crate::Mode;
use crate::{Answer, Call, Checker, Paths, RawTables, Visit};
use std::ops::Range;

/// A part of the pool, `qy_span` of the C header.
#[repr(C)]
#[derive(Clone, Copy, Debug, PartialEq, Eq)]
struct Span {
    start: usize,
    length: usize,
}

macro_rules! slices {
    ($tables:expr) => {
        (
            $tables.pool.as_ptr(),
            $tables.pool.len(),
            $tables.texts.as_ptr(),
            $tables.texts.len(),
            $tables.nodes.as_ptr(),
            $tables.nodes.len(),
            $tables.notes.as_ptr(),
            $tables.notes.len(),
            $tables.schemas.as_ptr(),
            $tables.schemas.len(),
            $tables.registry.as_ptr(),
            $tables.registry.len(),
            $tables.patterns.as_ptr(),
            $tables.patterns.len(),
            $tables.links.as_ptr(),
            $tables.links.len(),
            $tables.numbers.as_ptr(),
            $tables.numbers.len(),
        )
    };
}

/// Declares the calls that take all nine slices, then their own arguments.
macro_rules! over_tables {
    ($($(#[$attribute:meta])* fn $name:ident($($argument:ident: $kind:ty),*);)*) => {
        unsafe extern "C" {
            $($(#[$attribute])*
            fn $name(
                pool: *const u8, pool_bytes: usize,
                texts: *const u32, text_words: usize,
                nodes: *const u32, node_words: usize,
                notes: *const u32, note_words: usize,
                schemas: *const u32, schema_words: usize,
                registry: *const u32, registry_words: usize,
                patterns: *const u32, pattern_words: usize,
                links: *const u32, link_words: usize,
                numbers: *const u64, number_count: usize,
                $($argument: $kind),*
            ) -> Answer;)*
        }
    };
}

over_tables! {
    fn qy_navigate(node: u32, path: *const u32, path_words: usize, key_wanted: bool);
    #[cfg(feature = "library-validate")]
    fn qy_validate(node: u32, schema: u32, instance: *mut u32, instance_words: usize,
        steps: *mut u32, step_words: usize);
    #[cfg(feature = "library-validate")]
    fn qy_validate_source(node: u32, schema: u32, instance: *mut u32, instance_words: usize,
        steps: *mut u32, step_words: usize);
    #[cfg(feature = "library-validate")]
    fn qy_validate_standard(node: u32, schema: u32, instance: *mut u32, instance_words: usize,
        steps: *mut u32, step_words: usize);
}

unsafe extern "C" {
    fn qy_text(
        pool: *const u8,
        pool_bytes: usize,
        texts: *const u32,
        text_words: usize,
        text: u32,
    ) -> Span;

    #[cfg(feature = "library-compile")]
    fn qy_compile(
        pool: *const u8,
        pool_bytes: usize,
        texts: *const u32,
        text_words: usize,
        nodes: *const u32,
        node_words: usize,
        notes: *mut u32,
        note_words: usize,
        used_notes: u32,
        schemas: *mut u32,
        schema_words: usize,
        used_schemas: u32,
        registry: *const u32,
        registry_words: usize,
        patterns: *const u32,
        pattern_words: usize,
        links: *mut u32,
        link_words: usize,
        used_links: u32,
        numbers: *const u64,
        number_count: usize,
        schema: u32,
    ) -> Answer;
}

/// Hands the nine slices of the tables and the further arguments to a call.
macro_rules! call {
    ($name:ident, $tables:expr, $($argument:expr),*) => {{
        let (p, pl, t, tl, n, nl, o, ol, s, sl, r, rl, a, al, l, ll, u, ul) = slices!($tables);
        // SAFETY: each pointer and length is of a slice that outlives the call;
        // the library reads and writes nothing else.
        unsafe {
            $name(p, pl, t, tl, n, nl, o, ol, s, sl, r, rl, a, al, l, ll, u, ul, $($argument),*)
        }
    }};
}

/// The proved library.
#[derive(Clone, Copy, Debug, Default)]
pub struct Library;

impl Library {
    /// The part of the pool that a text is, empty for a wrong number.
    pub fn text(&self, tables: &RawTables, text: u32) -> Range<usize> {
        // SAFETY: both slices outlive the call, which only reads them.
        let span = unsafe {
            qy_text(
                tables.pool.as_ptr(),
                tables.pool.len(),
                tables.texts.as_ptr(),
                tables.texts.len(),
                text,
            )
        };
        span.start..span.start + span.length
    }
}

impl Checker for Library {
    fn navigate(&self, tables: &RawTables, node: u32, path: &[u32], key_wanted: bool) -> Answer {
        call!(
            qy_navigate,
            tables,
            node,
            path.as_ptr(),
            path.len(),
            key_wanted
        )
    }

    #[cfg(feature = "library-validate")]
    fn validate(&self, tables: &RawTables, visit: Visit, paths: &mut Paths) -> Answer {
        let Visit { mode, node, schema } = visit;
        let (i, il) = (paths.instance.as_mut_ptr(), paths.instance.len());
        let (s, sl) = (paths.steps.as_mut_ptr(), paths.steps.len());
        match mode {
            Mode::Unnamed => call!(qy_validate, tables, node, schema, i, il, s, sl),
            Mode::Source => call!(qy_validate_source, tables, node, schema, i, il, s, sl),
            Mode::Standard => call!(qy_validate_standard, tables, node, schema, i, il, s, sl),
        }
    }

    #[cfg(not(feature = "library-validate"))]
    fn validate(&self, _: &RawTables, _: Visit, _: &mut Paths) -> Answer {
        unimplemented!("built without the library's validation")
    }

    #[cfg(feature = "library-compile")]
    fn compile(&self, tables: &mut RawTables, used: [u32; 3], schema: u32) -> Answer {
        // SAFETY: each pointer and length is of a slice that outlives the call;
        // the three tables it writes are borrowed mutably.
        unsafe {
            qy_compile(
                tables.pool.as_ptr(),
                tables.pool.len(),
                tables.texts.as_ptr(),
                tables.texts.len(),
                tables.nodes.as_ptr(),
                tables.nodes.len(),
                tables.notes.as_mut_ptr(),
                tables.notes.len(),
                used[0],
                tables.schemas.as_mut_ptr(),
                tables.schemas.len(),
                used[1],
                tables.registry.as_ptr(),
                tables.registry.len(),
                tables.patterns.as_ptr(),
                tables.patterns.len(),
                tables.links.as_mut_ptr(),
                tables.links.len(),
                used[2],
                tables.numbers.as_ptr(),
                tables.numbers.len(),
                schema,
            )
        }
    }

    #[cfg(not(feature = "library-compile"))]
    fn compile(&self, _: &mut RawTables, _: [u32; 3], _: u32) -> Answer {
        unimplemented!("built without the library's compilation")
    }

    fn has(&self, call: Call) -> bool {
        match call {
            Call::Navigate => true,
            Call::Validate => cfg!(feature = "library-validate"),
            Call::Compile => cfg!(feature = "library-compile"),
        }
    }
}
