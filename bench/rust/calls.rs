//! What the benchmark calls, over C. A side is a manager and what was loaded into it last. The file is read from memory, and the exported
//! bytes go into memory that is kept from export to export.

use std::slice;

use crate::bcdd::{Bcdd, Root};
use crate::dddmp::{DumpHeader, ExportSettings, import};

pub struct Side {
    manager: Bcdd,
    header: Option<DumpHeader>,
    roots: Vec<Root>,
    rootnames: Vec<String>,
    bytes: Vec<u8>,
}

/// An empty manager of so many levels, with room for so many nodes
#[unsafe(no_mangle)]
pub extern "C" fn rust_open(levels: u32, slots: u32) -> *mut Side {
    Box::into_raw(Box::new(Side {
        manager: Bcdd::new(levels, slots),
        header: None,
        roots: Vec::new(),
        rootnames: Vec::new(),
        bytes: Vec::new(),
    }))
}

#[unsafe(no_mangle)]
pub unsafe extern "C" fn rust_close(side: *mut Side) {
    drop(unsafe { Box::from_raw(side) });
}

/// Loads a file at its permids' levels. Answers 1 where it was accepted, else 0.
#[unsafe(no_mangle)]
pub unsafe extern "C" fn rust_load(side: *mut Side, file: *const u8, len: usize) -> u8 {
    let side = unsafe { &mut *side };
    let mut input = unsafe { slice::from_raw_parts(file, len) };
    let Ok(header) = DumpHeader::load(&mut input) else {
        return 0;
    };
    let mut levels = header.support_var_to_level().to_vec();
    levels.sort_unstable();
    let Ok(roots) = import(&mut input, &header, &side.manager, levels) else {
        return 0;
    };
    side.header = Some(header);
    side.roots = roots;
    1
}

/// Gives the manager and the roots the names that the loaded file has
#[unsafe(no_mangle)]
pub unsafe extern "C" fn rust_take_names(side: *mut Side) {
    let side = unsafe { &mut *side };
    let header = side.header.as_ref().unwrap();
    if let Some(names) = header.var_names() {
        side.manager.set_names(names.to_vec());
    }
    side.rootnames = header.root_names().unwrap_or_default().to_vec();
}

/// How many nodes there are, the terminal counted
#[unsafe(no_mangle)]
pub unsafe extern "C" fn rust_count(side: *const Side) -> u32 {
    unsafe { &*side }.manager.count()
}

#[unsafe(no_mangle)]
pub unsafe extern "C" fn rust_root_count(side: *const Side) -> usize {
    unsafe { &*side }.roots.len()
}

/// A root, with a minus where it is complemented
#[unsafe(no_mangle)]
pub unsafe extern "C" fn rust_root(side: *const Side, root: usize) -> i64 {
    unsafe { &*side }.roots[root].0.signed()
}

/// What a root answers at a setting, one byte for each level
#[unsafe(no_mangle)]
pub unsafe extern "C" fn rust_evaluate(side: *const Side, root: usize, setting: *const u8, len: usize) -> u8 {
    let side = unsafe { &*side };
    let setting = unsafe { slice::from_raw_parts(setting, len) };
    side.manager.eval(side.roots[root].0, |level| setting[level as usize] == 1) as u8
}

/// Exports all roots. Answers the length, 0 where the export failed.
#[unsafe(no_mangle)]
pub unsafe extern "C" fn rust_export(side: *mut Side, text: u8) -> usize {
    let side = unsafe { &mut *side };
    let settings = ExportSettings::default();
    let settings = if text == 0 { settings.binary() } else { settings.ascii() };
    side.bytes.clear();
    let done = if side.rootnames.is_empty() {
        settings.export(&mut side.bytes, &side.manager, side.roots.iter())
    } else {
        settings.export_with_names(&mut side.bytes, &side.manager, side.roots.iter().zip(&side.rootnames))
    };
    if done.is_ok() { side.bytes.len() } else { 0 }
}

/// The bytes of the last export
#[unsafe(no_mangle)]
pub unsafe extern "C" fn rust_exported(side: *const Side) -> *const u8 {
    unsafe { &*side }.bytes.as_ptr()
}
