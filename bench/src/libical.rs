//! libical's reading of a feed: a tree in memory of its own, in which values have their types.
use std::ffi::{CStr, CString, c_char, c_int, c_void};

const ANY_COMPONENT: c_int = 1;
const ANY_PROPERTY: c_int = 0;

unsafe extern "C" {
    fn icalparser_parse_string(text: *const c_char) -> *mut c_void;
    fn icalcomponent_free(tree: *mut c_void);
    fn icalcomponent_count_errors(tree: *mut c_void) -> c_int;
    fn icalcomponent_count_properties(tree: *mut c_void, kind: c_int) -> c_int;
    fn icalcomponent_get_first_component(tree: *mut c_void, kind: c_int) -> *mut c_void;
    fn icalcomponent_get_next_component(tree: *mut c_void, kind: c_int) -> *mut c_void;
}

/// A tree that libical made, freed with this.
pub struct Tree(*mut c_void);

impl Drop for Tree {
    fn drop(&mut self) {
        unsafe { icalcomponent_free(self.0) }
    }
}

impl Tree {
    /// How many components and properties it has, or nothing where libical refused the feed or a line of it.
    pub fn counts(&self) -> Option<[usize; 2]> {
        (!self.0.is_null() && unsafe { icalcomponent_count_errors(self.0) } == 0).then(|| counted(self.0))
    }
}

fn counted(tree: *mut c_void) -> [usize; 2] {
    let mut counts = [1, unsafe { icalcomponent_count_properties(tree, ANY_PROPERTY) } as usize];
    let mut child = unsafe { icalcomponent_get_first_component(tree, ANY_COMPONENT) };
    while !child.is_null() {
        let [components, properties] = counted(child);
        counts = [counts[0] + components, counts[1] + properties];
        child = unsafe { icalcomponent_get_next_component(tree, ANY_COMPONENT) };
    }
    counts
}

pub fn string(feed: &str) -> CString {
    CString::new(feed).expect("the feeds hold no NUL")
}

pub fn parse(feed: &CStr) -> Tree {
    Tree(unsafe { icalparser_parse_string(feed.as_ptr()) })
}
