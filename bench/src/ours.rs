//! The proved functions, as the archive exports them: a slice is two words, where it starts and how long it is.

unsafe extern "C" {
    fn hawniretem_unfold(feed: *const u8, feed_len: usize, text: *mut u8, text_len: usize, numbers: *mut [usize; 3]);
    fn hawniretem_read(
        feed: *const u8,
        feed_len: usize,
        text: *mut u8,
        text_len: usize,
        components: *mut u32,
        components_len: usize,
        properties: *mut u32,
        properties_len: usize,
        parameters: *mut u32,
        parameters_len: usize,
        numbers: *mut [usize; 6],
    );
    fn hawniretem_measure(feed: *const u8, feed_len: usize, text: *mut u8, text_len: usize, numbers: *mut [usize; 6]);
    fn hawniretem_fill(
        text: *const u8,
        text_len: usize,
        components: *mut u32,
        components_len: usize,
        properties: *mut u32,
        properties_len: usize,
        parameters: *mut u32,
        parameters_len: usize,
        numbers: *mut [usize; 6],
    );
    fn hawniretem_fold_line(line: *const u8, line_len: usize, out: *mut u8, out_len: usize, numbers: *mut [usize; 3]);
    fn hawniretem_fold_strict(line: *const u8, line_len: usize, out: *mut u8, out_len: usize, numbers: *mut [usize; 3]);
    fn hawniretem_quote(value: *const u8, value_len: usize, out: *mut u8, out_len: usize, numbers: *mut [usize; 3]);
    fn hawniretem_read_text(
        mode: u32,
        value: *const u8,
        value_len: usize,
        out: *mut u8,
        out_len: usize,
        numbers: *mut [usize; 3],
    );
    fn hawniretem_write_text(text: *const u8, text_len: usize, out: *mut u8, out_len: usize, numbers: *mut [usize; 3]);
    fn hawniretem_write(
        text: *const u8,
        text_len: usize,
        components: *const u32,
        components_len: usize,
        properties: *const u32,
        properties_len: usize,
        parameters: *const u32,
        parameters_len: usize,
        out: *mut u8,
        out_len: usize,
        numbers: *mut [usize; 3],
    );
    fn hawniretem_neighbours(
        text: *const u8,
        text_len: usize,
        components: *const u32,
        components_len: usize,
        properties: *const u32,
        properties_len: usize,
        parameters: *const u32,
        parameters_len: usize,
        parent: usize,
        numbers: *mut [usize; 3],
    );
    fn hawniretem_loose_twins(
        text: *const u8,
        text_len: usize,
        components: *const u32,
        components_len: usize,
        properties: *const u32,
        properties_len: usize,
        parameters: *const u32,
        parameters_len: usize,
        first: usize,
        second: usize,
        numbers: *mut [usize; 3],
    );
}

/// The number of the mode that reads what the Rust reads: `\:` too.
const REPOSITORY: u32 = 1;

/// What a caller lends: nothing else is written.
pub struct Lent {
    pub text: Vec<u8>,
    pub components: Vec<u32>,
    pub properties: Vec<u32>,
    pub parameters: Vec<u32>,
    pub out: Vec<u8>,
}

impl Lent {
    /// Room for any feed of as many bytes, and for what is written of its lines.
    pub fn new(bytes: usize) -> Self {
        let words = |row: usize| vec![0; bytes / 4 * row];
        Lent {
            text: vec![0; bytes],
            components: words(4),
            properties: words(5),
            parameters: words(6),
            out: vec![0; 2 * bytes + 1024],
        }
    }
}

pub fn unfold(feed: &[u8], text: &mut [u8]) -> [usize; 3] {
    let mut numbers = [0; 3];
    unsafe { hawniretem_unfold(feed.as_ptr(), feed.len(), text.as_mut_ptr(), text.len(), &mut numbers) }
    numbers
}

pub fn read(feed: &[u8], lent: &mut Lent) -> [usize; 6] {
    let Lent { text, components: c, properties: p, parameters: q, .. } = lent;
    let mut numbers = [0; 6];
    unsafe {
        hawniretem_read(
            feed.as_ptr(),
            feed.len(),
            text.as_mut_ptr(),
            text.len(),
            c.as_mut_ptr(),
            c.len(),
            p.as_mut_ptr(),
            p.len(),
            q.as_mut_ptr(),
            q.len(),
            &mut numbers,
        )
    }
    numbers
}

/// The numbers that filling told, and tables of just the rows that measuring told.
pub struct Filled {
    pub numbers: [usize; 6],
    pub components: Vec<u32>,
    pub properties: Vec<u32>,
    pub parameters: Vec<u32>,
}

/// Measures, allocates and fills; a feed that measuring refuses has no rows.
pub fn measure_and_fill(feed: &[u8], text: &mut [u8]) -> Filled {
    let mut numbers = [0; 6];
    unsafe { hawniretem_measure(feed.as_ptr(), feed.len(), text.as_mut_ptr(), text.len(), &mut numbers) }
    let [answer, _, length, c, p, q] = numbers;
    let (mut components, mut properties, mut parameters) = (vec![0; 4 * c], vec![0; 5 * p], vec![0; 6 * q]);
    if answer == 0 {
        unsafe {
            hawniretem_fill(
                text.as_ptr(),
                length,
                components.as_mut_ptr(),
                components.len(),
                properties.as_mut_ptr(),
                properties.len(),
                parameters.as_mut_ptr(),
                parameters.len(),
                &mut numbers,
            )
        }
    }
    Filled { numbers, components, properties, parameters }
}

pub fn fold_line(line: &[u8], out: &mut [u8]) -> [usize; 3] {
    let mut numbers = [0; 3];
    unsafe { hawniretem_fold_line(line.as_ptr(), line.len(), out.as_mut_ptr(), out.len(), &mut numbers) }
    numbers
}

pub fn fold_strict(line: &[u8], out: &mut [u8]) -> [usize; 3] {
    let mut numbers = [0; 3];
    unsafe { hawniretem_fold_strict(line.as_ptr(), line.len(), out.as_mut_ptr(), out.len(), &mut numbers) }
    numbers
}

pub fn quote(value: &[u8], out: &mut [u8]) -> [usize; 3] {
    let mut numbers = [0; 3];
    unsafe { hawniretem_quote(value.as_ptr(), value.len(), out.as_mut_ptr(), out.len(), &mut numbers) }
    numbers
}

pub fn read_text(value: &[u8], out: &mut [u8]) -> [usize; 3] {
    let mut numbers = [0; 3];
    unsafe { hawniretem_read_text(REPOSITORY, value.as_ptr(), value.len(), out.as_mut_ptr(), out.len(), &mut numbers) }
    numbers
}

pub fn write_text(text: &[u8], out: &mut [u8]) -> [usize; 3] {
    let mut numbers = [0; 3];
    unsafe { hawniretem_write_text(text.as_ptr(), text.len(), out.as_mut_ptr(), out.len(), &mut numbers) }
    numbers
}

/// Writes what a reading told of: the text and the rows by its numbers.
pub fn write(told: [usize; 6], lent: &mut Lent) -> [usize; 3] {
    let Lent { text, components: c, properties: p, parameters: q, out } = lent;
    let mut numbers = [0; 3];
    unsafe {
        hawniretem_write(
            text.as_ptr(),
            told[2],
            c.as_ptr(),
            4 * told[3],
            p.as_ptr(),
            5 * told[4],
            q.as_ptr(),
            6 * told[5],
            out.as_mut_ptr(),
            out.len(),
            &mut numbers,
        )
    }
    numbers
}

/// How many children of the first component are twins of the one before them, in what a reading told of.
pub fn neighbours(told: [usize; 6], lent: &Lent) -> [usize; 3] {
    let Lent { text, components: c, properties: p, parameters: q, .. } = lent;
    let mut numbers = [0; 3];
    unsafe {
        hawniretem_neighbours(
            text.as_ptr(),
            told[2],
            c.as_ptr(),
            4 * told[3],
            p.as_ptr(),
            5 * told[4],
            q.as_ptr(),
            6 * told[5],
            0,
            &mut numbers,
        )
    }
    numbers
}

/// Whether the two children of the first component are loose twins, in what a reading told of; both have as many rows.
pub fn loose_twins(told: [usize; 6], lent: &Lent) -> [usize; 3] {
    let Lent { text, components: c, properties: p, parameters: q, .. } = lent;
    let mut numbers = [0; 3];
    unsafe {
        hawniretem_loose_twins(
            text.as_ptr(),
            told[2],
            c.as_ptr(),
            4 * told[3],
            p.as_ptr(),
            5 * told[4],
            q.as_ptr(),
            6 * told[5],
            1,
            1 + told[3] / 2,
            &mut numbers,
        )
    }
    numbers
}
