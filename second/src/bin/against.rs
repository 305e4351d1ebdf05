//! Archives against each other: `against OLD.so NEW.so AGAIN.so`. Check and
//! join of the shapes of docs/SPEED.md through each, by turns in this process;
//! the third is the old one once more, so that the noise is seen.

use second::generate::heavy::{all, NESTED};
use second::timing::{example, figure, lent, medians, shaped, Subject};
use std::ffi::{c_char, c_int, c_void, CString};

type Check = extern "C" fn(*const u8, usize, *mut u32, usize, *mut u32, usize, *mut u32, usize);
type Join = extern "C" fn(
    *const u8,
    usize,
    *const u8,
    usize,
    *mut u32,
    usize,
    *mut u32,
    usize,
    *mut u8,
    usize,
    *mut u32,
    usize,
);

extern "C" {
    fn dlopen(path: *const c_char, flags: c_int) -> *mut c_void;
    fn dlsym(library: *mut c_void, name: *const c_char) -> *mut c_void;
}

const RTLD_NOW: c_int = 2;

/// The first byte limit: an archive from before it was raised takes no more.
const BYTES: usize = 65_536;

fn subjects() -> Vec<Subject> {
    let mut found = vec![example()];
    found.extend([BYTES / 2, BYTES / 4].map(|bytes| shaped(&NESTED[0], bytes)));
    found.extend(all().map(|shape| shaped(shape, BYTES)));
    found
}

struct Archive {
    check: Check,
    join: Join,
}

/// The address of a function that include/scrieve.h declares.
fn address(library: *mut c_void, name: &str) -> *mut c_void {
    let text = CString::new(name).expect("a name");
    let found = unsafe { dlsym(library, text.as_ptr()) };
    assert!(!found.is_null(), "no {name}");
    found
}

fn open(path: &str) -> Archive {
    let text = CString::new(path).expect("a path");
    let library = unsafe { dlopen(text.as_ptr(), RTLD_NOW) };
    assert!(!library.is_null(), "cannot load {path}");
    unsafe {
        Archive {
            check: std::mem::transmute::<*mut c_void, Check>(address(library, "scrieve_check")),
            join: std::mem::transmute::<*mut c_void, Join>(address(library, "scrieve_join")),
        }
    }
}

impl Archive {
    fn check(&self, blob: &[u8], l: &mut second::timing::Lent) {
        (self.check)(
            blob.as_ptr(),
            blob.len(),
            l.index.as_mut_ptr(),
            l.index.len(),
            l.work.as_mut_ptr(),
            l.work.len(),
            l.answer.as_mut_ptr(),
            l.answer.len(),
        );
    }

    fn join(&self, (a, b): &(Vec<u8>, Vec<u8>), l: &mut second::timing::Lent) {
        (self.join)(
            a.as_ptr(),
            a.len(),
            b.as_ptr(),
            b.len(),
            l.index.as_mut_ptr(),
            l.index.len(),
            l.work.as_mut_ptr(),
            l.work.len(),
            l.out.as_mut_ptr(),
            l.out.len(),
            l.answer.as_mut_ptr(),
            l.answer.len(),
        );
    }
}

fn main() {
    let paths: Vec<String> = std::env::args().skip(1).collect();
    let [old, new, again] = [0, 1, 2].map(|at| open(paths.get(at).expect("three archives")));
    println!(
        "| Table | Bytes | check, new to old | old to itself | join, new to old | old to itself |"
    );
    println!("|---|---|---|---|---|---|");
    for s in subjects() {
        let [mut k, mut l, mut m] = [0; 3].map(|_| lent(BYTES));
        let [o, n, a] = medians([
            &mut || old.check(&s.blob, &mut k),
            &mut || new.check(&s.blob, &mut l),
            &mut || again.check(&s.blob, &mut m),
        ]);
        assert_eq!(k.answer, l.answer, "{}", s.title);
        let [p, q, r] = medians([
            &mut || old.join(&s.pair, &mut k),
            &mut || new.join(&s.pair, &mut l),
            &mut || again.join(&s.pair, &mut m),
        ]);
        assert_eq!((k.answer, &k.out), (l.answer, &l.out), "{}", s.title);
        println!(
            "| {} | {} | {} | {} | {} | {} |",
            s.title,
            s.blob.len(),
            figure(n / o),
            figure(a / o),
            figure(q / p),
            figure(r / p)
        );
    }
}
