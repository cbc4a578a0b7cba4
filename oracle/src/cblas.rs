//! OpenBLAS's and Netlib's gemm, symm and trsm of f64 and f32, through the CBLAS interface of the shared libraries that
//! Debian installs, which are loaded where they are there.

use crate::call::Routine::{Gemm, Symm, Trsm};
use crate::call::{Flag, Kind, Routine};
use crate::capi::{Arguments, Functions};
use std::env;
use std::ffi::{CString, c_char, c_int, c_void};
use std::mem::transmute;
use std::sync::OnceLock;

/// A C function, before its arguments are known.
type Function = unsafe extern "C" fn();

/// Calls the function with the arguments; it takes them as they are typed here.
macro_rules! apply {
    ($function:ident, $($argument:expr),*) => {{
        let function: unsafe extern "C" fn($(apply!(@typed $argument)),*) = transmute($function);
        function($($argument),*)
    }};
    (@typed $argument:expr) => { _ };
}

unsafe extern "C" {
    fn dlopen(file: *const c_char, mode: c_int) -> *mut c_void;
    fn dlsym(library: *mut c_void, name: *const c_char) -> Option<Function>;
}

const RTLD_LOCAL: c_int = 0;
const RTLD_NOW: c_int = 2;

const ROW_MAJOR: c_int = 101;

/// The routines that are called.
const ROUTINES: [Routine; 3] = [Gemm, Symm, Trsm];

/// A library, loaded when it is first asked for a function.
pub struct Library {
    pub name: &'static str,
    /// The Debian package that installs it.
    pub package: &'static str,
    /// The environment variable that names its file.
    variable: &'static str,
    /// They answer 0; there is no answer where the library or the routine is not there, or where a view is not by rows.
    pub functions: Functions,
    /// The functions of each routine in f64 and f32.
    loaded: OnceLock<Option<[[Function; 2]; 3]>>,
}

pub static OPENBLAS: Library = Library {
    name: "OpenBLAS",
    package: "libopenblas0-serial",
    variable: "ZB_OPENBLAS",
    functions: Functions {
        f64: |routine, arguments| OPENBLAS.run(routine, Kind::F64, arguments),
        f32: |routine, arguments| OPENBLAS.run(routine, Kind::F32, arguments),
        complex: |_, _| None,
    },
    loaded: OnceLock::new(),
};

pub static NETLIB: Library = Library {
    name: "Netlib",
    package: "libblas3",
    variable: "ZB_NETLIB_SHARED",
    functions: Functions {
        f64: |routine, arguments| NETLIB.run(routine, Kind::F64, arguments),
        f32: |routine, arguments| NETLIB.run(routine, Kind::F32, arguments),
        complex: |_, _| None,
    },
    loaded: OnceLock::new(),
};

impl Library {
    pub fn is_there(&self) -> bool {
        self.loaded().is_some()
    }

    fn loaded(&self) -> &Option<[[Function; 2]; 3]> {
        self.loaded.get_or_init(|| self.load())
    }

    /// Loads it and sets it to one thread.
    fn load(&self) -> Option<[[Function; 2]; 3]> {
        // To load a file without a name would give this program itself.
        let file = env::var(self.variable).ok().filter(|file| !file.is_empty())?;
        let file = CString::new(file).ok()?;
        let library = unsafe { dlopen(file.as_ptr(), RTLD_NOW | RTLD_LOCAL) };
        if library.is_null() {
            return None;
        }
        if let Some(function) = symbol(library, "openblas_set_num_threads") {
            unsafe { apply!(function, 1 as c_int) };
        }
        let function = |name: String| symbol(library, &name).unwrap_or_else(|| panic!("{} has no {name}", self.name));
        Some(ROUTINES.map(|routine| ["d", "s"].map(|kind| function(format!("cblas_{kind}{}", routine.name())))))
    }

    /// Runs the call by rows, in place.
    fn run<C: Copy>(&self, routine: Routine, kind: Kind, arguments: &Arguments<C>) -> Option<u8> {
        let Arguments { flags, scalars: [alpha, beta, ..], views, .. } = *arguments;
        let at = ROUTINES.iter().position(|&known| known == routine)?;
        let function = self.loaded().as_ref()?[at][kind as usize];
        if views.iter().any(|view| view.col_stride != 1) {
            return None;
        }
        let flag = |k: usize| code(routine.flags()[k], flags[k]);
        let first = |k: usize| arguments.slabs[k].0.wrapping_add(views[k].start as usize);
        let leading = |k: usize| views[k].row_stride as c_int;
        let (a, b, c) = (first(0), first(1), first(2));
        let (lda, ldb, ldc) = (leading(0), leading(1), leading(2));
        let target = views[routine.views() - 1];
        let (m, n) = (target.rows as c_int, target.cols as c_int);
        let k = if flags[0] == 0 { views[0].cols } else { views[0].rows } as c_int;
        unsafe {
            match routine {
                Gemm => apply!(function, ROW_MAJOR, flag(0), flag(1), m, n, k, alpha, a, lda, b, ldb, beta, c, ldc),
                Symm => apply!(function, ROW_MAJOR, flag(0), flag(1), m, n, alpha, a, lda, b, ldb, beta, c, ldc),
                _ => apply!(function, ROW_MAJOR, flag(0), flag(1), flag(2), flag(3), m, n, alpha, a, lda, b, ldb),
            }
        }
        Some(0)
    }
}

fn symbol(library: *mut c_void, name: &str) -> Option<Function> {
    let name = CString::new(name).unwrap();
    unsafe { dlsym(library, name.as_ptr()) }
}

/// CBLAS's number for a flag's value.
fn code(flag: Flag, value: u8) -> c_int {
    let first = match flag {
        Flag::Trans => 111,
        Flag::UpLo => 121,
        Flag::Diag => 131,
        Flag::Side => 141,
    };
    first + c_int::from(value)
}
