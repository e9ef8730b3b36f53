//! FASTLANES_FFI_LIB=/abs/libfastlanes_ffi.a  links the static library of `fastlanes_ffi`. Its symbols `fl[_VARIANT]_KERNEL_TYPE`
//! are read with `nm`, and each that the harness knows is measured beside the baseline: a kernel that is missing is
//! left out, and several variants of one kernel can lie side by side.
//! FASTLANES_FFI_EXTRA=/abs/a.a:/abs/b.a  further archives (the kit's c/liblibc_c.a where the library allocates).
use std::{env, fs, process::Command};

const TYPES: [&str; 4] = ["u8", "u16", "u32", "u64"];
// kernel, the arguments (T is the word type), the result
const KERNELS: [(&str, &str, &str); 18] = [
    ("pack", "usize, *const T, usize, *mut T, usize", ""),
    ("unpack", "usize, *const T, usize, *mut T, usize", ""),
    ("unfor_pack", "usize, *const T, usize, T, *mut T, usize", ""),
    ("unpack_cmp_lt", "usize, *const T, usize, T, *mut u64, usize", ""),
    ("compare_lt", "usize, *const T, usize, T, *mut u64, usize", ""),
    ("transpose_bits", "*const u64, usize, *mut u64, usize", ""),
    ("unpack_single", "usize, *const u8, usize, usize", "T"),
    ("transpose", "*const T, usize, *mut T, usize", ""),
    ("untranspose", "*const T, usize, *mut T, usize", ""),
    ("delta", "*const T, usize, *const T, usize, *mut T, usize", ""),
    ("undelta", "*const T, usize, *const T, usize, *mut T, usize", ""),
    ("rle_decode", "*const T, usize, *const u16, usize, *mut T, usize", ""),
    ("pack_column", "usize, u8, *const T, usize, *mut u8, usize", "usize"),
    ("pack_into", "usize, u8, *const T, usize, *mut u8, usize", "usize"),
    ("unpack_column", "usize, u8, usize, *const u8, usize, *mut T, usize", "usize"),
    ("decode_column", "u8, *const u8, usize, *mut T, usize", "usize"),
    ("encode_array", "usize, usize, u8, usize, *const T, usize", "usize"),
    ("ask_array", "usize, usize, u8, usize, *const T, usize, usize, *const u64, usize, *mut u64, usize", "usize"),
];

fn main() {
    println!("cargo:rerun-if-env-changed=FASTLANES_FFI_LIB");
    println!("cargo:rerun-if-env-changed=FASTLANES_FFI_EXTRA");
    let lib = env::var("FASTLANES_FFI_LIB").unwrap_or_default();
    let mut names: Vec<String> = Vec::new();
    if !lib.is_empty() {
        println!("cargo:rerun-if-changed={lib}");
        let out = Command::new("nm").args(["-g", "--defined-only", &lib]).output().expect("nm");
        names = String::from_utf8_lossy(&out.stdout)
            .lines()
            .filter_map(|it| it.split_whitespace().nth(2).map(str::to_string))
            .filter(|it| it.starts_with("fl_"))
            .collect();
        names.sort();
        println!("cargo:rustc-link-arg={lib}");
        for it in env::var("FASTLANES_FFI_EXTRA").unwrap_or_default().split(':').filter(|it| !it.is_empty()) {
            println!("cargo:rustc-link-arg={it}");
        }
    }
    let mut text = String::new();
    let mut externs = String::new();
    for ty in TYPES {
        text += &format!("pub mod {ty} {{\n");
        for (kernel, arguments, result) in KERNELS {
            let arguments: String = arguments.split(", ").map(|it| it.replace('T', ty)).collect::<Vec<_>>().join(", ");
            let result = if result.is_empty() { String::new() } else { format!(" -> {}", result.replace('T', ty)) };
            let tail = format!("_{kernel}_{ty}");
            let mut row = String::new();
            for name in &names {
                // `fl_pack_u8` must not be read as a variant of another kernel, as `fl_unfor_pack_u8` of `pack`.
                let Some(variant) = name.strip_suffix(&tail) else { continue };
                let is_other = KERNELS.iter().any(|(k, _, _)| k.len() > kernel.len() && name.ends_with(&format!("_{k}_{ty}")));
                if is_other { continue; }
                externs += &format!("    pub fn {name}({});\n", numbered(&arguments)).replace(");\n", &format!("){result};\n"));
                row += &format!("(\"{variant}\", super::{name}), ");
            }
            text += &format!("    pub type {} = unsafe extern \"C\" fn({arguments}){result};\n", kernel.to_uppercase());
            text += &format!("    pub const {}_ALL: &[(&str, {})] = &[{row}];\n", kernel.to_uppercase(), kernel.to_uppercase());
        }
        text += "}\n";
    }
    let all = format!("extern \"C\" {{\n{externs}}}\n{text}");
    fs::write(format!("{}/port.rs", env::var("OUT_DIR").unwrap()), all).unwrap();
}

fn numbered(arguments: &str) -> String {
    arguments.split(", ").enumerate().map(|(i, it)| format!("a{i}: {it}")).collect::<Vec<_>>().join(", ")
}
