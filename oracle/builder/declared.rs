//! The functions that a text declares, in one notation: a parameter is its name and its type as Rust writes it, a lent slice is the pointer and the length
//! that it crosses as.

/// A function as some text declares it.
#[derive(Clone, PartialEq)]
pub struct Function {
    pub name: String,
    pub parameters: Vec<(String, String)>,
    pub result: String,
}

impl Function {
    /// The types alone: the harness gives its parameters no names.
    pub fn types(&self) -> Vec<&str> {
        self.parameters.iter().map(|p| p.1.as_str()).collect()
    }

    pub fn text(&self) -> String {
        let list: Vec<String> = self.parameters.iter().map(|(name, kind)| format!("{name}: {kind}")).collect();
        format!("{}({}) -> {}", self.name, list.join(", "), self.result)
    }
}

/// The text without its comments `/* .. */`.
fn uncommented(text: &str) -> String {
    let mut parts = text.split("/*");
    let first = parts.next().unwrap_or_default().to_string();
    parts.fold(first, |out, part| out + " " + part.split_once("*/").map_or("", |(_, after)| after))
}

/// C's type in Rust's words.
fn plain(c: &str) -> String {
    match c {
        "uint32_t" => "u32",
        "uint64_t" | "egl_answer" => "u64",
        "uint8_t" => "u8",
        "size_t" => "usize",
        "double" => "f64",
        other => other,
    }
    .to_string()
}

/// `const uint32_t *name` and the like.
fn c_parameter(text: &str) -> (String, String) {
    let (constant, rest) = text.strip_prefix("const ").map_or((false, text), |rest| (true, rest));
    let (kind, name) = rest.split_once(' ').unwrap_or((rest, ""));
    match name.strip_prefix('*') {
        Some(name) => (name.to_string(), format!("*{} {}", if constant { "const" } else { "mut" }, plain(kind))),
        None => (name.to_string(), plain(kind)),
    }
}

/// What include/egl.h declares: everything that ends with a semicolon and has a parenthesis.
pub fn header(text: &str) -> Vec<Function> {
    let text = uncommented(text);
    let six = text.split("#define EGL_PARAMS ").nth(1).and_then(|rest| rest.lines().next()).unwrap_or_default();
    let code: Vec<&str> = text.lines().filter(|line| !line.trim_start().starts_with('#')).collect();
    let mut out = Vec::new();
    for statement in code.join(" ").replace("EGL_PARAMS", six).split(';') {
        let Some((before, after)) = statement.rsplit('{').next().unwrap_or_default().split_once('(') else { continue };
        let mut words = before.split_whitespace().rev();
        let (name, result) = (words.next().unwrap_or_default(), words.next().unwrap_or_default());
        let list = after.split(')').next().unwrap_or_default();
        let parameters = list.split(',').map(str::trim).filter(|p| !p.is_empty() && *p != "void").map(c_parameter).collect();
        out.push(Function { name: name.to_string(), parameters, result: plain(result) });
    }
    out
}

/// `name: kind`, where a lent slice is a pointer and a length.
fn rust_parameters(list: &str) -> Vec<(String, String)> {
    let mut out = Vec::new();
    for (name, kind) in list.split(',').filter_map(|p| p.split_once(':')).map(|(name, kind)| (name.trim(), kind.trim())) {
        let (pointer, element) = match (kind.strip_prefix("&mut ["), kind.strip_prefix("&[")) {
            (Some(element), _) => ("*mut", element),
            (_, Some(element)) => ("*const", element),
            _ => {
                out.push((name.to_string(), kind.to_string()));
                continue;
            }
        };
        out.push((name.to_string(), format!("{pointer} {}", element.trim_end_matches(']'))));
        out.push((format!("{name}_len"), "usize".to_string()));
    }
    out
}

/// The function whose text starts at its name.
fn rust_function(text: &str) -> Option<Function> {
    let (name, rest) = text.split_once('(')?;
    let (list, after) = rest.split_once(')')?;
    let result = after.strip_prefix(" -> ").unwrap_or_default().split([';', ' ', '\n']).next().unwrap_or_default();
    Some(Function { name: name.to_string(), parameters: rust_parameters(list), result: result.to_string() })
}

/// What a file of egl_c exports: functions marked `#[unsafe(no_mangle)]` and `pub extern "C"`.
pub fn exports(text: &str) -> Vec<Function> {
    text.split("#[unsafe(no_mangle)]\npub extern \"C\" fn ").skip(1).filter_map(rust_function).collect()
}

/// What a Rust file declares to be linked, a line each, types and result written out.
pub fn linked(text: &str) -> Vec<Function> {
    text.lines().filter_map(|line| line.trim().strip_prefix("fn ")).filter(|line| line.starts_with("egl_") && line.contains(" -> ")).filter_map(rust_function).collect()
}

/// An argument of the harness by its kind: what crosses for it.
fn crossing(kind: &str) -> Vec<&'static str> {
    match kind {
        "words" => vec!["*const u32", "usize"],
        "words_out" => vec!["*mut u32", "usize"],
        "bytes" => vec!["*const u8", "usize"],
        "bytes_out" => vec!["*mut u8", "usize"],
        "doubles" => vec!["*const f64", "usize"],
        "u8" => vec!["u8"],
        "u32" => vec!["u32"],
        "u64" => vec!["u64"],
        "usize" => vec!["usize"],
        "f64" => vec!["f64"],
        _ => vec!["a kind that nobody knows"],
    }
}

/// What a file of the harness declares: lines of kinds, with the six parameters in front under `c_functions`, and linked functions.
pub fn harness(text: &str) -> Vec<Function> {
    let mut out = linked(text);
    let mut six = false;
    for line in text.lines().map(str::trim) {
        six = (six || line.contains("c_functions!")) && !line.contains("plain_functions!");
        let Some((name, kinds)) = line.strip_prefix("fn ").filter(|l| l.starts_with("egl_") && l.ends_with(");")).and_then(|l| l.split_once('(')) else { continue };
        let front = if six { vec!["u32"; 6] } else { Vec::new() };
        let kinds = kinds.trim_end_matches(");").split(", ").filter(|k| !k.is_empty()).flat_map(crossing);
        let parameters = front.into_iter().chain(kinds).map(|kind| (String::new(), kind.to_string())).collect();
        out.push(Function { name: name.to_string(), parameters, result: String::new() });
    }
    out
}
