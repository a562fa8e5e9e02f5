//! Random projects for `host/test`: `generate SEED COUNT FOLDER` writes FOLDER/0, FOLDER/1 and so on, each with src/ and tools/, most of
//! them with a baseline. Few names and paths, so that baselines often list a function that is there.

use std::fs;
use std::path::Path;

struct Random(u64);

impl Random {
    fn below(&mut self, n: usize) -> usize {
        // Knuth's multiplier (MMIX); the high bits are the random ones.
        self.0 = self.0.wrapping_mul(6364136223846793005).wrapping_add(1442695040888963407);
        (self.0 >> 33) as usize % n
    }

    fn pick<'a>(&mut self, from: &[&'a str]) -> &'a str {
        from[self.below(from.len())]
    }
}

const PATHS: [&str; 14] =
    ["a.rs", "a/b.rs", "a-b.rs", "a/mod.rs", "a.rs.rs", "A.rs", "é.rs", "a b.rs", "b/a/c.rs", "b.txt", "rs", ".rs", "#.rs", "a.rs/c.rs"];
const NAMES: [&str; 5] = ["f", "g", "new", "a_1", "r#if"];
const PIECES: [&str; 40] = [
    "if x {",
    "}",
    "while x {",
    "}",
    "for i in y {",
    "}",
    "loop {",
    "}",
    "match x { 1 => 2, _ => 3 }",
    "x && y",
    "x || y",
    "z?",
    "{",
    "}",
    "\n",
    "\n\n\n",
    "\"s { \\\" \"",
    "r#\"{ \" }\"#",
    "'{'",
    "'\\''",
    "'a",
    "é",
    "// c { \"\n",
    "/* { /* } */ */",
    "/*",
    "\"",
    "#[cfg(test)]",
    "mod t {",
    "fn h() {}",
    "fn",
    "(",
    ")",
    "<",
    ">",
    ";",
    "-> [u8; 3]",
    "struct S { a: u8 }",
    "\t",
    "\r\n",
    "????????????????",
];
const PARAMETERS: [&str; 9] = [
    "",
    "x: u8",
    "&self",
    "&mut self, x: u8",
    "a: A<B, C>, b: [u8; 2],",
    "a,b,c,d,e,f,g",
    "a,b,c,d,e,f,g,h",
    "self",
    "f: fn() -> u8, x: u8",
];

fn function(random: &mut Random, text: &mut String) {
    text.push_str("fn ");
    text.push_str(random.pick(&NAMES));
    text.push('(');
    text.push_str(random.pick(&PARAMETERS));
    text.push_str(") {\n");
    if random.below(2) == 0 {
        let (open, close) = if random.below(2) == 0 { ("if x {\n", "}\n") } else { ("{", "}") };
        let depth = random.below(9);
        text.push_str(&open.repeat(depth));
        text.push_str(&close.repeat(depth));
    }
    if random.below(4) == 0 {
        text.push_str(&"\n".repeat(96 + random.below(8)));
    }
    if random.below(3) == 0 {
        text.push_str(&"x?; ".repeat(12 + random.below(6)));
    }
    if random.below(3) == 0 {
        soup(random, text, 6);
    }
    text.push_str("}\n");
}

fn soup(random: &mut Random, text: &mut String, most: usize) {
    for _ in 0..random.below(most) {
        text.push_str(random.pick(&PIECES));
        text.push(' ');
    }
}

fn text(random: &mut Random) -> String {
    let mut text = String::new();
    for _ in 0..random.below(6) {
        function(random, &mut text);
        if random.below(4) == 0 {
            soup(random, &mut text, 12);
        }
    }
    text
}

fn baseline(random: &mut Random) -> String {
    let mut lines = String::new();
    for _ in 0..random.below(12) {
        let end = random.pick(&["\n", "\n", "\n", "\r\n", "\tmore\n", "\r", ""]);
        match random.below(10) {
            0 => lines.push_str("# a comment"),
            1 => lines.push_str(random.pick(&[
                "",
                "  ",
                "\u{3000}",
                "src/a.rs",
                "src/a.rs\tf",
                "\t\t\t",
                "src/a.rs\tf\t-1\t2",
                "x\ty\t1\t99999999999999999999",
            ])),
            _ => {
                let (cyclomatic, length) = (random.below(24), random.below(110));
                let sign = random.pick(&["", "", "", "+", "0", " "]);
                lines.push_str(&format!("src/{}\t{}\t{sign}{cyclomatic}\t{length}", random.pick(&PATHS), random.pick(&NAMES)));
            }
        }
        lines.push_str(end);
    }
    lines
}

fn project(random: &mut Random, folder: &Path) -> std::io::Result<()> {
    fs::create_dir_all(folder.join("src"))?;
    fs::create_dir_all(folder.join("tools"))?;
    for _ in 0..random.below(7) {
        let file = folder.join("src").join(random.pick(&PATHS));
        // `a.rs` may be a folder already, or a file where a folder is asked for.
        if fs::create_dir_all(file.parent().unwrap()).is_ok() && !file.is_dir() {
            fs::write(file, text(random))?;
        }
    }
    if random.below(5) > 0 {
        fs::write(folder.join("tools/complexity-baseline.tsv"), baseline(random))?;
    }
    Ok(())
}

fn main() -> std::io::Result<()> {
    let words: Vec<String> = std::env::args().collect();
    let [_, seed, count, folder] = &words[..] else { panic!("generate SEED COUNT FOLDER") };
    let mut random = Random(seed.parse().expect("a number"));
    for k in 0..count.parse::<usize>().expect("a number") {
        project(&mut random, &Path::new(folder).join(k.to_string()))?;
    }
    Ok(())
}
