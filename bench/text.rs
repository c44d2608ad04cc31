//! The text of a plan's words, written apart from the proved one, to compare words with the published Rust's text.
use std::fmt::Write;

fn id(w: &[u32]) -> u64 {
    w[0] as u64 | (w[1] as u64) << 32
}

fn fields(out: &mut String, words: &[u32]) {
    for w in words {
        write!(out, " {w}").unwrap();
    }
    out.push('\n');
}

fn node(out: &mut String, w: &[u32]) {
    match w[0] {
        0 => {
            out.push_str("cut");
            fields(out, &w[1..8]);
        }
        1 => {
            write!(out, "leaf {}", id(&w[1..3])).unwrap();
            fields(out, &w[3..8]);
        }
        _ => {
            out.push_str("leaf waste");
            fields(out, &w[4..8]);
        }
    }
}

fn sheet(out: &mut String, w: &[u32]) {
    let (pieces, waste, nodes) = (w[7] as usize, w[8] as usize, w[9] as usize);
    write!(out, "sheet {}", id(&w[0..2])).unwrap();
    fields(out, &w[2..7]);
    let (p, rest) = w[10..].split_at(9 * pieces);
    let (r, n) = rest.split_at(4 * waste);
    for x in p.chunks(9) {
        write!(out, "piece {}", id(&x[0..2])).unwrap();
        fields(out, &x[2..9]);
    }
    for x in r.chunks(4) {
        out.push_str("waste");
        fields(out, x);
    }
    writeln!(out, "guide {nodes}").unwrap();
    for x in n[..8 * nodes].chunks(8) {
        node(out, x);
    }
}

pub fn plan_text(plan: &[u32]) -> String {
    let mut out = String::new();
    let fitness = plan[1] as u64 | (plan[2] as u64) << 32;
    writeln!(out, "plan {} fitness {fitness:016X} layout {}", plan[0], plan[3]).unwrap();
    for k in 0..plan[0] as usize {
        let (start, len) = (plan[4 + 2 * k] as usize, plan[5 + 2 * k] as usize);
        sheet(&mut out, &plan[start..start + len]);
    }
    out
}
