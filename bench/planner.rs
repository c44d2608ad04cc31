//! The proved planner behind a safe function. `bench/archive.sh optimizer_c optimizer` writes `target/staticlib/liboptimizer.a`.

/// The least lent memory, in words.
pub const WORKSPACE: usize = 16_384;
pub const PLAN: usize = 4_500;

#[derive(Clone, Copy, Debug, PartialEq, Eq)]
pub enum Answer {
    Plan,
    Refused(u32),
}

extern "C" {
    // A slice of Rattle is passed as its address and its length.
    fn optimizer_optimize(
        file: *const u8,
        file_len: usize,
        workspace: *mut u32,
        workspace_len: usize,
        plan: *mut u32,
        plan_len: usize,
    ) -> u32;
}

/// Plans a project file of any bytes in memory of any length.
pub fn optimize(file: &[u8], workspace: &mut [u32], plan: &mut [u32]) -> Answer {
    // SAFETY: each address and length is a live slice's; the borrows keep the three apart; the proved function has no
    // `requires` and writes no word outside the two lent slices.
    let number = unsafe {
        optimizer_optimize(
            file.as_ptr(),
            file.len(),
            workspace.as_mut_ptr(),
            workspace.len(),
            plan.as_mut_ptr(),
            plan.len(),
        )
    };
    match number {
        0 => Answer::Plan,
        n => Answer::Refused(n),
    }
}

/// How many words of a plan memory are the plan's, by its contents.
pub fn plan_len(plan: &[u32]) -> usize {
    let sheets = plan[0] as usize;
    match sheets {
        0 => 4,
        _ => {
            let last = 4 + 2 * (sheets - 1);
            (plan[last] + plan[last + 1]) as usize
        }
    }
}
