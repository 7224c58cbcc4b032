
// ---- added by compare/replace at the end of a copy of the source's file, to reach what is private there

pub(crate) fn divisor_replaced(e: &E, divisor: &E, replacement: &E) -> E {
    replace_divisor(e, divisor, replacement, &mut Memo::new())
}

pub(crate) fn replaced_outside_arms(e: &E, target: &E, replacement: &E) -> E {
    replace_outside_arms(e, target, replacement)
}

pub(crate) fn factors(e: &E) -> (f64, Vec<E>) {
    flatten_mul_factors(e)
}
