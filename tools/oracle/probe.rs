
/// Appended to a copy of the original's text, which is not changed otherwise: hands its private functions out.
pub mod probe {
    use super::*;
    use crate::observe::with_any_reference;

    pub fn ratio(value: f64, minimum: f64, maximum: f64) -> u32 {
        normalized_ppm(value, minimum, maximum)
    }

    pub fn channel(start: u8, end: u8, ratio_ppm: u32) -> u8 {
        interpolate_rgb(Rgb::new(start, 0, 0), Rgb::new(end, 0, 0), ratio_ppm).red
    }

    pub fn cell_is(value: f64, op: DvOp, first: f64, second: Option<f64>) -> bool {
        compare_conditional(value, op, first, second)
    }

    const COMPARISONS: [ConditionalComparison; 6] = [
        ConditionalComparison::Equal,
        ConditionalComparison::NotEqual,
        ConditionalComparison::Less,
        ConditionalComparison::LessOrEqual,
        ConditionalComparison::Greater,
        ConditionalComparison::GreaterOrEqual,
    ];

    pub fn comparison(op: usize, left: f64, right: f64) -> bool {
        COMPARISONS[op].compare(left, right)
    }

    pub fn midpoint(sorted: &[f64]) -> f64 {
        percentile_50(sorted)
    }

    pub fn axis(target: u32, reference: u32, origin: u32, maximum: u32) -> Option<u64> {
        offset_a1_axis(u64::from(target), u64::from(reference), u64::from(origin), u64::from(maximum))
    }

    pub fn number(cell: &Cell) -> Option<f64> {
        numeric_cell_value(cell)
    }

    /// Whether two cells have the same key; none if one has no key.
    pub fn same_key(a: &Cell, b: &Cell) -> Option<bool> {
        Some(conditional_value_key(a)? == conditional_value_key(b)?)
    }

    /// Position, width and number of the operator at which the original splits, or none.
    ///
    /// Every operand that is no number is taken as a reference that notes where its text lies, so that the original gives none exactly
    /// if it finds no operator (or a number that is not finite beside one). The position is the one place where the operator found
    /// stands and whose two sides read to the two operands found, by value or by where they lie.
    pub fn split(text: &str) -> Option<(usize, usize, usize)> {
        let formula = text.trim().strip_prefix('=').unwrap_or(text.trim());
        with_any_reference(|| {
            let found = parse_conditional_expression(text)?;
            let op = COMPARISONS.iter().position(|op| *op == found.op)?;
            let spelled = ["=", "<>", "<", "<=", ">", ">="][op];
            let fits = |at: &usize| {
                let (left, right) = (&formula[..*at], &formula[at + spelled.len()..]);
                parse_conditional_operand(left).as_ref() == Some(&found.left)
                    && parse_conditional_operand(right).as_ref() == Some(&found.right)
            };
            let places: Vec<usize> = formula.match_indices(spelled).map(|(at, _)| at).filter(fits).collect();
            assert!(places.len() == 1, "{text:?} splits at {places:?}");
            Some((places[0], spelled.len(), op))
        })
    }
}
