//! Inputs from a seed with about as many entries as a chart may have: 32, a few less, or one more, which is refused.

use crate::inputs::{of_chart, Case};
use common::random::Random;
use common::random_inputs;
use oracle::listing::TABLE_ROWS;

pub fn draw(random: &mut Random) -> Case {
    let chart = if random.one_in(2) {
        let operators = random.pick(&[27, 28, 28, 29]);
        random_inputs::interval_chart(random, operators)
    } else {
        let operators = random.pick(&[28, 29, 30]);
        random_inputs::chart(random, operators, 2)
    };
    let length = random.below(25);
    let input = of_chart(random, &chart, length, 3);
    let table_rows = random.pick(&[60, 500, TABLE_ROWS, TABLE_ROWS]);
    Case { input, table_rows }
}
