//! Where the original departs from the rules.

use super::build::*;
use super::Draft;
use crate::rule::E;

/// The smallest cases on which the original departs from the rules.
pub fn differences() -> Vec<Draft> {
    vec![
        (
            "difference-variable-limit-not-repeated-at-var",
            vec![let_('a', H)],
            "limits 9 1 0\nhost script\neval append 1 3 1 unit value unit",
        ),
        (
            "difference-variable-limit-not-repeated-at-for",
            vec![for_('a', H, vec![])],
            "limits 9 1 0\nhost script\neval append 1 3 1 unit value range 0 0",
        ),
        (
            "difference-variable-limit-not-repeated-at-for-with-counter",
            vec![for_counted('a', 'b', H, vec![expr(H)])],
            "limits 9 2 0\nhost script\neval append 1 3 1 unit value range 0 1\neval exit unit",
        ),
        (
            "difference-variable-limit-not-repeated-before-a-faulty-item",
            vec![for_('a', H, vec![])],
            "limits 9 1 0\nhost script\neval append 1 3 1 unit value seq 101",
        ),
        (
            "difference-index-kept-while-mark-is-on",
            vec![let_at(1, 'a', H)],
            "limits 9 9 0\nhost script\neval append 1 3 1 unit value int 1\nput 0 1 unit\nrun 0",
        ),
        (
            "difference-index-kept-while-mark-is-on-after-allow",
            vec![let_at(1, 'a', H)],
            "limits 9 9 0\nhost script\neval value int 1\nallow append 1 3 1 unit yes\n\
             put 0 1 unit\nrun 0",
        ),
        (
            "difference-index-kept-while-no-such-name",
            vec![let_at(1, 'a', H)],
            "limits 9 9 0\nhost script\neval append 1 3 1 unit value int 1",
        ),
        (
            "difference-index-kept-and-beyond-the-names",
            vec![let_at(3, 'a', H)],
            "limits 9 9 0\nhost script\neval append 1 0 1 unit value int 1",
        ),
        (
            "difference-faulty-item-over-empty-body",
            vec![for_('a', H, vec![])],
            "limits 9 9 0\nhost script\neval value seq 101",
        ),
        (
            "difference-faulty-item-over-empty-body-goes-on",
            vec![for_('a', H, vec![])],
            "limits 9 9 0\nhost script\neval value seq 313",
        ),
        (
            "difference-index-beyond-names",
            vec![let_at(1, 'a', E::UNIT)],
            "limits 9 9 0",
        ),
    ]
}
