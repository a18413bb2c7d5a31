// Feed-in window: from 17:00 on, feed the surplus into the grid,
// but never more than the grid operator allows.
const cap = 4600;
let surplus = pv_watts - load_watts;
if hour < 17 {
    feed_watts = 0;
} else {
    feed_watts = surplus;
    if cap < surplus {
        feed_watts = cap;
    }
}
