// Hold-back: keep the charging power below the connection limit.
// If a reading is missing or the limit is passed already, charge
// nothing and tell why.
let room = 0;
try {
    room = limit_watts - load_watts;
    if room < 0 {
        throw 1;
    }
} catch (reason) {
    hold_reason = reason;
    room = 0;
}
charge_watts = room;
