// Cold store: switch compressors on, one by one, while the spare power
// lasts. A store that is cold enough gets none.
compressors = 0;
if store_temp < set_point {
    return;
}
let spare = pv_watts - load_watts;
for stage in range(1, 4) {
    if spare < compressor_watts {
        break;
    }
    spare -= compressor_watts;
    compressors = stage;
}
