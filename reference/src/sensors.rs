//! Sensor position: the spring board's 72 sensors, laid in a line that turns at each end.

use crate::refusal;

/// "The spring board's constant table has 72 entries".
const SENSORS: usize = 72;

/// Nine lines of eight: the even lines run forwards, the odd ones backwards.
const POSITION_OF_SENSOR: [u32; SENSORS] = [
    0, 1, 2, 3, 4, 5, 6, 7, //
    15, 14, 13, 12, 11, 10, 9, 8, //
    16, 17, 18, 19, 20, 21, 22, 23, //
    31, 30, 29, 28, 27, 26, 25, 24, //
    32, 33, 34, 35, 36, 37, 38, 39, //
    47, 46, 45, 44, 43, 42, 41, 40, //
    48, 49, 50, 51, 52, 53, 54, 55, //
    63, 62, 61, 60, 59, 58, 57, 56, //
    64, 65, 66, 67, 68, 69, 70, 71, //
];

/// **Sensor position**: "17 sensor ≥ 72."
pub fn sensor_position(sensor: u32) -> Result<u32, u32> {
    if sensor as usize >= SENSORS {
        return Err(refusal::SENSOR);
    }
    Ok(POSITION_OF_SENSOR[sensor as usize])
}
