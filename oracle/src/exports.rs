//! The proved functions, through the static library. A slice travels as its pointer and its length.

#[link(name = "station_air", kind = "static")]
unsafe extern "C" {
    #[link_name = "station_air_log_word"]
    pub safe fn log_word(x: f64, negative: &mut bool, whole: &mut u32, part: &mut u64) -> bool;
    #[link_name = "station_air_antilog"]
    pub safe fn antilog(negative: bool, whole: u32, part: u64) -> f64;
    #[link_name = "station_air_power"]
    pub safe fn power(x: f64, number: usize) -> f64;
    #[link_name = "station_air_exp"]
    pub safe fn exp(x: f64) -> f64;
    #[link_name = "station_air_ln"]
    pub safe fn ln(x: f64) -> f64;
    #[link_name = "station_air_sqrt"]
    pub safe fn sqrt(x: f64) -> f64;
    #[link_name = "station_air_water_vapor_mole_fraction_uncapped"]
    pub safe fn water_vapor_mole_fraction_uncapped(
        temperature_c: f64,
        pressure_hpa: f64,
        humidity_percent: f64,
    ) -> f64;
    #[link_name = "station_air_calculate_air_density_cimp"]
    pub safe fn calculate_air_density_cimp(
        temperature_c: f64,
        pressure_hpa: f64,
        humidity_percent: f64,
    ) -> f64;
    #[link_name = "station_air_moist_speed_of_sound"]
    pub safe fn moist_speed_of_sound(
        temperature_k: f64,
        pressure_pa: f64,
        humidity_percent: f64,
    ) -> f64;
    #[link_name = "station_air_keeps_pressure"]
    pub safe fn keeps_pressure(pressure_hpa: f64, altitude_m: f64) -> bool;
    #[link_name = "station_air_keeps_temperature"]
    pub safe fn keeps_temperature(temperature_c: f64, altitude_m: f64) -> bool;
    #[link_name = "station_air_reduced_qnh"]
    pub safe fn reduced_qnh(qnh_hpa: f64, altitude_m: f64) -> f64;
    #[link_name = "station_air_nws_pressure_altitude_ft"]
    pub safe fn nws_pressure_altitude_ft(pressure_hpa: f64) -> f64;
    #[link_name = "station_air_pressure_altitude_m"]
    pub safe fn pressure_altitude_m(pressure_hpa: f64) -> f64;
    #[link_name = "station_air_faa_density_altitude_ft"]
    pub safe fn faa_density_altitude_ft(pressure_hpa: f64, temperature_f: f64) -> f64;
    #[link_name = "station_air_density_matched_altitude_m"]
    pub safe fn density_matched_altitude_m(
        temperature_c: f64,
        pressure_hpa: f64,
        humidity_percent: f64,
    ) -> f64;

    fn station_air_standard_atmosphere(altitude_m: f64, lent: *mut f64, places: usize) -> u32;
    fn station_air_calculate_atmosphere(
        altitude_m: f64,
        temperature_given: bool,
        temperature_c: f64,
        pressure_given: bool,
        pressure_hpa: f64,
        humidity_percent: f64,
        lent: *mut f64,
        places: usize,
    ) -> u32;
    fn station_air_for_density_altitude(
        density_altitude_m: f64,
        temperature_given: bool,
        temperature_c: f64,
        lent: *mut f64,
        places: usize,
    ) -> u32;
    fn station_air_resolve_atmosphere_for_density_altitude(
        density_altitude_m: f64,
        temperature_given: bool,
        temperature_c: f64,
        lent: *mut f64,
        places: usize,
    ) -> u32;
    fn station_air_station_pressure_plausibility(
        station_pressure_pa: f64,
        altitude_m: f64,
        lent: *mut f64,
        places: usize,
        implausible: &mut bool,
    ) -> u32;
    fn station_air_judge(
        record: *const u8,
        bytes: usize,
        lent: *mut f64,
        places: usize,
        in_range: &mut bool,
    ) -> u32;
    fn station_air_judge_strictly(
        record: *const u8,
        bytes: usize,
        lent: *mut f64,
        places: usize,
        in_range: &mut bool,
    ) -> u32;
    fn station_air_write(
        forms: *const u8,
        forms_places: usize,
        values: *const f64,
        values_places: usize,
        counts: *const i32,
        counts_places: usize,
        out: *mut u8,
        room: usize,
        length: &mut usize,
    ) -> u32;
    fn station_air_to_counts(
        record: *const u8,
        bytes: usize,
        out: *mut u8,
        room: usize,
        length: &mut usize,
    ) -> u32;
    fn station_air_to_doubles(
        record: *const u8,
        bytes: usize,
        out: *mut u8,
        room: usize,
        length: &mut usize,
    ) -> u32;
    fn station_air_load_record(number: u64, out: *mut u8, room: usize, length: &mut usize) -> u32;
    fn station_air_vote(
        first: *const u8,
        first_bytes: usize,
        second: *const u8,
        second_bytes: usize,
        third: *const u8,
        third_bytes: usize,
        lent: *mut f64,
        places: usize,
        in_range: &mut bool,
        mast: &mut u32,
    ) -> u32;
    fn station_air_next_trim_class(
        record: *const u8,
        bytes: usize,
        lent: *mut f64,
        places: usize,
        answer: *mut i32,
        answer_places: usize,
    ) -> u32;
    fn station_air_setting_sheet(
        altitude_m: f64,
        pressure_hpa: f64,
        humidity_percent: f64,
        page: *mut u8,
        bytes: usize,
        lent: *mut f64,
        places: usize,
    ) -> u32;
}

/// A value that is not given. No answer depends on it.
const NOT_GIVEN: f64 = 12345.678;

pub fn standard_atmosphere(altitude_m: f64, lent: &mut [f64]) -> u32 {
    unsafe { station_air_standard_atmosphere(altitude_m, lent.as_mut_ptr(), lent.len()) }
}

pub fn calculate_atmosphere(
    altitude_m: f64,
    temperature_c: Option<f64>,
    pressure_hpa: Option<f64>,
    humidity_percent: f64,
    lent: &mut [f64],
) -> u32 {
    unsafe {
        station_air_calculate_atmosphere(
            altitude_m,
            temperature_c.is_some(),
            temperature_c.unwrap_or(NOT_GIVEN),
            pressure_hpa.is_some(),
            pressure_hpa.unwrap_or(NOT_GIVEN),
            humidity_percent,
            lent.as_mut_ptr(),
            lent.len(),
        )
    }
}

pub fn for_density_altitude(
    density_altitude_m: f64,
    temperature_c: Option<f64>,
    lent: &mut [f64],
) -> u32 {
    unsafe {
        station_air_for_density_altitude(
            density_altitude_m,
            temperature_c.is_some(),
            temperature_c.unwrap_or(NOT_GIVEN),
            lent.as_mut_ptr(),
            lent.len(),
        )
    }
}

pub fn resolve_atmosphere_for_density_altitude(
    density_altitude_m: f64,
    temperature_c: Option<f64>,
    lent: &mut [f64],
) -> u32 {
    unsafe {
        station_air_resolve_atmosphere_for_density_altitude(
            density_altitude_m,
            temperature_c.is_some(),
            temperature_c.unwrap_or(NOT_GIVEN),
            lent.as_mut_ptr(),
            lent.len(),
        )
    }
}

pub fn station_pressure_plausibility(
    station_pressure_pa: f64,
    altitude_m: f64,
    lent: &mut [f64],
    implausible: &mut bool,
) -> u32 {
    let (places, lent) = (lent.len(), lent.as_mut_ptr());
    unsafe {
        station_air_station_pressure_plausibility(
            station_pressure_pa,
            altitude_m,
            lent,
            places,
            implausible,
        )
    }
}

pub fn judge(record: &[u8], lent: &mut [f64], in_range: &mut bool) -> u32 {
    let (places, lent) = (lent.len(), lent.as_mut_ptr());
    unsafe { station_air_judge(record.as_ptr(), record.len(), lent, places, in_range) }
}

pub fn judge_strictly(record: &[u8], lent: &mut [f64], in_range: &mut bool) -> u32 {
    let (places, lent) = (lent.len(), lent.as_mut_ptr());
    unsafe { station_air_judge_strictly(record.as_ptr(), record.len(), lent, places, in_range) }
}

/// The three arrays are by meaning.
pub fn write(
    forms: &[u8],
    values: &[f64],
    counts: &[i32],
    out: &mut [u8],
    length: &mut usize,
) -> u32 {
    unsafe {
        station_air_write(
            forms.as_ptr(),
            forms.len(),
            values.as_ptr(),
            values.len(),
            counts.as_ptr(),
            counts.len(),
            out.as_mut_ptr(),
            out.len(),
            length,
        )
    }
}

pub fn to_counts(record: &[u8], out: &mut [u8], length: &mut usize) -> u32 {
    let (room, out) = (out.len(), out.as_mut_ptr());
    unsafe { station_air_to_counts(record.as_ptr(), record.len(), out, room, length) }
}

pub fn to_doubles(record: &[u8], out: &mut [u8], length: &mut usize) -> u32 {
    let (room, out) = (out.len(), out.as_mut_ptr());
    unsafe { station_air_to_doubles(record.as_ptr(), record.len(), out, room, length) }
}

pub fn load_record(number: u64, out: &mut [u8], length: &mut usize) -> u32 {
    unsafe { station_air_load_record(number, out.as_mut_ptr(), out.len(), length) }
}

pub fn setting_sheet(
    altitude_m: f64,
    pressure_hpa: f64,
    humidity_percent: f64,
    page: &mut [u8],
    lent: &mut [f64],
) -> u32 {
    unsafe {
        station_air_setting_sheet(
            altitude_m,
            pressure_hpa,
            humidity_percent,
            page.as_mut_ptr(),
            page.len(),
            lent.as_mut_ptr(),
            lent.len(),
        )
    }
}

pub fn vote(
    [first, second, third]: &[Vec<u8>; 3],
    lent: &mut [f64],
    in_range: &mut bool,
    mast: &mut u32,
) -> u32 {
    unsafe {
        station_air_vote(
            first.as_ptr(),
            first.len(),
            second.as_ptr(),
            second.len(),
            third.as_ptr(),
            third.len(),
            lent.as_mut_ptr(),
            lent.len(),
            in_range,
            mast,
        )
    }
}

/// The doubles are a refusal's values, the whole numbers the answer.
pub fn next_trim_class(record: &[u8], lent: &mut [f64], answer: &mut [i32]) -> u32 {
    unsafe {
        station_air_next_trim_class(
            record.as_ptr(),
            record.len(),
            lent.as_mut_ptr(),
            lent.len(),
            answer.as_mut_ptr(),
            answer.len(),
        )
    }
}
