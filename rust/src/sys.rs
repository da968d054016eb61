//! The functions of include/station_air.h and include/station_air_rules.h, which say what each answers.

extern "C" {
    pub fn station_air_judge(
        record: *const u8,
        record_length: usize,
        places: *mut f64,
        places_length: usize,
        in_range: *mut bool,
    ) -> u32;
    pub fn station_air_judge_strictly(
        record: *const u8,
        record_length: usize,
        places: *mut f64,
        places_length: usize,
        in_range: *mut bool,
    ) -> u32;
    pub fn station_air_vote(
        first: *const u8,
        first_length: usize,
        second: *const u8,
        second_length: usize,
        third: *const u8,
        third_length: usize,
        places: *mut f64,
        places_length: usize,
        in_range: *mut bool,
        mast: *mut u32,
    ) -> u32;
    pub fn station_air_next_trim_class(
        record: *const u8,
        record_length: usize,
        places: *mut f64,
        places_length: usize,
        answer: *mut i32,
        answer_length: usize,
    ) -> u32;
    pub fn station_air_write(
        forms: *const u8,
        forms_length: usize,
        values: *const f64,
        values_length: usize,
        counts: *const i32,
        counts_length: usize,
        out: *mut u8,
        out_length: usize,
        length: *mut usize,
    ) -> u32;
    pub fn station_air_to_counts(
        record: *const u8,
        record_length: usize,
        out: *mut u8,
        out_length: usize,
        length: *mut usize,
    ) -> u32;
    pub fn station_air_to_doubles(
        record: *const u8,
        record_length: usize,
        out: *mut u8,
        out_length: usize,
        length: *mut usize,
    ) -> u32;
    pub fn station_air_load_record(
        number: u64,
        out: *mut u8,
        out_length: usize,
        length: *mut usize,
    ) -> u32;
    pub fn station_air_setting_sheet(
        altitude_m: f64,
        pressure_hpa: f64,
        humidity_percent: f64,
        page: *mut u8,
        page_length: usize,
        places: *mut f64,
        places_length: usize,
    ) -> u32;
    pub fn station_air_report(
        record: *const u8,
        record_length: usize,
        page: *mut u8,
        page_length: usize,
        length: *mut usize,
    ) -> u32;
    pub fn station_air_refusal_words(
        number: u32,
        page: *mut u8,
        page_length: usize,
        length: *mut usize,
    ) -> u32;
    pub fn station_air_for_density_altitude(
        density_altitude_m: f64,
        temperature_given: bool,
        temperature_c: f64,
        places: *mut f64,
        places_length: usize,
    ) -> u32;
    pub fn station_air_standard_atmosphere(
        altitude_m: f64,
        places: *mut f64,
        places_length: usize,
    ) -> u32;
    pub fn station_air_calculate_atmosphere(
        altitude_m: f64,
        temperature_given: bool,
        temperature_c: f64,
        pressure_given: bool,
        pressure_hpa: f64,
        humidity_percent: f64,
        places: *mut f64,
        places_length: usize,
    ) -> u32;
    pub fn station_air_keeps_pressure(pressure_hpa: f64, altitude_m: f64) -> bool;
    pub fn station_air_keeps_temperature(temperature_c: f64, altitude_m: f64) -> bool;
    pub fn station_air_reduced_qnh(qnh_hpa: f64, altitude_m: f64) -> f64;
    pub fn station_air_water_vapor_mole_fraction_uncapped(
        temperature_c: f64,
        pressure_hpa: f64,
        humidity_percent: f64,
    ) -> f64;
    pub fn station_air_nws_pressure_altitude_ft(pressure_hpa: f64) -> f64;
    pub fn station_air_pressure_altitude_m(pressure_hpa: f64) -> f64;
    pub fn station_air_faa_density_altitude_ft(pressure_hpa: f64, temperature_f: f64) -> f64;
    pub fn station_air_density_matched_altitude_m(
        temperature_c: f64,
        pressure_hpa: f64,
        humidity_percent: f64,
    ) -> f64;
    pub fn station_air_exp(x: f64) -> f64;
    pub fn station_air_ln(x: f64) -> f64;
    pub fn station_air_sqrt(x: f64) -> f64;
    pub fn station_air_power(x: f64, number: usize) -> f64;
    pub fn station_air_log_word(
        x: f64,
        negative: *mut bool,
        whole: *mut u32,
        part: *mut u64,
    ) -> bool;
    pub fn station_air_antilog(negative: bool, whole: u32, part: u64) -> f64;
    pub fn station_air_version() -> u32;
    pub fn station_air_trim_class(density_kg_m3: f64) -> u32;
    pub fn station_air_read(
        record: *const u8,
        record_length: usize,
        forms: *mut u8,
        forms_length: usize,
        values: *mut f64,
        values_length: usize,
        counts: *mut i32,
        counts_length: usize,
    ) -> u32;
    pub fn station_air_read_strictly(
        record: *const u8,
        record_length: usize,
        forms: *mut u8,
        forms_length: usize,
        values: *mut f64,
        values_length: usize,
        counts: *mut i32,
        counts_length: usize,
    ) -> u32;
    pub fn station_air_resolve_atmosphere_for_density_altitude(
        density_altitude_m: f64,
        temperature_given: bool,
        temperature_c: f64,
        places: *mut f64,
        places_length: usize,
    ) -> u32;
    pub fn station_air_station_pressure_plausibility(
        station_pressure_pa: f64,
        altitude_m: f64,
        places: *mut f64,
        places_length: usize,
        implausible: *mut bool,
    ) -> u32;
    pub fn station_air_calculate_air_density_cimp(
        temperature_c: f64,
        pressure_hpa: f64,
        humidity_percent: f64,
    ) -> f64;
    pub fn station_air_moist_speed_of_sound(
        temperature_k: f64,
        pressure_pa: f64,
        humidity_percent: f64,
    ) -> f64;
}
