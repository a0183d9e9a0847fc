// The reader's question for C, written by hand in Rust, to compare with.

fn is_fan(bytes: &[u8]) -> bool {
    matches!(bytes[0], 0x00 | 0x01 | 0x02 | 0x80)
}

fn is_supply(bytes: &[u8]) -> bool {
    matches!(bytes[0], 0x00 | 0x01 | 0x10 | 0x11 | 0x20 | 0x21 | 0x80)
}

fn is_slot(bytes: &[u8]) -> bool {
    let both_rebuild = bytes[0] & 0x04 != 0 && bytes[1] & 0x02 != 0;
    !both_rebuild && bytes[1] & 0xfc == 0 && bytes[2] == 0 && (2..=5).contains(&bytes[3])
}

fn any(_: &[u8]) -> bool {
    true
}

fn in_run<'a>(
    page: &'a [u8],
    start: usize,
    count: usize,
    width: usize,
    number: usize,
    is_part: impl Fn(&[u8]) -> bool,
) -> Result<(usize, &'a [u8]), u32> {
    if page.len() < start + count * width {
        return Err(8);
    }
    if number >= count {
        return Err(9);
    }
    let place = start + number * width;
    let bytes = &page[place..place + width];
    if is_part(bytes) { Ok((place, bytes)) } else { Err(10) }
}

fn read_part<'a>(
    config: &[u8],
    page: &'a [u8],
    run: u32,
    number: usize,
) -> Result<(usize, &'a [u8]), u32> {
    if config.len() < 64 {
        return Err(7);
    }
    let fans = config[0] as usize;
    let supplies = config[1] as usize;
    let slots = config[2] as usize;
    let sensors = config[4] as usize;
    let thermostats = config[6] as usize;
    if fans > 16 || supplies > 8 || slots == 0 || slots > 14 || sensors > 15 || thermostats > 15 {
        return Err(7);
    }
    match run {
        0 => in_run(page, 0, fans, 1, number, is_fan),
        1 => in_run(page, fans, supplies, 1, number, is_supply),
        2 => in_run(page, fans + supplies, slots, 1, number, any),
        3 => in_run(page, fans + supplies + slots + 2, sensors, 1, number, any),
        4 => in_run(page, 0, slots, 4, number, is_slot),
        5 => in_run(page, 0, slots, 2, number, any),
        _ => Err(9),
    }
}

// A null pointer may come with length 0, as it may to the proved call.
unsafe fn slice<'a>(pointer: *const u8, length: usize) -> &'a [u8] {
    if pointer.is_null() {
        return &[];
    }
    unsafe { std::slice::from_raw_parts(pointer, length) }
}

unsafe fn slice_mut<'a>(pointer: *mut u8, length: usize) -> &'a mut [u8] {
    if pointer.is_null() {
        return &mut [];
    }
    unsafe { std::slice::from_raw_parts_mut(pointer, length) }
}

#[unsafe(no_mangle)]
pub unsafe extern "C" fn hand_part(
    config: *const u8,
    config_length: usize,
    page: *const u8,
    page_length: usize,
    run: u32,
    number: u32,
    out: *mut u8,
    out_length: usize,
    place: &mut u32,
    width: &mut u32,
) -> u32 {
    let (config, page, out) = unsafe {
        (slice(config, config_length), slice(page, page_length), slice_mut(out, out_length))
    };
    match read_part(config, page, run, number as usize) {
        Ok((at, bytes)) => {
            if out.len() < bytes.len() {
                return 100;
            }
            out[..bytes.len()].copy_from_slice(bytes);
            *place = at as u32;
            *width = bytes.len() as u32;
            0
        }
        Err(fault) => fault,
    }
}

#[unsafe(no_mangle)]
pub unsafe extern "C" fn hand_place(
    config: *const u8,
    config_length: usize,
    page: *const u8,
    page_length: usize,
    run: u32,
    number: u32,
    place: &mut u32,
    width: &mut u32,
) -> u32 {
    let (config, page) = unsafe { (slice(config, config_length), slice(page, page_length)) };
    match read_part(config, page, run, number as usize) {
        Ok((at, bytes)) => {
            *place = at as u32;
            *width = bytes.len() as u32;
            0
        }
        Err(fault) => fault,
    }
}
