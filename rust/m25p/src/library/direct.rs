//! The calls where libm25p.a is linked.

extern "C" {
    fn m25p_deliver(
        record: *mut u8,
        record_len: usize,
        part: u32,
        array: *mut u8,
        array_len: usize,
        program: u32,
        sector_erase: u32,
        bulk_erase: u32,
        write_status: u32,
    ) -> u64;
    fn m25p_transact(
        record: *mut u8,
        record_len: usize,
        array: *mut u8,
        array_len: usize,
        sent: *const u8,
        sent_len: usize,
        pulses: u32,
        w: u32,
        response: *mut u8,
        response_len: usize,
    ) -> u64;
    fn m25p_wait(
        record: *mut u8,
        record_len: usize,
        array: *mut u8,
        array_len: usize,
        ticks: u32,
    ) -> u64;
    fn m25p_power_up(record: *mut u8, record_len: usize, array: *mut u8, array_len: usize) -> u64;
    fn m25p_loss(
        record: *mut u8,
        record_len: usize,
        array: *mut u8,
        array_len: usize,
        mask: *const u8,
        mask_len: usize,
        yes: u32,
    ) -> u64;
    fn m25p_pins(
        record: *mut u8,
        record_len: usize,
        array: *mut u8,
        array_len: usize,
        samples: *const u8,
        samples_len: usize,
        output: *mut u8,
        output_len: usize,
    ) -> u64;
    fn m25p_batch(
        record: *mut u8,
        record_len: usize,
        array: *mut u8,
        array_len: usize,
        items: *const u8,
        items_len: usize,
        responses: *mut u8,
        responses_len: usize,
        answers: *mut u8,
        answers_len: usize,
        missing: *mut u8,
        missing_len: usize,
    ) -> u64;
    fn m25p_report(
        record: *mut u8,
        record_len: usize,
        array: *mut u8,
        array_len: usize,
        items: *const u8,
        items_len: usize,
        responses: *mut u8,
        responses_len: usize,
        answers: *mut u8,
        answers_len: usize,
        totals: *mut u8,
        totals_len: usize,
    ) -> u64;
    fn m25p_image_write(
        part: u32,
        array: *const u8,
        array_len: usize,
        image: *mut u8,
        image_len: usize,
    ) -> u64;
    fn m25p_image_read(
        part: u32,
        image: *const u8,
        image_len: usize,
        array: *mut u8,
        array_len: usize,
    ) -> u64;
    fn m25p_image_salvage(
        part: u32,
        image: *mut u8,
        image_len: usize,
        list: *mut u8,
        list_len: usize,
    ) -> u64;
    fn m25p_bus_transact(
        row: *mut u8,
        row_len: usize,
        array: *mut u8,
        array_len: usize,
        chip: u32,
        sent: *const u8,
        sent_len: usize,
        pulses: u32,
        w: u32,
        response: *mut u8,
        response_len: usize,
    ) -> u64;
    fn m25p_bus_wait(
        row: *mut u8,
        row_len: usize,
        array: *mut u8,
        array_len: usize,
        ticks: u32,
    ) -> u64;
}

/// Bytes that a call is lent without a copy: any bytes are.
pub type Held = Vec<u8>;

// The functions below lend slices to the calls. Rust slices never overlap here, their memory is there
// for their whole length, and the pointer of an empty one is not null.

pub fn deliver(record: &mut [u8], part: u32, array: &mut [u8], durations: [u32; 4]) -> u64 {
    let [program, sector_erase, bulk_erase, write_status] = durations;
    unsafe {
        m25p_deliver(
            record.as_mut_ptr(),
            record.len(),
            part,
            array.as_mut_ptr(),
            array.len(),
            program,
            sector_erase,
            bulk_erase,
            write_status,
        )
    }
}

pub fn transact(
    record: &mut [u8],
    array: &mut [u8],
    sent: &[u8],
    pulses: u32,
    w: u32,
    response: &mut [u8],
) -> u64 {
    unsafe {
        m25p_transact(
            record.as_mut_ptr(),
            record.len(),
            array.as_mut_ptr(),
            array.len(),
            sent.as_ptr(),
            sent.len(),
            pulses,
            w,
            response.as_mut_ptr(),
            response.len(),
        )
    }
}

pub fn wait(record: &mut [u8], array: &mut [u8], ticks: u32) -> u64 {
    unsafe { m25p_wait(record.as_mut_ptr(), record.len(), array.as_mut_ptr(), array.len(), ticks) }
}

pub fn power_up(record: &mut [u8], array: &mut [u8]) -> u64 {
    unsafe { m25p_power_up(record.as_mut_ptr(), record.len(), array.as_mut_ptr(), array.len()) }
}

pub fn loss(record: &mut [u8], array: &mut [u8], mask: &[u8], yes: u32) -> u64 {
    unsafe {
        m25p_loss(
            record.as_mut_ptr(),
            record.len(),
            array.as_mut_ptr(),
            array.len(),
            mask.as_ptr(),
            mask.len(),
            yes,
        )
    }
}

pub fn pins(record: &mut [u8], array: &mut [u8], samples: &[u8], output: &mut [u8]) -> u64 {
    unsafe {
        m25p_pins(
            record.as_mut_ptr(),
            record.len(),
            array.as_mut_ptr(),
            array.len(),
            samples.as_ptr(),
            samples.len(),
            output.as_mut_ptr(),
            output.len(),
        )
    }
}

pub fn batch(
    record: &mut [u8],
    array: &mut [u8],
    items: &[u8],
    responses: &mut [u8],
    answers: &mut [u8],
    missing: &mut [u8],
) -> u64 {
    unsafe {
        m25p_batch(
            record.as_mut_ptr(),
            record.len(),
            array.as_mut_ptr(),
            array.len(),
            items.as_ptr(),
            items.len(),
            responses.as_mut_ptr(),
            responses.len(),
            answers.as_mut_ptr(),
            answers.len(),
            missing.as_mut_ptr(),
            missing.len(),
        )
    }
}

pub fn report(
    record: &mut [u8],
    array: &mut [u8],
    items: &[u8],
    responses: &mut [u8],
    answers: &mut [u8],
    totals: &mut [u8],
) -> u64 {
    unsafe {
        m25p_report(
            record.as_mut_ptr(),
            record.len(),
            array.as_mut_ptr(),
            array.len(),
            items.as_ptr(),
            items.len(),
            responses.as_mut_ptr(),
            responses.len(),
            answers.as_mut_ptr(),
            answers.len(),
            totals.as_mut_ptr(),
            totals.len(),
        )
    }
}

pub fn image_write(part: u32, array: &[u8], image: &mut [u8]) -> u64 {
    unsafe { m25p_image_write(part, array.as_ptr(), array.len(), image.as_mut_ptr(), image.len()) }
}

pub fn image_read(part: u32, image: &[u8], array: &mut [u8]) -> u64 {
    unsafe { m25p_image_read(part, image.as_ptr(), image.len(), array.as_mut_ptr(), array.len()) }
}

pub fn image_salvage(part: u32, image: &mut [u8], list: &mut [u8]) -> u64 {
    unsafe {
        m25p_image_salvage(part, image.as_mut_ptr(), image.len(), list.as_mut_ptr(), list.len())
    }
}

pub fn bus_transact(
    row: &mut [u8],
    array: &mut [u8],
    chip: u32,
    sent: &[u8],
    pulses: u32,
    w: u32,
    response: &mut [u8],
) -> u64 {
    unsafe {
        m25p_bus_transact(
            row.as_mut_ptr(),
            row.len(),
            array.as_mut_ptr(),
            array.len(),
            chip,
            sent.as_ptr(),
            sent.len(),
            pulses,
            w,
            response.as_mut_ptr(),
            response.len(),
        )
    }
}

pub fn bus_wait(row: &mut [u8], array: &mut [u8], ticks: u32) -> u64 {
    unsafe { m25p_bus_wait(row.as_mut_ptr(), row.len(), array.as_mut_ptr(), array.len(), ticks) }
}
