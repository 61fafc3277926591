// Stands after the last line of rdef.rs, in its module, so that its private functions can be called.

/// The parsing part of `parse_rdef` alone: its body up to, but without, the writing of the canonical form.
#[must_use]
pub fn parse_only(data: &[u8]) -> Option<ResourceDef<'_>> {
    if data.len() < 28 {
        return None;
    }

    let cb_count = usize::try_from(read_u32(data, 0)?).ok()?;
    let cb_offset = usize::try_from(read_u32(data, 4)?).ok()?;
    let binding_count = usize::try_from(read_u32(data, 8)?).ok()?;
    let binding_offset = usize::try_from(read_u32(data, 12)?).ok()?;
    let target_version = read_u32(data, 16)?;
    let compile_flags = read_u32(data, 20)?;

    let major_version = (target_version >> 8) & 0xFF;
    let is_sm5 = major_version == 5;
    if !matches!(major_version, 4 | 5) {
        return None;
    }

    let creator_off = usize::try_from(read_u32(data, 24)?).ok()?;
    let creator = Cow::Borrowed(read_cstring_checked(data, creator_off)?);

    let rd11 = if is_sm5 {
        if data.len() < 60 {
            return None;
        }
        let mut words = [0u32; 8];
        for (index, word) in words.iter_mut().enumerate() {
            *word = read_u32(data, 28 + index * 4)?;
        }
        let header = Rd11Header::from_words(words);
        if !matches!(header.identifier, 0x3131_4452 | 0x2544_1313)
            || header.header_size != 60
            || header.constant_buffer_stride != 24
            || !matches!(header.resource_binding_stride, 32 | 40)
            || header.variable_stride != 40
            || header.type_stride != 36
            || header.member_stride != 12
        {
            return None;
        }
        Some(header)
    } else {
        None
    };

    let layout = match rd11 {
        None => RdefLayout {
            constant_buffer_stride: 24,
            resource_binding_stride: 32,
            variable_stride: 24,
            type_stride: 16,
            member_stride: 12,
            is_sm5: false,
        },
        Some(header) => RdefLayout {
            constant_buffer_stride: usize::try_from(header.constant_buffer_stride).ok()?,
            resource_binding_stride: usize::try_from(header.resource_binding_stride).ok()?,
            variable_stride: usize::try_from(header.variable_stride).ok()?,
            type_stride: usize::try_from(header.type_stride).ok()?,
            member_stride: usize::try_from(header.member_stride).ok()?,
            is_sm5: true,
        },
    };

    let bindings = parse_bindings(data, binding_count, binding_offset, layout.resource_binding_stride)?;
    let constant_buffers = parse_constant_buffers(data, cb_count, cb_offset, layout)?;

    Some(ResourceDef {
        constant_buffers,
        bindings,
        creator,
        target_version,
        compile_flags,
        rd11,
        original_data: None,
        original_canonical: None,
    })
}
