// Doors to the private functions of the file that is included above this one.

pub fn ask_parse(control: &[u8]) -> Result<Vec<c_int>, Errno> {
    parse_scm_rights::<c_int>(control)
}

pub fn ask_capacity(controllen: usize) -> usize {
    scm_rights_capacity(controllen)
}

pub fn ask_encode(fds: &[c_int], control: &mut [u8]) -> usize {
    encode_scm_rights(fds, control)
}
