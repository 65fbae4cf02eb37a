// Q elements by document 02's rules, from a hop's bytes alone.

/// "The ten names are qAC, qAX, qAU, qAo, qAO, qAS, qAr, qAR, qAZ and qAI".
pub const NAMES: [&str; 10] = ["qAC", "qAX", "qAU", "qAo", "qAO", "qAS", "qAr", "qAR", "qAZ", "qAI"];

pub fn is_name(hop: &[u8]) -> bool {
    NAMES.iter().any(|name| name.as_bytes() == hop)
}

/// "6 stays for any other three bytes that start `qA`."
pub fn is_refused(hop: &[u8]) -> bool {
    hop.len() == 3 && hop.starts_with(b"qA") && !is_name(hop)
}
