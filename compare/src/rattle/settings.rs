//! The options from the maker's settings texts.
use shofrakin::sys as c;

/// The library's options from two settings texts, or the refusal.
pub fn settings(splice: &[u8], online_cmvn: &[u8]) -> Result<crate::settings::Fields, usize> {
    let a = unsafe { c::shofrakin_settings(splice.as_ptr(), splice.len(), online_cmvn.as_ptr(), online_cmvn.len()) };
    if a.refusal == 0 {
        return Ok(crate::settings::fields(&a.opts));
    }
    assert_eq!(a.opts.cmn_window, 0);
    Err(a.refusal)
}
