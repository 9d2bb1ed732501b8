
// Added by tests/oracle after the unchanged text: ways to the private functions.

pub fn private_build_prelogin_response_with_options(
    supports_encryption: bool,
    supports_fedauth: bool,
) -> BytesMut {
    build_prelogin_response_with_options(supports_encryption, supports_fedauth)
}

pub fn private_build_fedauth_info_token(sts_url: &str, spn: &str) -> BytesMut {
    build_fedauth_info_token(sts_url, spn)
}
