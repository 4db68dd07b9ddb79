//! What a host finds as the numbers of the C interface: `enum tuffaleen_discovery_field`.

use model::discovery::{Fields, Found, Header, KeyPerIo, Tper};

pub const PLACES: usize = 72;

/// Of an absent feature each place is 0, as of one in which nothing is set.
pub fn places(found: &Found) -> [u32; PLACES] {
    let mut places = header(&found.header);
    places.push(found.tper.is_some().into());
    places.extend(tper(&found.tper.clone().unwrap_or_default()));
    places.push(found.key_per_io.is_some().into());
    places.extend(capabilities(&found.key_per_io.clone().unwrap_or_default()));
    places.extend(keys(&found.key_per_io.clone().unwrap_or_default()));
    places.try_into().expect("as many places as the header has")
}

/// The places of fields that were written.
pub fn places_of(fields: &Fields) -> [u32; PLACES] {
    let Fields { header, tper, key_per_io } = fields.clone();
    places(&Found { header, tper: Some(tper), key_per_io: Some(key_per_io) })
}

fn header(of: &Header) -> Vec<u32> {
    let mut places = vec![of.revision];
    places.extend(of.vendor_specific.map(u32::from));
    places
}

fn tper(of: &Tper) -> [u32; 7] {
    [
        of.version.into(),
        of.com_id_mgmt.into(),
        of.streaming.into(),
        of.buffer_mgmt.into(),
        of.ack_nack.into(),
        of.async_.into(),
        of.sync.into(),
    ]
}

fn capabilities(of: &KeyPerIo) -> [u32; 16] {
    [
        of.version.into(),
        of.ssc_minor_version.into(),
        of.protocol_01_base_com_id.into(),
        of.protocol_01_com_ids.into(),
        of.protocol_03_base_com_id.into(),
        of.protocol_03_com_ids.into(),
        of.initial_pin.into(),
        of.pin_on_revert.into(),
        of.admin_authorities.into(),
        of.replay_protection_enabled.into(),
        of.replay_protection_supported.into(),
        of.incorrect_key_detection.into(),
        of.shared_tweak_key_required.into(),
        of.scope.into(),
        of.enabled.into(),
        of.max_key_uid_length.into(),
    ]
}

fn keys(of: &KeyPerIo) -> [u32; 14] {
    [
        of.kmip.into(),
        of.rsa_oaep.into(),
        of.aes_gcm.into(),
        of.aes_kw.into(),
        of.aes_256_wrapping_key.into(),
        of.rsa_4k_wrapping_key.into(),
        of.rsa_3k_wrapping_key.into(),
        of.rsa_2k_wrapping_key.into(),
        of.pki_kek_transport.into(),
        of.plaintext_kek_provisioning.into(),
        of.key_encryption_keys,
        of.key_tags,
        of.key_tags_per_namespace.into(),
        of.nonce_length.into(),
    ]
}
