/// Stands for the check of a signature. Opcode 25 is not compared, so this checks nothing: no signature is good.
pub fn msg_ecdsa_verify(
    _msg_hash: [u64; 4],
    _pubkey_x: [u64; 4],
    _pubkey_y: [u64; 4],
    _r: [u64; 4],
    _s: [u64; 4],
) -> anyhow::Result<bool> {
    Ok(false)
}
