//! Messages made by hand.

/// Its xid is no streamed transaction's.
pub fn begin() -> Vec<u8> {
    [b"B", &1u64.to_be_bytes()[..], &0u64.to_be_bytes(), &u32::MAX.to_be_bytes()].concat()
}

pub fn commit() -> Vec<u8> {
    [b"C\0", &1u64.to_be_bytes()[..], &2u64.to_be_bytes(), &0u64.to_be_bytes()].concat()
}

// the xid of a Relation and an Insert is empty outside a block

/// `behind` stands behind the OID.
pub fn relation(xid: &[u8], oid: u32, behind: &[u8]) -> Vec<u8> {
    [b"R", xid, &oid.to_be_bytes(), behind].concat()
}

/// What stands behind the OID of a table with one column.
pub const ONE_COLUMN: &[u8] = b"w\0t\0d\0\x01\x01id\0\0\0\0\x17\xff\xff\xff\xff";

/// Into a table with one column.
pub fn insert(xid: &[u8], oid: u32) -> Vec<u8> {
    [b"I", xid, &oid.to_be_bytes(), b"N\0\x01n"].concat()
}

pub fn stream_start(xid: &[u8], first: bool) -> Vec<u8> {
    [b"S", xid, &[first.into()]].concat()
}

pub fn stream_stop() -> Vec<u8> {
    b"E".to_vec()
}

pub fn stream_commit(xid: &[u8]) -> Vec<u8> {
    [b"c", xid, b"\0", &1u64.to_be_bytes(), &2u64.to_be_bytes(), &0u64.to_be_bytes()].concat()
}

/// Of the whole transaction where both are the same.
pub fn stream_abort(xid: &[u8], sub_xid: &[u8]) -> Vec<u8> {
    [b"A", xid, sub_xid].concat()
}

/// Outside a transaction and a block.
pub fn logical(lsn: u64, prefix: &[u8], content: &[u8]) -> Vec<u8> {
    [b"M\0", &lsn.to_be_bytes()[..], prefix, b"\0", &(content.len() as u32).to_be_bytes(), content].concat()
}
