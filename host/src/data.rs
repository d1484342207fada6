//! Names for key types and data types.

/// The type of a table's keys.
#[derive(Clone, Copy, Debug, PartialEq, Eq, Hash)]
#[repr(u8)]
pub enum KeyType {
    /// A signed integer of 4 bytes.
    Integer = 2,
    /// An IPv4 address.
    Ipv4 = 4,
    /// An IPv6 address.
    Ipv6 = 5,
    /// A string.
    String = 6,
    /// Bytes.
    Binary = 7,
}

impl KeyType {
    /// All key types, ascending.
    pub const ALL: [KeyType; 5] = [
        KeyType::Integer,
        KeyType::Ipv4,
        KeyType::Ipv6,
        KeyType::String,
        KeyType::Binary,
    ];

    /// The number on the wire and in a table.
    pub const fn number(self) -> u8 {
        self as u8
    }

    /// The key type of a number, if there is one.
    pub fn of(number: u8) -> Option<KeyType> {
        KeyType::ALL.into_iter().find(|t| t.number() == number)
    }
}

/// What is counted in an entry.
#[derive(Clone, Copy, Debug, PartialEq, Eq, PartialOrd, Ord, Hash)]
#[repr(u8)]
pub enum DataType {
    /// The server that the key sticks to.
    ServerId = 0,
    /// General purpose tag 0.
    Gpt0 = 1,
    /// General purpose counter 0.
    Gpc0 = 2,
    /// The rate of general purpose counter 0.
    Gpc0Rate = 3,
    /// Connections.
    ConnCnt = 4,
    /// The rate of connections.
    ConnRate = 5,
    /// Current connections.
    ConnCur = 6,
    /// Sessions.
    SessCnt = 7,
    /// The rate of sessions.
    SessRate = 8,
    /// HTTP requests.
    HttpReqCnt = 9,
    /// The rate of HTTP requests.
    HttpReqRate = 10,
    /// HTTP errors.
    HttpErrCnt = 11,
    /// The rate of HTTP errors.
    HttpErrRate = 12,
    /// Bytes in.
    BytesInCnt = 13,
    /// The rate of bytes in.
    BytesInRate = 14,
    /// Bytes out.
    BytesOutCnt = 15,
    /// The rate of bytes out.
    BytesOutRate = 16,
    /// General purpose counter 1.
    Gpc1 = 17,
    /// The rate of general purpose counter 1.
    Gpc1Rate = 18,
}

/// What is fixed of a data type.
struct Fixed {
    name: &'static str,
    /// Its bit among a table's data types.
    bit: u32,
    /// The place of its first integer among an entry's values; the server ID has none there.
    slot: Option<usize>,
    /// The place of a rate's period among a table's periods.
    period: Option<usize>,
}

const fn counter(name: &'static str, bit: u32, slot: usize) -> Fixed {
    Fixed {
        name,
        bit,
        slot: Some(slot),
        period: None,
    }
}

const fn rate(name: &'static str, bit: u32, slot: usize, period: usize) -> Fixed {
    Fixed {
        period: Some(period),
        ..counter(name, bit, slot)
    }
}

/// By the data type's number.
const FIXED: [Fixed; 19] = [
    Fixed {
        name: "server_id",
        bit: 0x1,
        slot: None,
        period: None,
    },
    counter("gpt0", 0x2, 0),
    counter("gpc0", 0x4, 1),
    rate("gpc0_rate", 0x8, 2, 0),
    counter("conn_cnt", 0x10, 5),
    rate("conn_rate", 0x20, 6, 1),
    counter("conn_cur", 0x40, 9),
    counter("sess_cnt", 0x80, 10),
    rate("sess_rate", 0x100, 11, 2),
    counter("http_req_cnt", 0x200, 14),
    rate("http_req_rate", 0x400, 15, 3),
    counter("http_err_cnt", 0x800, 18),
    rate("http_err_rate", 0x1000, 19, 4),
    counter("bytes_in_cnt", 0x2000, 22),
    rate("bytes_in_rate", 0x4000, 23, 5),
    counter("bytes_out_cnt", 0x8000, 26),
    rate("bytes_out_rate", 0x1_0000, 27, 6),
    counter("gpc1", 0x2_0000, 30),
    rate("gpc1_rate", 0x4_0000, 31, 7),
];

impl DataType {
    /// All data types, ascending.
    pub const ALL: [DataType; 19] = [
        DataType::ServerId,
        DataType::Gpt0,
        DataType::Gpc0,
        DataType::Gpc0Rate,
        DataType::ConnCnt,
        DataType::ConnRate,
        DataType::ConnCur,
        DataType::SessCnt,
        DataType::SessRate,
        DataType::HttpReqCnt,
        DataType::HttpReqRate,
        DataType::HttpErrCnt,
        DataType::HttpErrRate,
        DataType::BytesInCnt,
        DataType::BytesInRate,
        DataType::BytesOutCnt,
        DataType::BytesOutRate,
        DataType::Gpc1,
        DataType::Gpc1Rate,
    ];

    /// The number on the wire, and the bit among a table's data types.
    pub const fn number(self) -> u8 {
        self as u8
    }

    /// The data type of a number, if there is one.
    pub fn of(number: u8) -> Option<DataType> {
        DataType::ALL.get(usize::from(number)).copied()
    }

    const fn fixed(self) -> &'static Fixed {
        &FIXED[self as usize]
    }

    /// That bit alone.
    pub(crate) const fn bit(self) -> u32 {
        self.fixed().bit
    }

    /// The name in HAProxy's configuration.
    pub const fn name(self) -> &'static str {
        self.fixed().name
    }

    /// Whether it is a rate.
    pub const fn is_rate(self) -> bool {
        self.fixed().period.is_some()
    }

    /// The place of a rate's period among a table's periods.
    pub(crate) const fn period_place(self) -> Option<usize> {
        self.fixed().period
    }

    /// The place of its first integer among an entry's values; the server ID has none there.
    pub(crate) const fn slot(self) -> Option<usize> {
        self.fixed().slot
    }
}
