//! The two boot locks in words. Both are in one number, three bits for each.

const FIELDS: u32 = 0x3F;

fn fields(dword: u32) -> (u32, u32) {
    (dword & 7, dword >> 3 & 7)
}

/// What a Set Features asks for.
pub fn asked(dword: u32) -> String {
    let wishes = match fields(dword) {
        (0, 0) => "leave both boot partitions as they are".to_string(),
        (a, b) if a == b => wish(a, "both boot partitions"),
        (a, b) => format!("{} and {}", wish(a, "boot partition 0"), wish(b, "boot partition 1")),
    };
    if dword & !FIELDS == 0 {
        wishes
    } else {
        format!("{wishes}, with bits set that mean nothing")
    }
}

fn wish(field: u32, which: &str) -> String {
    match field {
        0 => format!("leave {which} as it is"),
        1 => format!("unlock {which}"),
        2 => format!("lock {which}"),
        3 => format!("lock {which} until the power cycles"),
        _ => format!("bring {which} into the unknown state {field}"),
    }
}

/// What a Get Features told.
pub fn told(dword: u32) -> String {
    match fields(dword) {
        (a, b) if a == b => format!("both boot partitions are {}", state(a)),
        (a, b) => format!("boot partition 0 is {}, boot partition 1 is {}", state(a), state(b)),
    }
}

fn state(field: u32) -> &'static str {
    match field {
        1 => "unlocked",
        2 => "locked",
        3 => "locked until the power cycles",
        _ => "in a state that there is not",
    }
}
