// SPDX-License-Identifier: Apache-2.0
//! Paths, by requests and answers in JSON.

use crate::raw;
use std::error::Error;
use std::fmt;

/// Memory ran out while an answer was made.
#[derive(Clone, Copy, Debug, PartialEq, Eq)]
pub struct OutOfMemory;

impl fmt::Display for OutOfMemory {
    fn fmt(&self, f: &mut fmt::Formatter<'_>) -> fmt::Result {
        f.write_str("memory ran out")
    }
}

impl Error for OutOfMemory {}

/// The largest number of bytes in a request.
pub const MAX_REQUEST_LEN: usize = 4_194_304;

/// The answer to a request for paths, both objects of JSON (`bindings/README.md`). A request that
/// is refused is answered by its code and name.
///
/// # Errors
/// Memory ran out.
pub fn paths(request: &str) -> Result<String, OutOfMemory> {
    answered(raw::scion_paths, request)
}

/// The answer whether the path of a request may be sent, in the same way.
///
/// # Errors
/// Memory ran out.
pub fn verify(request: &str) -> Result<String, OutOfMemory> {
    answered(raw::scion_verify, request)
}

type Call = unsafe extern "C" fn(*const u8, usize, *mut u8, usize) -> raw::Text;

/// The room for the first try.
const ROOM: usize = 4096;

fn answered(call: Call, request: &str) -> Result<String, OutOfMemory> {
    let mut room = vec![0; ROOM];
    loop {
        // SAFETY: the request lives, and the room lies apart from it.
        let given = unsafe {
            call(
                request.as_ptr(),
                request.len(),
                room.as_mut_ptr(),
                room.len(),
            )
        };
        match given.status {
            raw::SCION_WRITTEN => {
                room.truncate(given.len);
                return Ok(String::from_utf8(room).expect("an answer is JSON"));
            }
            raw::SCION_ROOM_TOO_SMALL => room.resize(given.len, 0),
            _ => return Err(OutOfMemory),
        }
    }
}
