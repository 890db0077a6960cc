//! A second frame reader and writer, written from document 01 ("Frames" and "Refusal table") and
//! not from the library, to compare the library with.

/// The numbers of one frame. A field that the map lacks is 0 when read and ignored when written.
#[derive(Clone, Copy, Debug, Default, PartialEq, Eq)]
pub struct Fields {
    pub map: u32,
    pub station: u32,
    pub number: u32,
    pub point: u32,
    pub action: u32,
    pub value: u32,
    pub refusal: u32,
}

/// The refusals that frames can give, with their numbers in the refusal table.
#[derive(Clone, Copy, Debug, PartialEq, Eq)]
pub enum Refusal {
    Address = 2,
    Length = 8,
    Map = 9,
    Station = 10,
    Turn = 11,
    Code = 13,
    Short = 14,
}

/// The frame that fills `bytes`.
pub fn read(bytes: &[u8]) -> Result<Fields, Refusal> {
    let (&map, body) = bytes.split_first().ok_or(Refusal::Length)?;
    let fields = Fields {
        map: map.into(),
        ..Fields::default()
    };
    match map {
        0x04 => {
            let &[p0, p1, p2, p3] = exactly(body)?;
            Ok(Fields {
                point: point(u32::from_be_bytes([p0, p1, p2, p3]))?,
                ..fields
            })
        }
        0x0F => {
            let &[s, n0, n1, n2, p0, p1, p2, p3, a] = exactly(body)?;
            Ok(Fields {
                station: station(s.into())?,
                number: number(u32::from_be_bytes([0, n0, n1, n2]))?,
                point: point(u32::from_be_bytes([p0, p1, p2, p3]))?,
                action: action(a.into())?,
                ..fields
            })
        }
        0x14 => {
            let &[p0, p1, p2, p3, v0, v1, v2, v3] = exactly(body)?;
            Ok(Fields {
                point: point(u32::from_be_bytes([p0, p1, p2, p3]))?,
                value: u32::from_be_bytes([v0, v1, v2, v3]),
                ..fields
            })
        }
        0x17 => {
            let &[s, n0, n1, n2, p0, p1, p2, p3, v0, v1, v2, v3] = exactly(body)?;
            Ok(Fields {
                station: station(s.into())?,
                number: number(u32::from_be_bytes([0, n0, n1, n2]))?,
                point: point(u32::from_be_bytes([p0, p1, p2, p3]))?,
                value: u32::from_be_bytes([v0, v1, v2, v3]),
                ..fields
            })
        }
        0x24 => {
            let &[p0, p1, p2, p3, r] = exactly(body)?;
            Ok(Fields {
                point: point(u32::from_be_bytes([p0, p1, p2, p3]))?,
                refusal: refusal(r.into())?,
                ..fields
            })
        }
        0x27 => {
            let &[s, n0, n1, n2, p0, p1, p2, p3, r] = exactly(body)?;
            Ok(Fields {
                station: station(s.into())?,
                number: number(u32::from_be_bytes([0, n0, n1, n2]))?,
                point: point(u32::from_be_bytes([p0, p1, p2, p3]))?,
                refusal: refusal(r.into())?,
                ..fields
            })
        }
        _ => Err(Refusal::Map),
    }
}

/// Writes the frame of `fields` to the start of `buffer` and gives its length.
pub fn write(buffer: &mut [u8], fields: &Fields) -> Result<u32, Refusal> {
    match fields.map {
        0x04 => {
            let [p0, p1, p2, p3] = point(fields.point)?.to_be_bytes();
            store(buffer, [0x04, p0, p1, p2, p3])
        }
        0x0F => {
            let [.., s] = station(fields.station)?.to_be_bytes();
            let [_, n0, n1, n2] = number(fields.number)?.to_be_bytes();
            let [p0, p1, p2, p3] = point(fields.point)?.to_be_bytes();
            let [.., a] = action(fields.action)?.to_be_bytes();
            store(buffer, [0x0F, s, n0, n1, n2, p0, p1, p2, p3, a])
        }
        0x14 => {
            let [p0, p1, p2, p3] = point(fields.point)?.to_be_bytes();
            let [v0, v1, v2, v3] = fields.value.to_be_bytes();
            store(buffer, [0x14, p0, p1, p2, p3, v0, v1, v2, v3])
        }
        0x17 => {
            let [.., s] = station(fields.station)?.to_be_bytes();
            let [_, n0, n1, n2] = number(fields.number)?.to_be_bytes();
            let [p0, p1, p2, p3] = point(fields.point)?.to_be_bytes();
            let [v0, v1, v2, v3] = fields.value.to_be_bytes();
            let frame = [0x17, s, n0, n1, n2, p0, p1, p2, p3, v0, v1, v2, v3];
            store(buffer, frame)
        }
        0x24 => {
            let [p0, p1, p2, p3] = point(fields.point)?.to_be_bytes();
            let [.., r] = refusal(fields.refusal)?.to_be_bytes();
            store(buffer, [0x24, p0, p1, p2, p3, r])
        }
        0x27 => {
            let [.., s] = station(fields.station)?.to_be_bytes();
            let [_, n0, n1, n2] = number(fields.number)?.to_be_bytes();
            let [p0, p1, p2, p3] = point(fields.point)?.to_be_bytes();
            let [.., r] = refusal(fields.refusal)?.to_be_bytes();
            store(buffer, [0x27, s, n0, n1, n2, p0, p1, p2, p3, r])
        }
        _ => Err(Refusal::Map),
    }
}

/// The body of a frame whose map asks for `N` bytes behind it.
fn exactly<const N: usize>(body: &[u8]) -> Result<&[u8; N], Refusal> {
    body.try_into().map_err(|_| Refusal::Length)
}

fn store<const N: usize>(buffer: &mut [u8], frame: [u8; N]) -> Result<u32, Refusal> {
    let room = buffer.get_mut(..N).ok_or(Refusal::Short)?;
    room.copy_from_slice(&frame);
    Ok(N as u32)
}

fn station(number: u32) -> Result<u32, Refusal> {
    within(number, 1, 32, Refusal::Station)
}

fn number(number: u32) -> Result<u32, Refusal> {
    within(number, 1, 16_777_215, Refusal::Turn)
}

fn point(number: u32) -> Result<u32, Refusal> {
    within(number, 1, 2_147_483_646, Refusal::Address)
}

fn action(number: u32) -> Result<u32, Refusal> {
    within(number, 0, 2, Refusal::Code)
}

fn refusal(number: u32) -> Result<u32, Refusal> {
    within(number, 1, 14, Refusal::Code)
}

fn within(number: u32, low: u32, high: u32, refusal: Refusal) -> Result<u32, Refusal> {
    if (low..=high).contains(&number) {
        Ok(number)
    } else {
        Err(refusal)
    }
}
