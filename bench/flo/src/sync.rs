//! Sync headers, read and written.

#[derive(Clone, Copy, Debug, PartialEq, Eq)]
pub enum Kind {
    Video,
    Audio,
    TimedData,
    Adaptation,
}

const HAS_FRAME_ID: u8 = 0x04;
const HAS_TIMESTAMP: u8 = 0x08;
const RANDOM_ACCESS: u8 = 0x10;
const UNREFERENCED: u8 = 0x20;

#[derive(Clone, Copy, Debug, PartialEq, Eq)]
pub struct SyncHeader {
    pub kind: Kind,
    pub frame_id: Option<u8>,
    pub timestamp: Option<u32>,
    pub random_access: bool,
    pub unreferenced: bool,
}

impl SyncHeader {
    /// Questions 32 and 33.
    #[inline]
    fn check_flags(&self) -> Result<(), u8> {
        if self.frame_id.is_some() == (self.kind == Kind::Adaptation) {
            return Err(32);
        }
        let random_access_allowed = matches!(self.kind, Kind::Video | Kind::Audio);
        if self.random_access && !random_access_allowed || self.unreferenced && self.kind != Kind::Video {
            return Err(33);
        }
        Ok(())
    }

    /// Question 35.
    #[inline]
    fn check_frame_id(&self) -> Result<(), u8> {
        match (self.kind, self.frame_id) {
            (Kind::Video, Some(60..)) => Err(35),
            _ => Ok(()),
        }
    }

    /// Reads the header of a packet; gives it with the payload behind it, or the number of the question answered no.
    #[inline]
    pub fn read(packet: &[u8]) -> Result<(SyncHeader, &[u8]), u8> {
        let (&map, mut rest) = packet.split_first().ok_or(30)?;
        if map & 0xc0 != 0 {
            return Err(31);
        }
        let kind = match map & 3 {
            0 => Kind::Video,
            1 => Kind::Audio,
            2 => Kind::TimedData,
            _ => Kind::Adaptation,
        };
        let mut header = SyncHeader {
            kind,
            frame_id: (map & HAS_FRAME_ID != 0).then_some(0),
            timestamp: None,
            random_access: map & RANDOM_ACCESS != 0,
            unreferenced: map & UNREFERENCED != 0,
        };
        header.check_flags()?;
        if let Some(id) = &mut header.frame_id {
            let (&first, behind) = rest.split_first().ok_or(34)?;
            *id = first;
            rest = behind;
        }
        if map & HAS_TIMESTAMP != 0 {
            let (first, behind) = rest.split_first_chunk().ok_or(34)?;
            header.timestamp = Some(u32::from_le_bytes(*first));
            rest = behind;
        }
        if rest.is_empty() {
            return Err(34);
        }
        header.check_frame_id()?;
        Ok((header, rest))
    }

    /// Writes the header and then the payload to the front of `out`; gives how many bytes that were. Where it
    /// refuses, `out` is as it was.
    pub fn write(&self, payload: &[u8], out: &mut [u8]) -> Result<usize, u8> {
        self.check_flags()?;
        if payload.is_empty() {
            return Err(34);
        }
        self.check_frame_id()?;
        let mut head = [0; 6];
        let mut map = self.kind as u8;
        let mut len = 1;
        if let Some(id) = self.frame_id {
            map |= HAS_FRAME_ID;
            head[1] = id;
            len = 2;
        }
        if let Some(time) = self.timestamp {
            map |= HAS_TIMESTAMP;
            head[len..len + 4].copy_from_slice(&time.to_le_bytes());
            len += 4;
        }
        if self.random_access {
            map |= RANDOM_ACCESS;
        }
        if self.unreferenced {
            map |= UNREFERENCED;
        }
        head[0] = map;
        let total = len + payload.len();
        let out = out.get_mut(..total).ok_or(36)?;
        out[..len].copy_from_slice(&head[..len]);
        out[len..].copy_from_slice(payload);
        Ok(total)
    }
}

#[cfg(test)]
mod tests {
    use super::*;

    #[test]
    fn worked_examples() {
        let (header, payload) = SyncHeader::read(&[0x14, 0, 0xaa]).unwrap();
        let video = SyncHeader { kind: Kind::Video, frame_id: Some(0), timestamp: None, random_access: true, unreferenced: false };
        assert_eq!((header, payload), (video, &[0xaa][..]));
        assert_eq!(SyncHeader::read(&[0x07, 0, 0xaa]), Err(32));
    }

    #[test]
    fn each_question_is_asked() {
        assert_eq!(SyncHeader::read(&[]), Err(30));
        assert_eq!(SyncHeader::read(&[0x40]), Err(31));
        assert_eq!(SyncHeader::read(&[0x00, 1, 1]), Err(32));
        assert_eq!(SyncHeader::read(&[0x16, 1, 1]), Err(33));
        assert_eq!(SyncHeader::read(&[0x25, 1, 1]), Err(33));
        assert_eq!(SyncHeader::read(&[0x04, 60]), Err(34));
        assert_eq!(SyncHeader::read(&[0x0c, 60, 1, 2, 3, 4]), Err(34));
        assert_eq!(SyncHeader::read(&[0x04, 60, 1]), Err(35));
        assert!(SyncHeader::read(&[0x05, 60, 1]).is_ok());
        assert!(SyncHeader::read(&[0x03, 1]).is_ok());
    }

    #[test]
    fn written_and_read_again() {
        let mut out = [0xee; 12];
        let header = SyncHeader { kind: Kind::Audio, frame_id: Some(200), timestamp: Some(0x01020304), random_access: true, unreferenced: false };
        assert_eq!(header.write(&[7, 8], &mut out), Ok(8));
        assert_eq!(out, [0x1d, 200, 4, 3, 2, 1, 7, 8, 0xee, 0xee, 0xee, 0xee]);
        assert_eq!(SyncHeader::read(&out[..8]), Ok((header, &[7, 8][..])));
        assert_eq!(header.write(&[], &mut out), Err(34));
        assert_eq!(header.write(&[1; 7], &mut out), Err(36));
        assert_eq!(SyncHeader { kind: Kind::Video, ..header }.write(&[1], &mut out), Err(35));
        assert_eq!(SyncHeader { frame_id: None, ..header }.write(&[], &mut out), Err(32));
        assert_eq!(SyncHeader { unreferenced: true, ..header }.write(&[], &mut out), Err(33));
    }
}
