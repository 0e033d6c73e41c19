//! How cases are stored: sheets with their protocol for the program `wall_corpus`, single calls for the program `call_corpus`. Numbers lie low byte first.
use crate::calls;
use crate::listing::listing;
use crate::sizes::Protocol;
use std::io::{self, Read, Write};

/// The next N bytes, or none where the input ends before.
fn header<const N: usize>(input: &mut impl Read) -> io::Result<Option<[u8; N]>> {
    let mut bytes = [0; N];
    match input.read_exact(&mut bytes) {
        Ok(()) => Ok(Some(bytes)),
        Err(e) if e.kind() == io::ErrorKind::UnexpectedEof => Ok(None),
        Err(e) => Err(e),
    }
}

fn bytes(input: &mut impl Read, len: usize) -> io::Result<Vec<u8>> {
    let mut bytes = vec![0; len];
    input.read_exact(&mut bytes)?;
    Ok(bytes)
}

fn values(input: &mut impl Read, len: usize) -> io::Result<Vec<u16>> {
    Ok(bytes(input, 2 * len)?.chunks_exact(2).map(|pair| u16::from_le_bytes([pair[0], pair[1]])).collect())
}

fn length(len: usize) -> [u8; 2] {
    u16::try_from(len).expect("a slice of a stored case is shorter than 65,536").to_le_bytes()
}

/// A sheet, and what the wall runs.
#[derive(Clone, PartialEq, Eq, Hash, Debug)]
pub struct WallCase {
    pub protocol: Protocol,
    pub sheet: Vec<u8>,
}

impl WallCase {
    pub fn read(input: &mut impl Read) -> io::Result<Option<WallCase>> {
        let Some([posting, poster, low, high]) = header(input)? else { return Ok(None) };
        let protocol = if posting == 0 { Protocol::Agreement } else { Protocol::Posting(poster.into()) };
        let sheet = bytes(input, u16::from_le_bytes([low, high]).into())?;
        Ok(Some(WallCase { protocol, sheet }))
    }

    pub fn write(&self, output: &mut impl Write) -> io::Result<()> {
        let (posting, poster) = match self.protocol {
            Protocol::Agreement => (0, 0),
            Protocol::Posting(s) => (1, s as u8),
        };
        output.write_all(&[posting, poster])?;
        output.write_all(&length(self.sheet.len()))?;
        output.write_all(&self.sheet)
    }

    /// What is to be printed.
    pub fn answer(&self) -> String {
        listing(self.protocol, &self.sheet)
    }
}

/// The calls, each by its name once: a stored case has its place in this list.
macro_rules! calls {
    ($($name:ident)*) => {
        /// A call of include/column.h or include/wall.h.
        #[derive(Clone, Copy, PartialEq, Eq, Hash, Debug)]
        #[repr(u8)]
        pub enum Call { $($name),* }

        const CALLS: &[Call] = &[$(Call::$name),*];
    };
}

calls! {
    ColumnRounds ColumnValues
    ColumnFresh PostingFresh ColumnSpeak ColumnListen ColumnOutcome
    ColumnWall PostingWall ColumnDecode
}

/// A single call with everything that it is handed: up to four numbers (n, m, own or round, poster or protocol), a slice that is only read, one of bytes that
/// may be written, two of values. A call takes those of them that its header names.
#[derive(Clone, PartialEq, Eq, Hash, Debug)]
pub struct CallCase {
    pub call: Call,
    pub numbers: [u32; 4],
    pub a: Vec<u8>,
    pub b: Vec<u8>,
    pub v: Vec<u16>,
    pub w: Vec<u16>,
}

impl CallCase {
    pub fn new(call: Call) -> CallCase {
        CallCase { call, numbers: [0; 4], a: vec![], b: vec![], v: vec![], w: vec![] }
    }

    pub fn read(input: &mut impl Read) -> io::Result<Option<CallCase>> {
        let Some(head) = header::<25>(input)? else { return Ok(None) };
        let call = *CALLS.get(usize::from(head[0])).ok_or_else(|| io::Error::other("no call has this number"))?;
        let numbers = std::array::from_fn(|i| u32::from_le_bytes(std::array::from_fn(|k| head[1 + 4 * i + k])));
        let length = |i: usize| usize::from(u16::from_le_bytes([head[17 + 2 * i], head[18 + 2 * i]]));
        let (a, b) = (bytes(input, length(0))?, bytes(input, length(1))?);
        let (v, w) = (values(input, length(2))?, values(input, length(3))?);
        Ok(Some(CallCase { call, numbers, a, b, v, w }))
    }

    pub fn write(&self, output: &mut impl Write) -> io::Result<()> {
        output.write_all(&[self.call as u8])?;
        self.numbers.iter().try_for_each(|x| output.write_all(&x.to_le_bytes()))?;
        [self.a.len(), self.b.len(), self.v.len(), self.w.len()].iter().try_for_each(|&len| output.write_all(&length(len)))?;
        output.write_all(&self.a)?;
        output.write_all(&self.b)?;
        self.v.iter().chain(&self.w).try_for_each(|value| output.write_all(&value.to_le_bytes()))
    }

    /// Makes the call; the slices are then as it leaves them.
    pub fn play(&mut self) -> usize {
        use Protocol::{Agreement, Posting};
        let [n, m, x, y] = self.numbers;
        let (a, b, v, w) = (&self.a, &mut self.b, &mut self.v, &mut self.w);
        let refusal = match self.call {
            Call::ColumnRounds => return calls::rounds(y, n),
            Call::ColumnValues => return calls::values(y, n, m, x),
            Call::ColumnFresh => calls::fresh(Agreement, n, m, x, a, b),
            Call::PostingFresh => calls::fresh(Posting(y), n, m, x, a, b),
            Call::ColumnSpeak => calls::speak(b, v),
            Call::ColumnListen => calls::listen(b, v),
            Call::ColumnOutcome => calls::outcome(a, b),
            Call::ColumnWall => calls::wall(Agreement, a, b),
            Call::PostingWall => calls::wall(Posting(y), a, b),
            Call::ColumnDecode => calls::decode_block(n, v, w),
        };
        refusal.into()
    }

    /// What is to be printed: the number that the call answered, and the slices after it.
    pub fn line(&self, number: usize) -> String {
        let bytes: String = self.b.iter().map(|byte| format!("{byte:02x}")).collect();
        let hex = |values: &[u16]| values.iter().map(|value| format!("{value:04x}")).collect::<String>();
        format!("{number} {bytes} {} {}\n", hex(&self.v), hex(&self.w))
    }

    pub fn answer(mut self) -> String {
        let number = self.play();
        self.line(number)
    }
}
