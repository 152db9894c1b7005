//! A second account of what a scan comes to, by the words of document 01 over the bytes of all pieces joined. It calls nothing of ours, and goes through no states.

use super::*;

/// What a scan goes through, where that is known.
#[derive(Clone, Copy, Debug, PartialEq, Eq)]
pub enum Sort {
    Tag,
    Pi,
    Comment,
    Cdata,
    /// `<!` and a byte that opens neither.
    Other,
    Reference,
    Text,
}

/// A content that a scan made in some state goes through.
#[derive(Default)]
pub struct Reading {
    made: usize,
    sort: Option<Sort>,
    /// Where the byte stands that is looked for.
    pub place: Option<usize>,
    /// Of a tag: each quote and the one that closes it, or the content's end.
    quoted: Vec<Span>,
}

/// Bytes that lead to a scan, but for some that are left out between, and the state that it is made in.
pub struct Way {
    made: usize,
    bytes: Vec<u8>,
    less: usize,
}

/// A piece that was fed: the scan before it, the number, and all slots that are lent.
pub struct Call<'a> {
    pub before: Scan,
    pub piece: &'a [u8],
    pub number: usize,
    pub slots: &'a mut [usize],
}

impl Call<'_> {
    /// Whether the byte is found in this piece.
    pub fn found(&self) -> bool {
        self.number == 0 && self.before[STATE] != CLOSED && self.slots[STATE] == CLOSED
    }

    /// Whether the scan is still open behind this piece.
    pub fn open(&self) -> bool {
        self.number == 0 && self.slots[STATE] != CLOSED
    }
}

/// An account by its parts, so that a wrong one can have one part of its own.
pub struct Account {
    pub fresh: fn(usize) -> Option<Scan>,
    /// What a piece is by its first bytes, if they tell.
    pub sort: fn(&[u8]) -> Option<Sort>,
    /// Whether the byte at a place is the one that is looked for; in a tag, if it is in no quotes.
    pub closes: fn(Sort, &[u8], usize) -> bool,
    pub is_quote: fn(u8) -> bool,
    /// Where the quote at a place is closed.
    pub unquote: fn(&[u8], usize) -> Option<usize>,
    /// How many bytes of the opener are still to come.
    pub left: fn(Sort, usize) -> usize,
    /// How many bytes of the closer stand at the end.
    pub seen: fn(Sort, &[u8]) -> usize,
    /// Of how many slots a scan has too few.
    pub few: fn(usize) -> bool,
    /// Whether so many bytes and so many more are too long.
    pub long: fn(usize, usize) -> bool,
    /// Bytes that lead to a scan if any do.
    pub way: fn(&Scan) -> Option<Way>,
    /// What is done at the end.
    pub end: fn(&mut Call),
}

pub const SOUND: Account = Account {
    fresh: |made| MADE.contains(&made).then_some([made, 0, if made == COMMENT { OPENER } else { 0 }, 0]),
    sort,
    closes,
    is_quote: |b| b == b'\'' || b == b'"',
    unquote: |bytes, at| (at + 1..bytes.len()).find(|&end| bytes[end] == bytes[at]),
    left: |sort, count| if sort == Sort::Comment { OPENER.saturating_sub(count) } else { 0 },
    seen,
    few: |slots| slots < SLOTS,
    long: |count, length| length > LONGEST - count,
    way,
    end: |_| (),
};

pub fn sort(bytes: &[u8]) -> Option<Sort> {
    match bytes {
        b"" | b"<" | b"<!" => None,
        [b'<', b'!', b'-', ..] => Some(Sort::Comment),
        [b'<', b'!', b'[', ..] => Some(Sort::Cdata),
        [b'<', b'!', ..] => Some(Sort::Other),
        [b'<', b'?', ..] => Some(Sort::Pi),
        [b'<', ..] => Some(Sort::Tag),
        [b'&', ..] => Some(Sort::Reference),
        _ => Some(Sort::Text),
    }
}

pub fn closes(sort: Sort, bytes: &[u8], at: usize) -> bool {
    let behind = |closer: &[u8]| bytes[at] == b'>' && bytes[..at].ends_with(closer);
    match sort {
        Sort::Tag => behind(b""),
        Sort::Pi => behind(b"?"),
        Sort::Comment => at >= 6 && behind(b"--"),
        Sort::Cdata => behind(b"]]"),
        Sort::Other => at == 2,
        Sort::Reference => at > 0 && b";&<".contains(&bytes[at]),
        Sort::Text => b"<&".contains(&bytes[at]),
    }
}

pub fn seen(sort: Sort, bytes: &[u8]) -> usize {
    let (closer, from): (&[u8], usize) = match sort {
        Sort::Pi => (b"?", 0),
        Sort::Comment => (b"--", OPENER),
        Sort::Cdata => (b"]]", 0),
        _ => return 0,
    };
    let content = bytes.get(from..).unwrap_or_default();
    (0..=closer.len()).rev().find(|&count| content.ends_with(&closer[..count])).unwrap_or(0)
}

/// Where many bytes were taken, a way of no more than this stands for it.
const MANY: usize = 16;

pub fn way(&[state, count, left, seen]: &Scan) -> Option<Way> {
    let short = count.min(MANY);
    // the head, as many letters as it takes, and some of one mark
    let filled = |head: &[u8], mark: u8, marks: usize| {
        let letters = short.checked_sub(head.len() + marks)?;
        Some([head, &vec![b'a'; letters], &vec![mark; marks]].concat())
    };
    let seen = seen.min(3);
    let (made, bytes) = match state {
        CLOSED => (TAG, [filled(b"", 0, 0)?, b">".to_vec()].concat()),
        PIECE => (PIECE, Vec::new()),
        OPENED => (PIECE, b"<".to_vec()),
        BANG => (PIECE, b"<!".to_vec()),
        TAG => (TAG, filled(b"", 0, 0)?),
        SINGLE_QUOTED => (TAG, filled(b"", b'\'', 1)?),
        DOUBLE_QUOTED => (TAG, filled(b"", b'"', 1)?),
        PI => (PI, filled(b"", b'?', seen)?),
        COMMENT if left > 0 => (COMMENT, b"<!--"[..OPENER.checked_sub(left)?].to_vec()),
        COMMENT => (COMMENT, filled(b"<!--", b'-', seen)?),
        CDATA => (CDATA, filled(b"", b']', seen)?),
        REFERENCE => (PIECE, filled(b"&", 0, 0)?),
        TEXT => (TEXT, filled(b"", 0, 0)?),
        _ => return None,
    };
    Some(Way { made, bytes, less: count - short })
}

impl Account {
    pub fn read(&self, made: usize, content: &[u8], reading: &mut Reading) {
        reading.made = made;
        reading.sort = match made {
            PIECE => (self.sort)(content),
            TAG => Some(Sort::Tag),
            PI => Some(Sort::Pi),
            COMMENT => Some(Sort::Comment),
            CDATA => Some(Sort::Cdata),
            _ => Some(Sort::Text),
        };
        reading.quoted.clear();
        reading.place = match reading.sort {
            None => None,
            Some(Sort::Tag) => self.tag(content, &mut reading.quoted),
            Some(sort) => (0..content.len()).find(|&at| (self.closes)(sort, content, at)),
        };
    }

    /// The first byte outside quotes that closes a tag. The quoted parts before it are kept.
    fn tag(&self, content: &[u8], quoted: &mut Vec<Span>) -> Option<usize> {
        let mut from = 0;
        loop {
            let at = (from..content.len()).find(|&at| (self.is_quote)(content[at]) || (self.closes)(Sort::Tag, content, at))?;
            if !(self.is_quote)(content[at]) {
                return Some(at);
            }
            let closed = (self.unquote)(content, at);
            quoted.push((at, closed.unwrap_or(content.len())));
            from = closed? + 1;
        }
    }

    /// The scan when so many bytes of the content were taken, whatever the pieces were.
    pub fn after(&self, content: &[u8], reading: &Reading, count: usize) -> Scan {
        if let Some(place) = reading.place.filter(|&place| place < count) {
            return [CLOSED, place, 0, 0];
        }
        let taken = &content[..count];
        let sort = if reading.made == PIECE { (self.sort)(taken) } else { reading.sort };
        let Some(sort) = sort else { return [[PIECE, OPENED, BANG][count.min(2)], count, 0, 0] };
        let state = match sort {
            Sort::Tag => self.quote(content, reading, count),
            Sort::Pi => PI,
            Sort::Comment => COMMENT,
            Sort::Cdata => CDATA,
            Sort::Reference => REFERENCE,
            Sort::Text | Sort::Other => TEXT,
        };
        [state, count, (self.left)(sort, count), (self.seen)(sort, taken)]
    }

    /// In which quotes a tag is when so many bytes were taken.
    fn quote(&self, content: &[u8], reading: &Reading, count: usize) -> usize {
        let before = reading.quoted.partition_point(|&(opened, _)| opened < count);
        match reading.quoted[..before].last() {
            Some(&(opened, closed)) if count <= closed => match content[opened] {
                b'\'' => SINGLE_QUOTED,
                _ => DOUBLE_QUOTED,
            },
            _ => TAG,
        }
    }

    /// The scan behind this piece of one that holds any numbers, if there are bytes that lead to these.
    pub fn resumed(&self, before: &Scan, piece: &[u8]) -> Option<Scan> {
        let most = if before[STATE] == CLOSED { LONGEST - 1 } else { LONGEST };
        let way = (self.way)(before).filter(|_| before[COUNT] <= most)?;
        let mut reading = Reading::default();
        let after = |reading: &Reading, bytes: &[u8]| {
            let mut scan = self.after(bytes, reading, bytes.len());
            scan[COUNT] += way.less;
            scan
        };
        self.read(way.made, &way.bytes, &mut reading);
        if after(&reading, &way.bytes) != *before {
            return None;
        }
        let joined = [&way.bytes, piece].concat();
        self.read(way.made, &joined, &mut reading);
        Some(after(&reading, &joined))
    }

    /// What is to be answered to a piece, and written; `due` is what the scan comes to, if its numbers are some that feeding leads to.
    pub fn feed(&self, before: Scan, piece: &[u8], due: impl FnOnce() -> Option<Scan>, slots: &mut [usize]) -> usize {
        let mut call = Call { before, piece, number: 0, slots };
        if (self.few)(call.slots.len()) {
            return BAD_STATE;
        }
        match due() {
            None => call.number = BAD_STATE,
            Some(_) if before[STATE] == CLOSED => (),
            Some(_) if (self.long)(before[COUNT], piece.len()) => call.number = TOO_LONG,
            Some(scan) => call.slots[..SLOTS].copy_from_slice(&scan),
        }
        (self.end)(&mut call);
        call.number
    }
}
