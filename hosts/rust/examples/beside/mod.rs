//! Two engines side by side over one document, each with memory of its own. After every call all is compared that they answered and left. The example `release` goes by it; the tests show by faulty engines that it notices.

use sporebasket::lent::{self, ANSWER_SLOTS, NAME_SLOTS, STATE_SLOTS};
use std::fmt;

/// What an engine is lent besides the document, and the number that it answered. Its answer and its state have a slot to spare.
pub struct Lent {
    pub number: usize,
    pub answer: [usize; ANSWER_SLOTS + 1],
    pub state: [usize; STATE_SLOTS + 1],
    pub stack: Vec<usize>,
}

/// What stands in a slot that no call has written.
const UNTOUCHED: usize = 0x5555_5555;

/// What stands in the slots of the main engine and of the plain one that are to be written, whatever is there.
const JUNK: [usize; 2] = [0xAAAA_AAAA, 0x3333_3333];

/// Slots with this junk, and one to spare.
fn slots<const N: usize>(junk: usize) -> [usize; N] {
    let mut slots = [junk; N];
    slots[N - 1] = UNTOUCHED;
    slots
}

impl Lent {
    /// A fresh reader, or the number of the refusal to make it.
    fn new(document: &[u8], settings: usize, junk: usize) -> Result<Self, usize> {
        let mut state = slots(junk);
        match lent::new(document, settings, &mut state) {
            0 => Ok(Lent {
                number: 0,
                answer: slots(junk),
                state,
                stack: Vec::new(),
            }),
            number => Err(number),
        }
    }

    /// Makes a stack that is full longer, if so many names may be open. A call opens one name at most.
    fn make_room(&mut self, names: usize) {
        let (depth, room) = (self.state[2], self.stack.len() / NAME_SLOTS);
        if depth == room {
            let room = (2 * room).max(32).min(names);
            self.stack.resize(room * NAME_SLOTS, UNTOUCHED);
        }
    }

    fn is_at_end(&self) -> bool {
        self.answer[0] == EOF
    }
}

/// The number, and all slots but those to spare that were left alone; of the stack one that the other engine left otherwise.
struct Shown<'a>(&'a Lent, Option<usize>);

impl fmt::Display for Shown<'_> {
    fn fmt(&self, f: &mut fmt::Formatter<'_>) -> fmt::Result {
        let Shown(lent, slot) = self;
        write!(f, "{}", lent.number)?;
        for (name, slots) in [("answer", &lent.answer[..]), ("state", &lent.state)] {
            write!(f, ", {name}")?;
            let spare = slots.last().is_some_and(|slot| *slot == UNTOUCHED);
            for slot in &slots[..slots.len() - usize::from(spare)] {
                write!(f, " {slot}")?;
            }
        }
        match slot {
            Some(slot) => write!(f, ", slot {slot} of the stack {}", lent.stack[*slot]),
            None => Ok(()),
        }
    }
}

/// What is wrong with a run.
#[derive(Debug, PartialEq)]
pub enum Fault {
    /// The engines differ in this call, counted from 1: what each answered and left.
    Differ {
        call: usize,
        settings: usize,
        main: String,
        plain: String,
    },
    /// End of file did not come by this call.
    NoEnd { call: usize, settings: usize },
}

impl fmt::Display for Fault {
    fn fmt(&self, f: &mut fmt::Formatter<'_>) -> fmt::Result {
        match self {
            Fault::Differ {
                call,
                settings,
                main,
                plain,
            } => write!(
                f,
                "the engines differ in call {call}, with the settings {settings}\nmain: {main}\nplain: {plain}"
            ),
            Fault::NoEnd { call, settings } => {
                write!(f, "no end of file by call {call}, with the settings {settings}")
            }
        }
    }
}

/// The two engines, `M` and `P`, functions as [`lent::read_event`] is, and the run over a document.
pub struct Beside<'d, M, P> {
    document: &'d [u8],
    settings: usize,
    names: usize,
    engines: (M, P),
    main: Lent,
    plain: Lent,
    calls: usize,
}

impl<'d, M, P> Beside<'d, M, P>
where
    M: FnMut(&[u8], &mut [usize], &mut [usize], &mut [usize]) -> usize,
    P: FnMut(&[u8], &mut [usize], &mut [usize], &mut [usize]) -> usize,
{
    /// A run that has not begun, in which so many names may be open, or the number of the refusal to make a reader.
    pub fn new(document: &'d [u8], settings: usize, names: usize, engines: (M, P)) -> Result<Self, usize> {
        Ok(Beside {
            document,
            settings,
            names,
            engines,
            main: Lent::new(document, settings, JUNK[0])?,
            plain: Lent::new(document, settings, JUNK[1])?,
            calls: 0,
        })
    }

    /// How many calls each engine has made.
    pub fn calls(&self) -> usize {
        self.calls
    }

    /// Makes the next call by both: what the plain engine answered and left, if the main one did the same. None after end of file, which has to come by call number length + 2.
    pub fn call(&mut self) -> Result<Option<&Lent>, Fault> {
        if self.calls > 0 && self.plain.is_at_end() {
            return Ok(None);
        }
        if self.calls == self.document.len() + 2 {
            return Err(Fault::NoEnd {
                call: self.calls,
                settings: self.settings,
            });
        }
        self.calls += 1;
        let Beside { main, plain, .. } = self;
        for (lent, junk) in [(&mut *main, JUNK[0]), (&mut *plain, JUNK[1])] {
            lent.make_room(self.names);
            lent.answer = slots(junk);
        }
        let (by_main, by_plain) = &mut self.engines;
        main.number = by_main(self.document, &mut main.stack, &mut main.state, &mut main.answer);
        plain.number = by_plain(self.document, &mut plain.stack, &mut plain.state, &mut plain.answer);
        self.compare()?;
        Ok(Some(&self.plain))
    }

    /// Compares the numbers and all slots.
    fn compare(&self) -> Result<(), Fault> {
        let Beside { main, plain, .. } = self;
        if main.number == plain.number
            && main.answer == plain.answer
            && main.state == plain.state
            && main.stack == plain.stack
        {
            return Ok(());
        }
        let mut slots = main.stack.iter().zip(&plain.stack);
        let slot = slots.position(|(main, plain)| main != plain);
        Err(Fault::Differ {
            call: self.calls,
            settings: self.settings,
            main: Shown(main, slot).to_string(),
            plain: Shown(plain, slot).to_string(),
        })
    }
}

/// The kind of an end of file.
const EOF: usize = 10;
