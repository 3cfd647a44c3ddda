//! An account of the orders that a key block gave and of the replies that it took, and of the
//! handles that it gave.

use crate::small::response;
use model::{Call, EngineReply, Erasure, Lent, Order, Reply, Request, Said, PLACES};

/// The orders of a sequence, in the order in which they were given, and its handles.
#[derive(Clone, Default)]
pub struct Account {
    pub orders: Vec<Given>,
    /// The number of the order to which no reply was taken yet; a cut or restart drops it.
    pub open: Option<usize>,
    /// The last order that named each place, if any since the last cut or restart.
    pub named: [Option<usize>; PLACES],
    /// The table's handles with their algorithms, as it was made and as RHPK answered since.
    pub handles: Vec<[u32; 2]>,
    /// The numbers of the handles at the start and of all that were given since.
    pub numbers: Vec<u32>,
}

/// An order that was given.
#[derive(Clone, Copy)]
pub struct Given {
    pub order: Order,
    /// The tag that the request names.
    pub tag: Option<u64>,
    pub answer: Option<EngineReply>,
}

impl Account {
    /// Enters what a call came to, and what it left.
    pub fn enter(&mut self, call: &Call, said: Said, left: &Lent) {
        match (call, said) {
            (Call::MakeTable { handles, algorithms }, Said::Made(Ok(()))) => {
                let both = handles.iter().zip(algorithms);
                self.handles = both.map(|(handle, algorithm)| [*handle, *algorithm]).collect();
                self.numbers.extend(handles);
            }
            (_, Said::Nothing | Said::Erasure(Erasure::Cut { .. })) => {
                (self.open, self.named) = (None, [None; PLACES]);
            }
            (Call::EngineReply(reply), Said::Taken(Ok(()))) => {
                let open = self.open.take().and_then(|open| self.orders.get_mut(open));
                open.into_iter().for_each(|given| given.answer = Some(*reply));
            }
            (Call::Mailbox(request), Said::Reply(Reply::Accepted { order, .. })) => {
                self.rotate(request, left);
                let number = Some(self.orders.len());
                match order {
                    Order::None => return,
                    Order::Clear { .. } => self.named = [number; PLACES],
                    Order::Load { place, .. } | Order::Unload { place, .. } => {
                        self.named[place as usize] = number;
                    }
                }
                self.open = number;
                self.orders.push(Given { order, tag: request.tag(), answer: None });
            }
            _ => {}
        }
    }

    /// Enters the number that RHPK answered, in the place of the handle that it names.
    fn rotate(&mut self, request: &Request, left: &Lent) {
        if let Some(old) = request.handle() {
            let new = response(left, 16)[3];
            self.numbers.push(new);
            let named = self.handles.iter_mut().find(|[handle, _]| *handle == old);
            named.into_iter().for_each(|[handle, _]| *handle = new);
        }
    }
}
